"""Tables of titles: a line for each file, with the file, artist and title, or with album, ISRC and label too, and TABs
between."""
import os
from dataclasses import dataclass
from typing import Dict, Iterable, List

from liq.failed import Failed

COLUMNS = (3, 6)       # cells of a line
ENDING = ".titles.tsv"         # of the table beside a rendering, as liq-night writes it


class NoTitles(Failed):
    """A table that is none."""

    def __init__(self, text: str):
        super().__init__(text, 3)


@dataclass(frozen=True)
class Told:
    """What a table tells of a file."""
    artist: str = ""
    title: str = ""
    album: str = ""
    isrc: str = ""
    label: str = ""


class Titles:
    """What files are called, by their names in cue files."""

    def __init__(self, told: Dict[str, Told]):
        self.told = told

    def of(self, name: str) -> str:
        """Artist and title of a file, or its name where the tables have no title."""
        told = self.all_of(name)
        return " \u2013 ".join(text for text in (told.artist, told.title) if text) if told.title else name

    def all_of(self, name: str) -> Told:
        """All that the tables tell of a file."""
        return self.told.get(name, Told())


def tables_beside(names: Iterable[str]) -> List[str]:
    """The tables beside these renderings."""
    return [name + ENDING for name in names if os.path.isfile(name + ENDING)]


def read_titles(paths: Iterable[str]) -> Titles:
    """The titles of these tables; where several tell one file, the last one counts."""
    told = {}
    for path in paths:
        with open(path, "rb") as file:
            lines = file.read().decode("utf-8", "replace").split("\n")
        for number, line in enumerate(lines[:-1] if lines[-1] == "" else lines, 1):
            name, *cells = line.removesuffix("\r").split("\t")
            if len(cells) + 1 not in COLUMNS:
                raise NoTitles(f"{path}, line {number}: has not 3 cells (file, artist, title) or 6 (album, ISRC, label), with "
                               "TABs between")
            told[name] = Told(*cells)
    return Titles(told)
