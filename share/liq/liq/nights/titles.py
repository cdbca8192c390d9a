"""The titles of what a night plays: NAME.titles.tsv beside each rendering, a table as liq-prepare makes it."""
import os
from typing import Iterable, List

from liq.nights.rooms import Room
from liq.pages.titles import ENDING, NoTitles, Told, read_titles
from liq.preparing.lists import TITLES, line_of_titles


def tables_of(lists: Iterable[str]) -> List[str]:
    """The tables of titles beside these lists, each once."""
    found = dict.fromkeys(os.path.join(os.path.dirname(name), TITLES) for name in lists)
    return [path for path in found if os.path.isfile(path)]


def lines_of(tables: Iterable[str], played: Iterable[str]) -> "tuple[List[str], List[str]]":
    """The lines of these tables for the files that are played, and a line for each table that cannot be read."""
    found, told = {}, []
    for path in tables:
        try:
            found.update(read_titles([path]).told)
        except (OSError, NoTitles) as error:
            told.append(f"{path}: {error.strerror}" if isinstance(error, OSError) else str(error))
    lines = [line_of_titles(name, vars(found[name])) for name in dict.fromkeys(played) if found.get(name, Told()) != Told()]
    return [line for line in lines if line], told


def written(room: Room, name: str, target: str, lines: List[str]) -> List[str]:
    """Writes the table of a file in a room, where there is any, or was one at its name; the endings of what was
    written."""
    if not lines and not os.path.lexists(target + ENDING):
        return []
    room.write(name + ENDING, "".join(line + "\n" for line in lines).encode(errors="surrogateescape"))
    return [ENDING]
