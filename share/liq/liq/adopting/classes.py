"""What becomes of each word and argument of Liquidsoap, read off the third column of the tables of
docs/liquidsoap.md: a class, and the edit."""
import functools
import re
from dataclasses import dataclass
from typing import Dict, Optional, Tuple

from liq.advising import tables

# What stands in the column: what is done with a word or an argument of the row.
SOURCE, MAY_STOP = "its source", "its source, may stop"
EDITS = ("left out", MAY_STOP, SOURCE, "its default", "fail()", "blank()", "rewritten", "%wav", "a file", "a stand-in")
CELL = re.compile(rf"(same|less|you): ({'|'.join(map(re.escape, EDITS))})")


@dataclass(frozen=True)
class Row:
    """A row: the class of the edit, the edit, and the nearest way in words."""
    sort: str
    edit: str
    way: str

    @property
    def why(self) -> str:
        """What is said behind "is left out": the nearest way without these words."""
        rest = re.sub(r"^leave it out(, and |: |$)", "", self.way)
        return f": {rest}" if rest else ""


@functools.lru_cache(maxsize=None)
def classes() -> "Classes":
    """The rows, read once."""
    return Classes()


class Classes:
    """The rows by the words, the fronts of families, and the arguments that they are for."""

    def __init__(self) -> None:
        self.words: Dict[str, Row] = {}
        self.families: Dict[str, Row] = {}
        self.arguments: Dict[Tuple[str, str, Optional[str]], Row] = {}
        for line in tables.page("liquidsoap.md"):
            row = tables.cells(line)
            match = CELL.fullmatch(row[2]) if len(row) == 3 else None
            if match:
                for text in re.findall(r"`([^`]*)`", row[0]):
                    self.note(text, Row(match[1], match[2], tables.plain(row[1])))

    def note(self, text: str, row: Row) -> None:
        """Notes what stands in the first column of a table."""
        argument = tables.ARGUMENT.fullmatch(text)
        if argument:
            self.arguments[argument[1], argument[2], argument[3]] = row
        elif text.endswith(".*"):
            self.families[text[:-1]] = row
        else:
            self.words.setdefault(text, row)

    def of(self, name: str) -> Optional[Row]:
        """The row of a word, or of the family that it is of, or nothing."""
        if name in self.words:
            return self.words[name]
        fronts = [front for front in self.families if name.startswith(front)]
        return self.families[max(fronts, key=len)] if fronts else None

    def of_argument(self, call: str, label: Optional[str], value: str = "") -> Optional[Row]:
        """The row of an argument, or nothing."""
        if label is None:
            return None
        return self.arguments.get((call, label, value)) or self.arguments.get((call, label, None))
