"""The text of a script for the page: its lines, and the marks in them. What is not seen, or turns a text round,
stands there as its number."""
from typing import Dict, List, NamedTuple, Union

from liq.watching.names import is_unseen

MOST = 1 << 18             # characters of a script that are shown
FAULT, SILENT, LESS, YOU = "fault", "silent", "less", "you"


class Mark(NamedTuple):
    """A mark: its sort, the first character and the one behind the last, what it says, and the help."""
    sort: str
    at: int
    behind: int
    text: str
    help: str = ""


def plain(text: str) -> str:
    """A text as a page shows it."""
    return "".join(f"\u2039{ord(c):X}\u203a" if c != "\t" and is_unseen(c) else c for c in text)


Piece = Union[str, "list[object]"]


def lines_of(text: str, marks: List[Mark]) -> "list[list[Piece]]":
    """The lines of a text, each as pieces: a text, or a text with the number of its mark. Of marks that lie on one
    another the first one counts."""
    found: "list[list[Piece]]" = [[]]
    at = 0
    for number, mark in sorted(enumerate(marks), key=lambda one: one[1].at):
        first = max(at, mark.at)
        behind = min(max(mark.behind, first + 1), len(text))
        behind = min(behind, text.find("\n", first) if "\n" in text[first:behind] else behind)
        add(found, text[at:first])
        if first < behind:
            found[-1].append([plain(text[first:behind]), number])
        at = max(at, behind)
    add(found, text[at:MOST])
    return found


def add(lines: "list[list[Piece]]", text: str) -> None:
    """Adds a text without a mark."""
    for k, line in enumerate(text.split("\n")):
        if k:
            lines.append([])
        if line:
            lines[-1].append(plain(line.removesuffix("\r")))


def line_of(text: str, at: int) -> int:
    """The number of the line of a character, from 1."""
    return text.count("\n", 0, at) + 1


def told_of(marks: List[Mark], text: str) -> "list[Dict[str, object]]":
    """The marks as the page gets them."""
    return [{"sort": mark.sort, "line": line_of(text, mark.at), "text": plain(mark.text), "help": plain(mark.help)}
            for mark in marks]
