"""The new text of a script: what goes stands as a comment above what stands in its place."""
import re
from typing import Dict, List, Optional, Sequence

from liq.adopting.marks import mark, plain
from liq.adopting.slicing import Line
from liq.adopting.tree import Statement, Tree


def settings_first(lines: List[Line]) -> List[Line]:
    """Moves settings before the first statement that stays and is none."""
    first = next((k for k, line in enumerate(lines) if line.new is not None and not line.is_setting), None)
    late = [line for line in lines[first or 0:] if line.is_setting and line.new is not None]
    if first is None or not late:
        return lines
    front = "\n".join(line.new or "" for line in late)
    moved = {id(line) for line in late}
    found = [Line(line.statement, None, True) if id(line) in moved else line for line in lines]
    found[first] = Line(lines[first].statement, f"{front}\n{lines[first].new}")
    return found


def by_home(lines: Sequence[Line], homes: Sequence[int]) -> Dict[int, str]:
    """What stands in the place of each statement of the old script, by its number; nothing of one that goes."""
    found: Dict[int, List[str]] = {}
    for line, home in zip(lines, homes):
        if line.new is not None:
            found.setdefault(home, []).append(line.new)
    return {home: "\n".join(texts) for home, texts in found.items()}


class Sheet:
    """The new text, as it is laid from its begin on."""

    def __init__(self, text: str):
        self.parts: List[str] = []
        self.end = "\r\n" if "\r\n" in text else "\n"
        self.is_open = False                   # whether a comment is to be ended before what comes next

    def put(self, part: str) -> None:
        """Adds a part of the old text that stays."""
        if self.is_open and part.strip(" \t;") and not part.lstrip(" \t;").startswith(("\n", "\r", "#")):
            self.parts.append(self.end)
        self.is_open = self.is_open and not part.strip(" \t;")
        self.parts.append(part)

    def replace(self, old: str, new: Optional[str]) -> None:
        """Adds a statement as a comment, and what stands in its place."""
        if self.parts and plain("".join(self.parts[-2:])).rpartition("\n")[2].strip():
            self.parts.append(self.end)
        self.parts.append("\n".join("#- " + one for one in old.split("\n")))
        self.is_open = new is None
        if new is not None:
            self.parts.append(self.end + re.sub(r"\r?\n", self.end, new))


def laid(tree: Tree, statements: Sequence[Statement], made: Dict[int, str]) -> str:
    """The text of a script, with marks, with what stands in the places of its statements."""
    begin = int(tree.text.startswith("\ufeff"))
    sheet, place = Sheet(tree.text), begin
    for number, statement in enumerate(statements):
        at, old, new = tree.at(statement), tree.raw(statement), made.get(number)
        sheet.put(tree.text[place:at])
        place = at + len(old)
        if new is not None and plain(new) == old:
            sheet.put(mark(at) + new)
        else:
            sheet.replace(old, new)
    sheet.put(tree.text[place:])
    return "".join(sheet.parts)
