"""A look at the text of a script alone: its first fault, and its silent hours. No file that it names is read, so that
faults of files and of what depends on them (E20 to E33) are not told."""
import os
import re
import tempfile
from typing import List, NamedTuple, Optional, Tuple

from liq.advising.helping import Edit
from liq.advising.lines import Advice
from liq.advising.mending import Fault
from liq.advising.reader import SECONDS, Reader
from liq.advising.script import Script
from liq.reading.companion import Companion, NoAnswer
from liq.weeks.told import told

SCRIPT = "script.liq"      # the name of the text in a folder of its own


class Span(NamedTuple):
    """The characters of a text from one to before another."""
    first: int
    behind: int


class Told(NamedTuple):
    """What is told of a place: its sort, "error" or "warning"; the number of the fault, or "week"; what it says, the
    help and the edit that the help names, or nothing."""
    sort: str
    code: str
    span: Span
    text: str
    help: Optional[str] = None
    edit: Optional[Edit] = None


class Look:
    """The programs, and what they tell of texts."""

    def __init__(self, liq: str, companion: Companion):
        self.liq, self.companion = liq, Companion(companion.path, SECONDS)
        self.reader = Reader(liq, self.companion)

    def at(self, text: str) -> List[Told]:
        """What is told of a text: its first fault, or else its silent hours. `NoAnswer` where the programs have none."""
        data = text.encode("utf-8", "surrogateescape")
        found = self.reader.fault(data)
        if found is not None:
            return [self.fault(found)]
        with tempfile.TemporaryDirectory(prefix="liq-look-") as folder:
            path = os.path.join(folder, SCRIPT)
            with open(path, "wb") as file:
                file.write(data)
            return self.hours(path, data)

    def fault(self, found: Fault) -> Told:
        """What is told of a fault. Its edit is one that the reader finds to mend it."""
        fault = found._replace(help=Advice(SCRIPT, self.companion, found.script).line(found.line, found.place))
        return Told("error", fault.line[:3], span_of(fault), fault.line[4:], fault.help, self.reader.proved(fault))

    def hours(self, path: str, data: bytes) -> List[Told]:
        """The silent hours of a text, as warnings."""
        try:
            week = told(self.companion, path)
        except NoAnswer:
            return []
        script = Script(data, self.companion.tokens_of(data))
        found = []
        for line in week.once():
            match = re.search(r":(\d+):(\d+)$", line.place or "")
            at = script.place(int(match[1]), int(match[2])) if match else 0
            found.append(Told("warning", "week", word_at(script, at), line.text))
        return list(dict.fromkeys(found))


def word_at(script: Script, at: int) -> Span:
    """The token that begins at a character, or the character alone."""
    number = script.number_at(at)
    token = script.tokens[number] if number is not None else None
    return Span(at, at + len(token.name)) if token else Span(at, min(at + 1, len(script.text)))


def span_of(fault: Fault) -> Span:
    """The characters that a fault is about."""
    at, text = min(fault.at, len(fault.script.text)), fault.script.text
    if fault.line.startswith("E03"):
        return Span(at, at + len(text[at:].split("\n")[0]))
    if fault.number is not None and fault.token is None:
        last = fault.script.tokens[-1] if fault.script.tokens else None
        return Span(last.at, last.behind) if last else Span(0, 0)
    return word_at(fault.script, at)


def line_and_column(text: str, at: int) -> Tuple[int, int]:
    """The line and the column of a character, both from 0; a column counts characters, of which a TAB is one."""
    begin = text.rfind("\n", 0, at) + 1
    return text.count("\n", 0, at), at - begin
