"""What the proved reader says of a text: its first fault, with its place. An edit is named where the reader finds that it
mends the fault at hand."""
import collections
import os
import re
import subprocess
from typing import Optional, Tuple

from liq.advising.helping import Edit
from liq.advising.mending import Fault, edit_of
from liq.advising.script import Script
from liq.reading.companion import Companion, NoAnswer, NoPlan, temporary_folder
from liq.reading.facts import Tokens as Told
from liq.reading.programs import LIQ, beside

SECONDS = 20               # of a call of the reader
KEPT = 32                  # texts of which the answer is remembered
SCRIPT = "script.liq"      # the name of a text in a folder of its own
TOO_LONG = ("E05 script too long", None)
OF_TEXT = re.compile(r"E(0\d|1\d) ")
SIGNS = b"|;~^!@#$%&*+=?<>"      # signs that may stand for `/` in a text
STATUSES = {3: "it cannot be read", 4: "its line cannot be written", 5: "memory is refused, or a type passes its bound"}


def stand_in(data: bytes) -> bytes:
    """A sign that stands nowhere in a script, so that no two texts become one if it stands for another sign."""
    return next((bytes([sign]) for sign in SIGNS if sign not in data), b"|")


def without_files(data: bytes, companion: Companion) -> bytes:
    """A script in which no text is the name of a file elsewhere: each `/` in a text is another sign there, so that all
    places stay the same."""
    found, sign = bytearray(data), stand_in(data)
    for token in companion.tokens_of(data).tokens:
        if token.kind == "text":
            found[token.start:token.end] = found[token.start:token.end].replace(b"/", sign)
    return bytes(found)


def step_of(code: str) -> int:
    """The step of docs/faults.md that tells a fault: bytes, statements, names and types, evaluation, files and on."""
    return next(number for number, last in enumerate(("E04", "E07", "E12", "E19", "E99")) if code <= last)


class Reader:
    """The programs, and what they say of a text alone. It remembers the last answers."""

    def __init__(self, liq: str, companion: Companion) -> None:
        self.liq, self.companion = liq, companion
        self.kept: "collections.OrderedDict[bytes, Optional[Tuple[str, Optional[Tuple[int, int]]]]]" = collections.OrderedDict()

    def fault(self, data: bytes) -> Optional[Fault]:
        """The first fault of the language in a text, without help, or nothing. No file that it names is read. `NoAnswer`
        where the programs have none."""
        if data not in self.kept:
            self.kept[data] = self.asked(data)
            if len(self.kept) > KEPT:
                self.kept.popitem(last=False)
        found = self.kept[data]
        if found is None:
            return None
        script = Script(b"", Told((), 0, None)) if found == TOO_LONG else Script(data, self.companion.tokens_of(data))
        return Fault(script, found[0], found[1], None)

    def asked(self, data: bytes) -> Optional[Tuple[str, Optional[Tuple[int, int]]]]:
        """The line of that fault, and the place that `where` shows for it."""
        try:
            quiet = without_files(data, self.companion)
        except NoPlan:                                      # it has no tokens where it is too long
            return TOO_LONG
        with temporary_folder("liq-read-") as folder:
            path = os.path.join(folder, SCRIPT)
            with open(path, "wb") as file:
                file.write(quiet)
            line = self.checked(SCRIPT, folder)
            if line is None or not OF_TEXT.match(line):
                return None
            place = place_of(self.companion.where(path, line + "\n"), path)
        return line.replace(stand_in(data).decode(), "/") if line.startswith("E18") else line, place

    def checked(self, path: str, folder: Optional[str] = None) -> Optional[str]:
        """The line of a fault of a script, or nothing where it is accepted; names count from `folder`, or from the folder
        in which this process is."""
        try:
            done = subprocess.run([self.liq, "check", path], cwd=folder, stdin=subprocess.DEVNULL, check=False,
                                  capture_output=True, timeout=SECONDS)
        except (OSError, subprocess.TimeoutExpired) as error:
            raise NoAnswer(f"liq check has no answer: {error}", 5) from None
        if done.returncode not in (0, 1):
            raise NoAnswer(f"liq check has no verdict: {STATUSES.get(done.returncode, done.returncode)}", 5)
        return done.stderr.decode("utf-8", "surrogateescape").removesuffix("\n") if done.returncode else None

    def with_files(self, data: bytes) -> Optional[str]:
        """The line of the first fault of a text with the files that it names, or nothing where it is accepted."""
        with temporary_folder("liq-read-") as folder:
            path = os.path.join(folder, SCRIPT)
            with open(path, "wb") as file:
                file.write(data)
            return self.checked(path)

    def proved(self, fault: Fault) -> Optional[Edit]:
        """The edit that the help of a fault names, if the reader takes the text that it makes, or finds that this fault is
        gone and none came in its place."""
        edit = edit_of(fault)
        if edit is None:
            return None
        data = edit.of(fault.script.text).encode("utf-8", "surrogateescape")
        try:
            after = self.fault(data)
            if after is None and not OF_TEXT.match(fault.line):
                return edit if is_other(fault.line, self.with_files(data)) else None
        except (NoAnswer, OSError):
            return None
        return edit if after is None or is_gone(fault, edit, after) else None


def is_other(line: str, after: Optional[str]) -> bool:
    """Whether a fault of files is gone, by the line of the first one that is left."""
    return after is None or after[:3] > line[:3] or after[:3] == line[:3] and after != line


def is_gone(fault: Fault, edit: Edit, after: Fault) -> bool:
    """Whether the fault is gone behind an edit, by the first fault that is left: that is of a later step, or stands behind
    it, and is not one of what the edit brought."""
    end = edit.first + len(edit.text)
    if edit.first <= after.at < end:
        return False
    if step_of(after.line[:3]) != step_of(fault.line[:3]):
        return step_of(after.line[:3]) > step_of(fault.line[:3])
    at = after.at if after.at < edit.first else max(edit.behind, after.at + edit.behind - end)
    return at > fault.at


def place_of(said: str, path: str) -> Optional[Tuple[int, int]]:
    """The line and the column that `where` shows behind a line."""
    found = re.search("^" + re.escape(path) + r":([0-9]+):([0-9]+): ", said, re.M)
    return (int(found[1]), int(found[2])) if found else None


def reader_of(companion: Optional[Companion]) -> Optional[Reader]:
    """The reader whose program lies beside the companion, or nothing where it is not built."""
    program = beside(companion.path, LIQ) if companion else None
    return Reader(program, Companion(companion.path, SECONDS)) if program and companion else None
