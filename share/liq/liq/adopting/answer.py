"""What liq says of the new text: whether it takes the language of it, what a check tells, and the silent hours."""
import os
import re
import subprocess
import tempfile
from typing import Iterator, List, Optional, Tuple

from liq.advising.lines import passed
from liq.doctoring.findings import Finding
from liq.doctoring.lists import findings_of_lists
from liq.reading.companion import Companion, NoAnswer
from liq.reading.facts import Facts, Refused
from liq.weeks.told import told

SECONDS = 600
NAME = "NEW.liq"
# Faults of files, outputs and clocks: the text itself is one of this language.
BEHIND = re.compile(r"E(2\d|3\d) ")
# Those of outputs and clocks, which no file mends.
DECIDED = re.compile(r"E2[5-8] ")


def answer(words: List[str], folder: Optional[str] = None, given: str = "") -> "subprocess.CompletedProcess[str]":
    """What a program says, called in a folder."""
    return subprocess.run(words, cwd=folder, input=given, capture_output=True, encoding="utf-8",
                          errors="surrogateescape", check=False, timeout=SECONDS)


def put(folder: str, text: str) -> str:
    """Puts a text into a folder of its own, and answers the name of the file."""
    path = os.path.join(folder, NAME)
    with open(path, "w", encoding="utf-8", errors="surrogateescape", newline="") as file:
        file.write(text)
    return path


def named(line: str, path: str) -> str:
    """A line of the filter with another name of the file; a caret moves with it."""
    if line.lstrip(" ").startswith("^"):
        return line[len(path) - len(NAME):]
    return line.replace(path, NAME)


def place_in(text: str, path: str, lines: List[str]) -> int:
    """Where the place of a line `FILE:LINE:COLUMN: ..` stands in a text, in characters; 0 where there is none."""
    found = next(filter(None, (re.match(re.escape(path) + r":(\d+):(\d+): ", line) for line in lines)), None)
    if found is None:
        return 0
    before = text.split("\n")[:int(found[1]) - 1]
    return sum(len(line) + 1 for line in before) + int(found[2]) - 1


def lists_told(facts: Facts) -> Iterator[str]:
    """The lines on lists of which entries are not played."""
    is_prepared = False
    for line in findings_of_lists(facts):
        if isinstance(line, Finding):
            is_prepared = is_prepared or "is skipped" in line or "are skipped" in line or " skips " in line
            yield f"lists: {line}"
    if is_prepared:
        yield ("lists: `liq prepare LIST OUT` makes WAV files of the sounds that a list names, also behind `annotate:..:`, "
               "and the list `OUT/all.m3u`")


class Asked:
    """The programs that are asked: liq, and its companion."""

    def __init__(self, liq: str, companion: Companion):
        self.liq, self.companion = liq, companion

    def refusal(self, text: str) -> Optional[str]:
        """The line by which the language of a text is refused, or nothing; no file is looked at."""
        with tempfile.TemporaryDirectory(prefix="liq-adopt-") as place:
            put(place, text)
            done = answer([self.liq, "check", NAME], place)
        return None if done.returncode == 0 or BEHIND.match(done.stderr) else done.stderr.rstrip("\n")

    def is_accepted(self, text: str) -> bool:
        """Whether the language of a text is taken."""
        return self.refusal(text) is None

    def said(self, text: str) -> List[str]:
        """The lines of a check of a text in this folder, with places and help; of its lists; and the silent hours."""
        with tempfile.TemporaryDirectory(prefix="liq-adopt-") as place:
            path = put(place, text)
            done = answer([self.liq, "check", path])
            lines = self.refused(path, done) if done.returncode else ["check: accepted", *self.hours(path)]
            lines += self.lists(path)
        return [named(line, path) for line in lines]

    def undecided(self, text: str) -> Optional[Tuple[str, int]]:
        """The fault of an output or of clocks of a text in this folder, and where it stands, in characters; or nothing."""
        with tempfile.TemporaryDirectory(prefix="liq-adopt-") as place:
            path = put(place, text)
            done = answer([self.liq, "check", path])
            if done.returncode != 1 or not DECIDED.match(done.stderr):
                return None
            return done.stderr.rstrip("\n"), place_in(text, path, self.refused(path, done))

    def lists(self, path: str) -> List[str]:
        """The lines of the doctor on lists of which entries are not played, and what to do."""
        try:
            facts = self.companion.files(path)
        except NoAnswer:
            return []
        return [] if isinstance(facts, Refused) else list(lists_told(facts))

    def refused(self, path: str, done: "subprocess.CompletedProcess[str]") -> List[str]:
        """The lines of a refusal."""
        try:
            shown = self.companion.where(path, done.stderr).splitlines(keepends=True)
        except NoAnswer:
            shown = done.stderr.splitlines(keepends=True)
        lines = [line.rstrip("\n") for line in passed(shown, path, self.companion)]
        return [f"check: {lines[0]}" if lines else f"check: status {done.returncode}", *lines[1:]]

    def hours(self, path: str) -> List[str]:
        """The lines on the silent hours."""
        try:
            shown = told(self.companion, path).shown()
        except NoAnswer as error:
            return [f"week: {error}"]
        return [f"week: {line}" for line in shown] or ["week: no silent hour in the week"]
