"""A look at a station: what the page shows of it."""
import os
import re
import shutil
import stat
import subprocess
import time
from typing import Dict, Iterator, List, NamedTuple, Optional, Tuple

from liq.advising.lines import Advice, place_of
from liq.advising.mending import Fault
from liq.advising.script import Script
from liq.doctoring.findings import Finding, counted
from liq.doctoring.lists import findings_of_lists
from liq.doctoring.looking import findings_of_singles
from liq.doctoring.windows import findings_of_windows
from liq.guarded import Folder
from liq.hearing import Asked, whole_facts
from liq.nights.library import decoded_of
from liq.nights.seen import with_decoded
from liq.reading.companion import Companion, NoAnswer, NoPlan
from liq.reading.facts import Facts, Refused, Tokens
from liq.serving.looking import span_of, word_at
from liq.trying.brought import OF_LANGUAGE, Brought, brought
from liq.trying.calendar import Hours, switches_of
from liq.trying.lines import FAULT, SILENT, Mark, line_of, lines_of, plain, told_of
from liq.trying.picture import Picture, picture_of
from liq.watching.names import shown
from liq.weeks.told import Week, told

SECONDS = 20               # for which a program may run
MOST_TEXT = 1 << 21        # bytes of a script that are read
SHOWN = 40                 # findings
REPORT = re.compile(r"output (.*) clock (.*) (infallible|fallible)")
State = Dict[str, object]


class Checked(NamedTuple):
    """What `liq check` says: its status, the line of a refusal, and of each output its name, its clock and whether it
    is never silent."""
    status: int
    line: str
    outputs: "List[Tuple[str, str, bool]]"


def text_in(file: str) -> bytes:
    """The bytes of a script; `NoAnswer` where it is none that can be read."""
    try:
        with open(file, "rb") as opened:
            if not stat.S_ISREG(os.fstat(opened.fileno()).st_mode):
                raise NoAnswer(f"{shown(file)}: is no regular file", 3)
            return opened.read(MOST_TEXT)
    except (OSError, ValueError) as error:
        raise NoAnswer(f"{shown(file)}: {getattr(error, 'strerror', None) or 'cannot be read'}", 3) from None


class Looked:
    """A station as it was looked at: its script, what liq takes in its place, and what is known of both."""

    def __init__(self, file: str, number: int, program: str, companion: Companion, folder: Folder):
        self.file, self.number, self.program, self.companion, self.folder = file, number, program, companion, folder
        self.began = time.monotonic()
        self.data = text_in(file)
        self.text = self.data.decode("utf-8", "surrogateescape")
        self.checked = self.check(file)
        self.brought: Optional[Brought] = None
        if self.checked.status == 1 and OF_LANGUAGE.match(self.checked.line):
            self.brought = brought(self.text, program, companion)
        taken = self.brought.text if self.brought else self.text
        self.taken = taken.encode("utf-8", "surrogateescape")
        self.path = folder.write(f"script-{number}.liq", self.taken)
        self.report = self.check(self.path) if self.brought else self.checked
        self.script = Script(self.taken, self.tokens_of(self.taken))
        self.facts = self.facts_of()
        self.hours = self.hours_of()
        self.week = self.week_of()
        self.picture: "tuple[Optional[Picture], str]" = (None, "")

    def check(self, file: str) -> Checked:
        """What liq says of a script."""
        try:
            done = subprocess.run([self.program, "check", file], stdin=subprocess.DEVNULL, capture_output=True,
                                  check=False, timeout=SECONDS)
        except subprocess.TimeoutExpired:
            raise NoAnswer(f"liq check takes more than {SECONDS} seconds", 5) from None
        lines = map(REPORT.fullmatch, done.stdout.decode("utf-8", "surrogateescape").split("\n"))
        outputs = [(match[1], match[2], match[3] == "infallible") for match in lines if match]
        line = done.stderr.decode("utf-8", "surrogateescape").removesuffix("\n")
        if done.returncode not in (0, 1):
            line = line or f"liq check ends with status {done.returncode}"
        return Checked(done.returncode, line, outputs)

    def tokens_of(self, data: bytes) -> Tokens:
        """The tokens of a script; none of one that is too long."""
        try:
            return self.companion.tokens_of(data)
        except NoPlan:
            return Tokens((), 4, None)

    def facts_of(self) -> Optional[Facts]:
        """What the script sets and plays; nothing where it has no plan."""
        found = self.companion.files_of(self.taken)
        return None if isinstance(found, Refused) else whole_facts(self.companion, found)

    def hours_of(self) -> Optional[Hours]:
        try:
            return Hours(self.companion, self.taken) if self.facts else None
        except NoPlan:
            return None

    def week_of(self) -> Week:
        try:
            return told(self.companion, self.path) if self.facts else Week()
        except NoAnswer:
            return Week()

    def asked(self) -> Optional[Asked]:
        """What is rendered; nothing where liq refuses it."""
        if self.facts is None or self.report.status:
            return None
        return Asked(self.path, self.program, self.companion, self.facts)

    def old(self, at: int) -> int:
        """The character of the script for one of what liq takes in its place."""
        return self.brought.old(at) if self.brought else at

    def line_of_byte(self, byte: int) -> int:
        """The line of the script, from 1, for a byte of what liq takes."""
        return line_of(self.text, self.old(self.script.of_byte(byte)))

    def fault(self) -> Optional[Mark]:
        """The mark of the refusal."""
        if self.checked.status != 1:
            return None
        line, script = self.checked.line, self.script
        if self.brought:
            script = Script(self.data, self.tokens_of(self.data))
        try:
            places = [place_of(one, self.file) for one in self.companion.where(self.file, line + "\n").split("\n")]
        except NoAnswer:
            places = []
        place = next(filter(None, places), None)
        help_line = Advice(self.file, self.companion).line(line, place)
        first = behind = 0
        if place is not None:
            first, behind = span_of(Fault(script, line, place, help_line))
        return Mark(FAULT, first, behind, line, help_line or "")

    def holes(self) -> "Iterator[Mark]":
        """The marks of the hours in which no case of a switch holds."""
        for line in self.week.once():
            match = re.search(r":(\d+):(\d+)$", line.place or "")
            if match:
                span = word_at(self.script, self.script.place(int(match[1]), int(match[2])))
                first = self.old(span.first)
                yield Mark(SILENT, first, first + span.behind - span.first, line.text)

    def marks(self) -> List[Mark]:
        """All marks: the refusal, what is lost, the hours."""
        fault = self.fault() if self.brought is None or self.brought.is_open else None
        marks = [fault] if fault else []
        if self.brought:
            marks += self.brought.marks
        return marks + list(self.holes())

    def names(self) -> List[str]:
        """The files that the station plays."""
        return [one.name for one in self.facts.lists] + list(self.facts.sounds) if self.facts else []

    def verdict(self) -> State:
        """The verdict, and the outputs."""
        report, kind = self.report, "taken"
        if report.status:
            kind = "refused" if report.status == 1 else "none"
        may_stop = self.brought is not None and self.brought.may_fall_silent
        silent = [plain(shown(name)) for name, _, is_safe in report.outputs if not is_safe]
        if kind != "taken":
            text = "refused" if kind == "refused" else "no answer"
        elif silent or may_stop:
            text = f"{', '.join(silent) or 'an output'} may fall silent"
        else:
            text = "never without something to play"
        front = "brought over from Liquidsoap" if self.brought else "taken"
        is_open = self.brought is not None and self.brought.is_open
        outputs = [[plain(shown(name)), plain(shown(clock)), is_safe and not may_stop]
                   for name, clock, is_safe in report.outputs]
        said = f"{front}: {text}" if kind == "taken" or self.brought else text
        return {"verdict": kind, "said": said, "outputs": outputs,
                "isLive": self.brought is not None, "isOpen": is_open, "line": plain(shown(self.checked.line)),
                "isSafe": kind == "taken" and not silent and not may_stop and not is_open}

    def sounds(self) -> Optional[State]:
        """The sounds, and what the doctor says of them."""
        if self.facts is None:
            return None
        facts, told = self.with_decoded(self.facts)
        sounds = [sound for sound in facts.sounds.values() if sound.is_used]
        lines = [*findings_of_singles(self.facts), *told, *findings_of_lists(facts)]
        try:
            lines += findings_of_windows(self.companion, self.path, self.facts)
        except NoAnswer:
            pass
        return {"used": len(sounds), "all": len(facts.sounds), "seconds": round(sum(sound.seconds for sound in sounds)),
                "found": [[plain(self.placed(str(line))), isinstance(line, Finding)] for line in lines[:SHOWN]],
                "more": max(0, len(lines) - SHOWN)}

    @staticmethod
    def with_decoded(facts: Facts) -> "Tuple[Facts, List[str]]":
        """The facts with what ffmpeg decodes here as sounds that are played, and a line on that."""
        count = len(decoded_of(facts, None))
        if not count:
            return facts, []
        sounds = counted(count, "sound of the lists", "sounds of the lists")
        missing = next((name for name in ("ffmpeg", "ffprobe") if not shutil.which(name)), None)
        if missing:
            return facts, [Finding(f"{missing} is missing: install the package ffmpeg, and {sounds} can be heard here")]
        return with_decoded(facts), [f"{sounds}: decoded by ffmpeg here, as liq night does; liq render plays WAV files alone"]

    def placed(self, line: str) -> str:
        """A line of the doctor with the line of the script for its place."""
        match = re.match(re.escape(self.path) + r":(\d+):(\d+): ", line)
        if match is None:
            return line
        at = self.old(self.script.place(int(match[1]), int(match[2])))
        return f"line {line_of(self.text, at)}: {line[match.end():]}"

    def draw(self) -> None:
        """Draws the picture."""
        if self.facts:
            self.picture = picture_of(self.companion, self.path, self.week)

    def drawn(self) -> State:
        """The picture as the page gets it."""
        picture, why = self.picture
        if picture is None or self.facts is None:
            return {"note": plain(why)}
        ats = self.source_places()
        boxes: "List[State]" = [{"line": ats.get(box["source"], 0), **box} for box in picture.boxes]
        return {"address": f"picture/{self.number}.svg", "boxes": boxes}

    def source_places(self) -> "Dict[object, int]":
        """The lines of the sources, by their numbers."""
        sources = self.facts.sources if self.facts else ()
        return {number: self.line_of_byte(one.at) for number, one in enumerate(sources) if one.at is not None}

    def state(self) -> State:
        """What the page shows, but for the picture and the sounds."""
        marks = self.marks()
        found: State = {**self.verdict(), "name": plain(shown(self.file)), "lines": lines_of(self.text, marks),
                        "marks": told_of(marks, self.text), "week": None, "sum": self.week.sum_of}
        if self.hours is not None and self.facts is not None:
            ats = {switch.at: self.line_of_byte(switch.at) for switch in self.hours.whole.switches}
            found["week"] = {"switches": switches_of(self.hours.whole, self.facts, ats)}
        found["took"] = round(time.monotonic() - self.began, 3)
        return found
