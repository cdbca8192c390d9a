"""A station as a test asks it: is its script taken, may it fall silent, which case of a switch holds, and what is
heard at a moment of its week."""
import atexit
import os
import re
import subprocess
from dataclasses import dataclass
from functools import cached_property
from typing import Dict, List, NamedTuple, Optional, Tuple, Union

from liq.advising.lines import Advice, place_of
from liq.failed import Failed
from liq.guarded import Folder
from liq.hearing import Asked, Rendering, whole_facts
from liq.heard import Heard
from liq.moments import length_of, second_of
from liq.reading import facts as telling
from liq.reading.companion import Companion, NoAnswer, NoPlan
from liq.reading.hours import calendar_of, narrowed, window_of
from liq.reading.programs import COMPANION, LIQ, NotBuilt, programs_of
from liq.watching.names import shown
from liq.weeks.told import Week, told

SECONDS = 600
KEPT = 4 << 30             # bytes of sounds that a process keeps; of the oldest ones it renders what is asked for again
SILENT = re.compile(r"nothing holds .*: (silence|it plays nothing)\b")
REPORT = re.compile(r"output (.*) clock (.*) (infallible|fallible)")


@dataclass(frozen=True)
class Refusal:
    """Why liq refuses a script: the number of the fault, 1 to 33 for E01 to E33; the line that `liq check` prints;
    the help, "" where there is none; and the line and the column, both from 1, or None where it has no place."""
    number: int
    line: str
    help: str
    place: Optional[Tuple[int, int]]


class Refused(Exception):
    """The script is refused, so that there is nothing to hear or to ask of it. The text is the line that `liq check`
    prints; `refusal` has the rest."""

    def __init__(self, refusal: Refusal):
        super().__init__(refusal.line + (f" (help: {refusal.help})" if refusal.help else ""))
        self.refusal = refusal


@dataclass(frozen=True)
class Output:
    """An output: its name, its clock, and whether it is proved to have something to play at each sample."""
    name: str
    clock: str
    is_never_silent: bool


@dataclass(frozen=True)
class Case:
    """Which case of a switch holds at a moment. `switch` is the number of the switch among the sources of the script,
    as its picture shows it; `line` its line; `case` the number of the case, from 1, or 0 where none holds; `plays`
    the first file or list in the source of the case, "" where there is none. Whether that source has something to
    play is not asked."""
    switch: int
    line: int
    case: int
    plays: str


class Key(NamedTuple):
    """What makes a rendering: the folder in which names count, the script, the state of its files, the second of the
    week, and how many seconds."""
    folder: str
    script: bytes
    files: "Tuple[Tuple[str, int, int], ...]"
    second: int
    seconds: float


class Store:
    """The renderings of this process, in a folder that goes when it ends, also where a signal ends it."""

    def __init__(self) -> None:
        self.folder: Optional[Folder] = None
        self.made: Dict[Key, Rendering] = {}

    def rendering(self, key: Key, asked: Asked) -> Rendering:
        """The rendering of a key, which is made once."""
        if key not in self.made:
            made = Rendering(asked, key.second, key.seconds, self.place())
            made.make()
            self.made[key] = made
            self.bound(made)
        return self.made[key]

    def place(self) -> str:
        """The name of a folder that is not there yet."""
        if self.folder is None:
            try:
                self.folder = Folder("liq-heard-")
            except Failed as error:
                raise NoAnswer(str(error), error.status) from None
            atexit.register(self.folder.end)
        return self.folder.at(str(len(self.made)))

    def bound(self, last: Rendering) -> None:
        """Removes the oldest sounds where there are too many."""
        size = sum(one.bytes for one in self.made.values())
        for one in self.made.values():
            if size > KEPT and one is not last:
                size -= one.bytes
                one.drop()


STORE = Store()


class Station:
    """The station of a script. The script, and what it names, count from the folder in which this process is. The
    programs are asked once, when something is first needed; a changed script is a new `Station`.

    Where a program, a folder or a file is missing, `NoAnswer` has the line that the commands print, and their
    `status`."""

    def __init__(self, file: str):
        self.file = file

    def __repr__(self) -> str:
        return f"Station({self.file!r})"

    @cached_property
    def _programs(self) -> "Tuple[str, Companion]":
        try:
            program, companion = programs_of((LIQ, COMPANION))
        except NotBuilt as error:
            raise NoAnswer(str(error), error.status) from None
        return program, Companion(companion, SECONDS)

    @cached_property
    def _script(self) -> bytes:
        try:
            with open(self.file, "rb") as file:
                return file.read()
        except (OSError, ValueError) as error:
            raise NoAnswer(f"{shown(self.file)}: {getattr(error, 'strerror', None) or 'cannot be read'}", 3) from None

    @cached_property
    def _checked(self) -> "Union[Refusal, Tuple[Output, ...]]":
        """Why it is refused, or its outputs."""
        program, companion = self._programs
        try:
            done = subprocess.run([program, "check", self.file], stdin=subprocess.DEVNULL, capture_output=True,
                                  check=False, timeout=SECONDS)
        except subprocess.TimeoutExpired:
            raise NoAnswer(f"{shown(self.file)}: liq check takes more than {SECONDS} seconds", 5) from None
        line = done.stderr.decode("utf-8", "surrogateescape").removesuffix("\n")
        if done.returncode == 1:
            return refusal_of(companion, self.file, line)
        if done.returncode:
            raise NoAnswer(line or f"{shown(self.file)}: liq check ends with status {done.returncode}", done.returncode)
        lines = map(REPORT.fullmatch, done.stdout.decode("utf-8", "surrogateescape").split("\n"))
        return tuple(Output(match[1], match[2], match[3] == "infallible") for match in lines if match)

    @property
    def is_taken(self) -> bool:
        """Whether `liq check` takes the script, its lists and its sounds."""
        return not isinstance(self._checked, Refusal)

    @property
    def refusal(self) -> Optional[Refusal]:
        """Why the script is refused; None where it is taken."""
        return self._checked if isinstance(self._checked, Refusal) else None

    @property
    def outputs(self) -> "Tuple[Output, ...]":
        """The outputs, in the order of the script. `Refused` where the script is."""
        if isinstance(self._checked, Refusal):
            raise Refused(self._checked)
        return self._checked

    @property
    def is_never_silent(self) -> bool:
        """Whether the script is taken, and each output is proved to have something to play at each sample. That may be
        silence where the script says so, as `mksafe` does: `silent_hours` has the hours."""
        return self.is_taken and all(output.is_never_silent for output in self.outputs)

    @cached_property
    def _week(self) -> Week:
        try:
            return told(self._programs[1], self.file)
        except NoPlan:
            refusal = self.refusal
            if refusal is None:
                raise
            raise Refused(refusal) from None

    @property
    def week(self) -> List[str]:
        """All lines that `liq-week` prints of the script. `Refused` where the script has no plan."""
        return self._week.shown()

    @property
    def silent_hours(self) -> List[str]:
        """The lines of `week` on hours in which no case of a switch holds and nothing, or silence, is played for it;
        those in which a fallback plays its next source are none. `Refused` where the script has no plan."""
        return [line for line in self.week if SILENT.search(line)]

    @cached_property
    def _facts(self) -> telling.Facts:
        companion = self._programs[1]
        facts = companion.files(self.file)
        refusal = self.refusal
        if refusal is not None:
            raise Refused(refusal)
        if isinstance(facts, telling.Refused):
            raise NoAnswer(f"{shown(self.file)}: has changed meanwhile", 1)
        return whole_facts(companion, facts)

    def cases(self, moment: str) -> List[Case]:
        """Which case of each switch is the first that holds at a moment, in the order of the sources. `Refused` where
        the script is; a `ValueError` of the moment says its forms."""
        second = second_of(moment)
        companion, facts = self._programs[1], self._facts
        calendar = calendar_of(companion, narrowed(companion, self._script, window_of(second, 4)))
        whole = calendar_of(companion, self._script)
        found = []
        for switch, here in zip(whole.switches, calendar.switches):
            case = next((k for k, spans in enumerate(here.cases, 1) if spans.count), 0)
            children = facts.sources[switch.source].children
            found.append(Case(switch.source, self._script.count(b"\n", 0, switch.at) + 1, case,
                              plays(facts, children[case - 1]) if case else ""))
        return found

    def hear(self, moment: str, seconds: float = 0, minutes: float = 0, hours: float = 0,
             output: Optional[str] = None) -> Heard:
        """What an output plays from a moment of the week on, for so long in all: above 0, up to a week. It is
        rendered as the call of `liq` that begins then, a long one in parts as a night, into a temporary folder; what
        the outputs held stays. Without `output` it is the first one. The same stretch is rendered once for the life
        of this process.

        `Refused` where the script is; a `ValueError` where the moment, the length or the output is none."""
        second, length = second_of(moment), length_of(seconds, minutes, hours)
        names = [one.name for one in self.outputs]
        if output is not None and output not in names:
            raise ValueError(f"{output!r}: no output of {self.file}; there are {', '.join(names)}")
        asked = Asked(self.file, *self._programs, self._facts)
        key = Key(os.getcwd(), self._script, files_of(self._facts), second, length)
        made = STORE.rendering(key, asked)
        return Heard(lambda: made.recorded(output or names[0]), second, made.titles)


def refusal_of(companion: Companion, file: str, line: str) -> Refusal:
    """What is known of the line of a refusal."""
    try:
        places = [place_of(one, file) for one in companion.where(file, line + "\n").split("\n")]
    except NoAnswer:
        places = []
    place = next(filter(None, places), None)
    help_line = Advice(file, companion).line(line, place)
    number = re.match(r"E(\d\d) ", line)
    return Refusal(int(number[1]) if number else 0, line, help_line or "", place)


def plays(facts: telling.Facts, source: int) -> str:
    """The first file or list in a source; "" where there is none."""
    todo = [source]
    while todo:
        one = facts.sources[todo.pop(0)]
        if one.file is not None:
            return one.file
        todo = [*one.children, *todo]
    return ""


def files_of(facts: telling.Facts) -> "Tuple[Tuple[str, int, int], ...]":
    """The states of the lists and sounds of a script: of each its name, time and size; 0 and -1 where it is not
    there."""
    found = []
    for name in [*(one.name for one in facts.lists), *facts.sounds]:
        try:
            state = os.stat(name)
            found.append((name, state.st_mtime_ns, state.st_size))
        except (OSError, ValueError):
            found.append((name, 0, -1))
    return tuple(found)
