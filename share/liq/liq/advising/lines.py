"""The line of help behind the line of a refusal."""
import os
import re
import stat
from functools import cached_property
from typing import Callable, Dict, Iterable, Iterator, List, Optional, Tuple

from liq.advising import bad_bytes, calls, causes, clashing, files, foreign, leaving, names, syntax, tables, values
from liq.advising.helping import mended
from liq.advising.script import NO_TOKEN, Script
from liq.reading.companion import Companion, NoAnswer
from liq.reading.facts import Facts
from liq.watching.names import shown

Place = Tuple[int, int]        # a line and a column, from 1, as `where` shows them
MOST_FAULTS = 20               # of a script that are explained; a call of liq tells one
FAULT = re.compile(r"E[0-9]{2} [^\n]*")
# Faults for which the page of faults says what to do, whatever the script is.
PLAIN = re.compile(r"E(05|11|15|16|18|19|28|29|30|31|32|33) ")
SECONDS = 20                   # a longer answer of the companion is not waited for
MOST_SCRIPT = 262144           # bytes; a longer script is not looked at, so that a line comes at once


def read(file: str) -> Optional[bytes]:
    """The bytes of a script, or nothing where it is no regular file, which reading could change or wait for, or
    cannot be read."""
    try:
        if not stat.S_ISREG(os.stat(file).st_mode):
            return None
        with open(file, "rb") as opened:
            return opened.read(MOST_SCRIPT + 1)
    except (OSError, ValueError):
        return None


def script_of(companion: Optional[Companion], file: str) -> Optional[Script]:
    """A script with its tokens, or nothing where it cannot be read, is long, or the companion has no answer."""
    if companion is None:
        return None
    data = read(file)
    try:
        return Script(data, companion.tokens_of(data)) if data is not None and len(data) <= MOST_SCRIPT else None
    except NoAnswer:
        return None


def facts_of(asked: "Callable[[], object]") -> Optional[Facts]:
    """The facts for which the companion is asked, or nothing."""
    try:
        facts = asked()
    except NoAnswer:
        return None
    return facts if isinstance(facts, Facts) else None


class Advice:
    """What to do about the faults of a script. Without the companion, of few is something known."""

    def __init__(self, file: str, companion: Optional[Companion] = None, script: Optional[Script] = None) -> None:
        self.file, self.companion = file, companion and Companion(companion.path, SECONDS)
        self.script = script or script_of(self.companion, file)
        self.words, self.calls, self.repairs = tables.words(), tables.calls(), tables.repairs()

    @cached_property
    def plan(self) -> Optional[Facts]:
        """What the script sets and plays, or nothing where it has no plan."""
        if self.companion is None or self.script is None:
            return None
        asked, data = self.companion.plan_of, self.script.data
        return facts_of(lambda: asked(data))

    @cached_property
    def facts(self) -> Optional[Facts]:
        """The same with what becomes of its files; nothing where that takes long."""
        if self.companion is None:
            return None
        asked = self.companion.files
        return facts_of(lambda: asked(self.file))

    def line(self, fault: str, place: Optional[Place] = None) -> Optional[str]:
        """The help on a line of a fault, or nothing; `place` is the line and the column that `where` shows."""
        if fault.startswith("E01"):
            return files.no_script(self.file)
        if PLAIN.match(fault):
            return self.plain(fault)
        if self.script is None:
            return None
        found = of_place(self.script, fault, place, self.words, self.calls)
        return found or self.of_files(fault) or self.of_sources(self.script, fault)

    def plain(self, fault: str) -> Optional[str]:
        """What the page of faults says to do, where its rows agree."""
        ways = {way for form, way in self.repairs if form.fullmatch(fault) and way != "as above"}
        return ways.pop() if len(ways) == 1 else None

    def of_files(self, fault: str) -> Optional[str]:
        """The help on a fault that names a file, or tells of all."""
        name = re.fullmatch(r"E20 missing file (.*)", fault, re.S)
        if name:
            return files.missing(name[1], self.plan, self.file)
        bad = re.fullmatch(r"E21 bad audio (.*): ([0-9])", fault, re.S)
        if bad:
            return self.of_sound(bad[1], bad[2])
        large = re.fullmatch(r"E23 file too large (.*)", fault, re.S)
        if large:
            return files.too_large(large[1], self.plan) if self.plan else None
        way = self.plain(fault) if fault.startswith("E24") else None
        return files.all_too_large(self.facts, way) if way and self.facts else way

    def of_sound(self, name: str, number: str) -> Optional[str]:
        """The help on a file that is no sound; one that is a list is played by another call."""
        line = files.bad(name, number)
        if line is None or self.script is None or not line.startswith("a list is played by "):
            return line
        return leaving.with_edit(line, leaving.renamed(self.script, "single", "playlist", name))

    def of_sources(self, script: Script, fault: str) -> Optional[str]:
        """The help on a fault of outputs and clocks."""
        if fault.startswith("E17"):
            return of_no_output(script)
        output = re.fullmatch(r"E25 fallible output (.*)", fault, re.S)
        if output:
            companion, plan = self.companion, self.plan
            line = causes.fallible(companion, self.file, plan, output[1]) if companion and plan else None
            sound = re.fullmatch(r"`(.*)` is a sound, and no list: .*", line or "", re.S)
            return leaving.with_edit(line, leaving.renamed(script, "playlist", "single", sound[1])) if sound else line
        if fault.startswith("E27"):
            return ("a source is played beside its own crossfade: make it twice, by a second `single` or `playlist` of "
                    "the same name, and crossfade one of them")
        clocks = re.fullmatch(r"E26 source [0-9]+ under clocks (.*) and (.*)", fault)
        return of_two_clocks(*clocks.groups()) if clocks else None


def of_place(script: Script, fault: str, place: Optional[Place], words: tables.Words,
             known: Dict[str, tables.Call]) -> Optional[str]:
    """The help on a fault that names a byte, a token or a statement."""
    code, found = fault[:3], re.search(r" at (token )?([0-9]+)$", fault)
    number = int(found[2]) if found and found[1] else None
    at = script.of_byte(int(found[2])) if found and number is None else None
    round_it = of_call_round(script, code, at, number, words, known)
    if round_it:
        return round_it
    if at is not None:
        return of_byte(script, code, at, words) if at < len(script.text) else None
    if number is not None:
        return of_token(script, fault, number, words, known)
    if code == "E12" and place:
        return clashing.clash(script, script.place(*place), known)
    statement = re.search(r"^E13 statement ([0-9]+)", fault)
    return values.setting(script, int(statement[1])) if statement else None


def of_byte(script: Script, code: str, at: int, words: tables.Words) -> Optional[str]:
    """The help on a fault at a character."""
    if code == "E02":
        return bad_bytes.bad_byte(script, at, words)
    return bad_bytes.too_large(script.text[at:at + 100]) if code == "E04" else None


def of_token(script: Script, fault: str, number: int, words: tables.Words, known: Dict[str, tables.Call]) -> Optional[str]:
    """The help on a fault at a token."""
    code = fault[:3]
    if code == "E06":
        return syntax.syntax(script, number, words, known)
    if number >= len(script.tokens):                # which is of another text
        return None
    if code == "E08":
        return names.unknown_name(script, number, words, known)
    if code == "E09":
        label = re.search(r"missing argument (\S+) at", fault)
        return calls.missing_argument(script, number, label[1] if label else "", known)
    if code == "E10":
        return calls.extra_argument(script, number, words, known)
    return values.bad_value(script, number, words, known) if code == "E14" else None


def of_call_round(script: Script, code: str, at: Optional[int], number: Optional[int], words: tables.Words,
                  known: Dict[str, tables.Call]) -> Optional[str]:
    """The help on a fault of bytes or syntax within a call that is left out, with all that stands in it."""
    if code == "E02" and at is not None and script.text[at:at + 1] != "%":
        return foreign.call_round(script, foreign.open_brackets(script), words, known)
    if code == "E06" and number is not None:
        return foreign.call_round(script, script.stack(min(number, len(script.tokens))), words, known)
    return None


def of_two_clocks(first: str, second: str) -> Optional[str]:
    """E26, of the two clocks that it names."""
    fades = [name for name in (first, second) if re.fullmatch("crossfade [0-9]+", name)]
    if len(fades) == 2:
        return ("two crossfades play this source: crossfade it once, and play that in both places, or make the source "
                "twice")
    if fades:
        return ("a crossfade plays this source, and it is played beside it, too: play the crossfaded one in both "
                "places, or make the source twice, by a second `single` or `playlist`")
    if "an output" in (first, second):
        return None
    return ("one source cannot run in two clocks: make it twice, or give one of them a copy, as "
            f"`clock(id=\"{second}\", mksafe(buffer(s)))`")


def of_no_output(script: Script) -> str:
    """E17: with the name that the last statement binds, where it is a binding."""
    last = script.token(script.starts[-1]) if script.starts else NO_TOKEN
    line = f'output.file(%wav, "NAME.wav", {last.text if last.kind == "name" else "SOURCE"})'
    told, end = f"write at the end `{line}`", len(script.text)
    return mended(told, end, end, f"{'' if script.text.endswith(chr(10)) else chr(10)}{line}\n") if last.kind == "name" else told


def place_of(line: str, file: str) -> Optional[Place]:
    """The line and the column of the place that a line of `where` shows, or nothing where it shows none."""
    for name in (file, shown(file)):
        found = re.match(re.escape(name) + r":([0-9]+):([0-9]+): ", line)
        if found:
            return int(found[1]), int(found[2])
    return None


def passed(lines: Iterable[str], file: str, companion: Optional[Companion] = None) -> Iterator[str]:
    """The lines, each as it came, and behind what is shown of each fault a line `help: TEXT` where something is
    known.

    `lines` are texts with their line ends, of which bytes that are no UTF-8 are surrogates, as by
    `errors="surrogateescape"`; `file` is the script that was checked, and `companion` the program that reads it, without
    which little is known."""
    asked = Asked(file, companion)
    fault: Optional[str] = None
    place: Optional[Place] = None
    for line in lines:
        here = place_of(line, file) if fault is not None else None
        is_shown = here is not None or re.fullmatch(r" *\^.*\n?", line)
        if fault is not None and not is_shown:
            yield from asked.told(fault, place)
            fault = None
        is_fault = FAULT.fullmatch(line.removesuffix("\n")) is not None
        yield line if line.endswith("\n") or not is_fault else line + "\n"
        if is_fault:
            fault, place = line.removesuffix("\n"), None
        elif here:
            place = here
    if fault is not None:
        yield from asked.told(fault, place)


class Asked:
    """The lines of help on the faults of a script, each asked once."""

    def __init__(self, file: str, companion: Optional[Companion]):
        self.file, self.companion = file, companion
        self.known: Dict[Tuple[str, Optional[Place]], Optional[str]] = {}

    @cached_property
    def advice(self) -> Advice:
        """The script, which is read at its first fault."""
        return Advice(self.file, self.companion)

    def told(self, fault: str, place: Optional[Place]) -> List[str]:
        """The line of help on a fault, where something is known."""
        if (fault, place) not in self.known:
            self.known[fault, place] = self.advice.line(fault, place) if len(self.known) < MOST_FAULTS else None
        text = self.known[fault, place]
        return [f"help: {shown(text)}\n"] if text else []
