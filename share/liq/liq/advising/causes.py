"""Why an output may have nothing to play (E25), by what the companion tells of its sources."""
import re
from typing import Optional

from liq.advising.files import front_of
from liq.reading.companion import Companion, NoAnswer
from liq.reading.facts import Facts, Source

RED = 'color="#b3261e"'    # of an edge of the picture that is part of the cause
SAFE = 'add a last source that is, as `single("jingle.wav")`, or `mksafe(..)` round it'
ROUND = '`fallback([.., single("jingle.wav")])` or `mksafe(..)` round'
CASES = ("the `switch` has no pair that always holds, as its hours are not added up: add `({true}, SOURCE)` at "
         "its end, or `mksafe(..)` round it")


def cases_of(companion: Companion, file: str, number: int) -> "set[int]":
    """The sources of a switch whose case always holds, by the edges that are red in the picture of the station."""
    edge = re.compile(rf"n(\d+) -> n{number} \[")
    try:
        lines = companion.picture(file).split(b"\n")
    except NoAnswer:
        return set()
    found = (edge.match(line.decode("utf-8", "replace")) for line in lines if line.endswith(b"];") and RED.encode() in line and b" -> " in line)
    return {int(match[1]) for match in found if match}


def needed(companion: Companion, file: str, plan: Facts, number: int) -> "set[int]":
    """The sources that may have nothing to play, and that the one of a number needs for that, each once."""
    source = plan.sources[number]
    children = source.children[-1:] if source.op == "sequence" else () if source.op == "buffer" else source.children
    unsure = {child for child in children if not plan.sources[child].always}
    return unsure & cases_of(companion, file, number) if source.op == "switch" and unsure else unsure


def cause(companion: Companion, file: str, plan: Facts, name: str) -> "Optional[tuple[Source, int]]":
    """The source that is to be mended: down from the output of a name, as long as one source alone is needed; and how
    many are needed by that one."""
    at = next((output.source for output in plan.outputs if output.name == name), None)
    while at is not None and not plan.sources[at].always:
        below = needed(companion, file, plan, at)
        if len(below) != 1:
            return plan.sources[at], len(below)
        at = below.pop()
    return None


def is_sound(name: str) -> bool:
    """Whether a file that stands for a list begins as a WAV file does."""
    return (front_of(name) or b"").startswith(b"RIFF")


def fallible(companion: Companion, file: str, plan: Facts, name: str) -> Optional[str]:
    """E25, of the output of a name."""
    found = cause(companion, file, plan, name)
    if not found:
        return None
    source, several = found
    if several and source.op == "fallback":
        return f"none of what this `fallback` plays is sure to play always: {SAFE}"
    if several:
        return f"none of what this `{source.op}` plays is sure to play always: {ROUND} it"
    return of_source(source)


def of_source(source: Source) -> Optional[str]:
    """Of a source that may have nothing to play by itself."""
    if source.op == "switch":
        return CASES
    if source.op == "playlist" and source.file is not None:
        if is_sound(source.file):
            return f"`{source.file}` is a sound, and no list: write `single(\"{source.file}\")`"
        return f"`{source.file}` may have no file that can be played: {ROUND} its `playlist`"
    if source.op == "buffer":
        return "a `buffer` may run dry: `mksafe(..)` round it"
    if source.op == "fail":
        return "`fail()` never plays: put a source in its place, or `mksafe(..)` round it"
    return None
