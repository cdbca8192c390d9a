"""What may be meant by words that fit no form of the program."""
import difflib
import os
import re
from typing import List, Optional

from liq.reading.companion import Companion, NoAnswer
from liq.reading.facts import Facts
from liq.watching.names import shown, typed

VERBS = ("check", "render", "make", "replay")
COMMANDS = ("adopt", "advice", "air", "doctor", "help", "lsp", "night", "page", "picture", "prepare", "station", "try",
            "week", "where")
UNITS = {"s": 1.0, "sec": 1.0, "m": 60.0, "min": 60.0, "h": 3600.0}
RATE, TICK = 44100, 1764   # samples a second and of a tick, where a script sets no others


def seconds_of(word: str) -> Optional[float]:
    """The seconds of a time as 10s, 5min, 1.5h, 1:30 or 1:00:00; nothing where a word is none."""
    match = re.fullmatch(r"([0-9]{1,6}(?:\.[0-9]{1,6})?)(s|sec|m|min|h)", word)
    if match:
        return float(match[1]) * UNITS[match[2]]
    match = re.fullmatch(r"(?:([0-9]{1,3}):)?([0-9]{1,2}):([0-9]{2}(?:\.[0-9]{1,6})?)", word)
    return int(match[1] or 0) * 3600 + int(match[2]) * 60 + float(match[3]) if match else None


def ticks_of(seconds: float, companion: Companion, file: str) -> int:
    """The ticks of a script that last so many seconds, or a little more."""
    try:
        facts = companion.files(file)
    except NoAnswer:
        facts = None
    rate, tick = (facts.rate, facts.tick) if isinstance(facts, Facts) else (RATE, TICK)
    return max(1, -(-round(seconds * rate) // tick))


def of_length(words: List[str], companion: Companion, liq: str) -> str:
    """What may be meant by the length of a rendering."""
    file = typed(words[1]) if len(words) > 1 else "FILE"
    seconds = seconds_of(words[2]) if len(words) > 2 else None
    if seconds is not None:
        ticks = ticks_of(seconds, companion, words[1])
        rest = "".join(f" {typed(word)}" for word in words[3:])
        return f"{words[2]} is {ticks} ticks: {liq} {words[0]} {file} {ticks}{rest}"
    return f"N counts ticks, 25 a second and 90000 an hour; for a length in hours: {liq} night {file} HOURS"


def meant(words: List[str], companion: Companion, liq: str) -> str:
    """What may be meant by words that the program does not take, in a line."""
    if len(words) == 1 and (words[0].endswith(".liq") or os.path.isfile(words[0])):
        return f"to check it: {liq} check {typed(words[0])}"
    if words and words[0] in ("render", "replay") and (len(words) < 3 or not words[2].isdigit()):
        return of_length(words, companion, liq)
    if words and words[0] not in VERBS:
        near = difflib.get_close_matches(words[0], VERBS + COMMANDS, 1)
        return f"there is no command {shown(words[0])}; " + (f"do you mean {near[0]}?" if near else f"{liq} help has them all")
    return f"{liq} help says what it does; man liq has the options"
