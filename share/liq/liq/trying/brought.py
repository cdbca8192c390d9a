"""A script of Liquidsoap that liq refuses, brought over while it is looked at: what liq takes in its place, and the
way back from there to the lines of the old script."""
import os
import re
from typing import Callable, List, NamedTuple, Optional

from liq.adopting.answer import Asked
from liq.adopting.checking import Told, checked
from liq.adopting.tokens import Trouble
from liq.adopting.whole import brought_over
from liq.reading.companion import Companion, NoAnswer
from liq.trying.lines import FAULT, LESS, SILENT, YOU, Mark

SORTS = {"fault": FAULT, "silent": SILENT, "hint": SILENT, "less": LESS, "you": YOU}
OF_LANGUAGE = re.compile(r"E(0[2-9]|1\d) ")
OF_WEEK = re.compile(r"nothing holds |case \d+ ")


class Brought(NamedTuple):
    """The new script; the marks in the old one, without those of the week; whether an output may fall silent, as what
    is left out may stop; whether something is left to decide; and of a character of the new script the one of the
    old."""
    text: str
    marks: List[Mark]
    may_fall_silent: bool
    is_open: bool
    old: Callable[[int], int]


def mark_of(told: Told) -> Mark:
    """The mark of what is said of a place."""
    return Mark(SORTS[told.sort], told.at, told.behind, told.what, told.help or "")


def brought(text: str, program: str, companion: Companion) -> Optional[Brought]:
    """The script as one of Liquidsoap's; nothing where liq takes it as it stands, or does not know it for one."""
    try:
        verdict = checked(text, os.getcwd(), Asked(program, companion))
        found = brought_over(text, lambda _: False)
    except (NoAnswer, Trouble):
        return None
    if verdict.is_same or any(OF_LANGUAGE.match(one.what) for one in verdict.told if one.sort == FAULT):
        return None
    marks = [mark_of(one) for one in (*verdict.told, *verdict.rests) if not OF_WEEK.match(one.what)]
    is_open = any(mark.sort == YOU for mark in marks)
    return Brought(found.new, marks, verdict.may_fall_silent, is_open, found.places.of)
