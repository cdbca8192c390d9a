"""Moments of the week, in the words in which `--start` of a night takes them."""
import datetime
import re

from liq.nights.words import read_when

FORMS = ("a moment is a day and a time, as friday:20:00 or friday:20:00:30, or D:HH:MM:SS as 5:20:00:00, day 1 a "
         "Monday, or now, or today:20:00 or tomorrow:20:00")
WEEK = 604800


def second_of(moment: str) -> int:
    """The second of the week of a moment, from 0, Monday 00:00:00, to 604799. A `ValueError` says the forms."""
    text = re.sub(r"^(\w+):(\d):", r"\1:0\2:", moment)      # an hour of one digit is as good
    when = read_when(text.lower(), datetime.datetime.now())
    if when is None:
        raise ValueError(f"{moment!r}: {FORMS}")
    return when.second


def length_of(seconds: float, minutes: float, hours: float) -> float:
    """A length in seconds, above 0 and up to a week; a `ValueError` where it is none."""
    found = seconds + 60 * minutes + 3600 * hours
    if not 0 < found <= WEEK:
        raise ValueError(f"{found:g} seconds: a length is above 0 and at most a week; give seconds=, minutes= or "
                         "hours=")
    return found
