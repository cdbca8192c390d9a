"""The words of a call of liq-night."""
import datetime
import re
from typing import Any, Callable, Dict, List, NamedTuple, Optional, Tuple

from liq.pages.times import DAY, DAYS, read_date, read_start

WEEK = 7 * DAY
LONGEST = 6 * 3600              # seconds of a part, which fit for two sides of 16 bits at 44100
CACHE = 10.0                    # GB
USAGE = ("usage: liq night [--start=TIME] [--part=HOURS] [--go-on] [--calendar=FILE] [--strict] [--anyway] "
         "[--cache=FOLDER] [--cache-size=GB] [--loudness=LUFS] [--quiet] [--report=FILE] [--call=URL] FILE HOURS")


class When(NamedTuple):
    """When a night begins: the second of the week, and the date. It is dated where the words name a day of the
    calendar, as today:20:00 does, and given where there are words."""
    second: int
    date: datetime.date
    is_dated: bool = True
    is_given: bool = True

    @property
    def moment(self) -> datetime.datetime:
        """When it begins by the clock of this machine."""
        return datetime.datetime.combine(self.date, datetime.time()) + datetime.timedelta(seconds=self.second % DAY)


class Call(NamedTuple):
    """A call: the script, how many seconds, and what the options say."""
    file: str
    seconds: float
    when: When
    part: float = LONGEST
    goes_on: bool = False
    calendar: Optional[str] = None
    is_strict: bool = False
    is_anyway: bool = False
    cache: Optional[str] = None
    cache_size: float = CACHE
    loudness: Optional[float] = None
    program: Optional[str] = None
    is_quiet: bool = False
    report: Optional[str] = None
    address: Optional[str] = None


def read_when(text: str, now: datetime.datetime) -> Optional[When]:
    """When D:HH:MM:SS is next, or a date, today:, tomorrow: or a day of the week with HH:MM or HH:MM:SS, or now; a day of
    the week may be today. Nothing where it is none of these."""
    date = read_date(text) if re.fullmatch(r"[0-9]{4}-[0-9]{2}-[0-9]{2}:[0-9]{2}:[0-9]{2}(:[0-9]{2})?", text) else None
    if date is not None:
        return on(date.date(), date.hour * 3600 + date.minute * 60 + date.second)
    if text == "now":
        return on(now.date(), now.hour * 3600 + now.minute * 60 + now.second)
    second = read_start(text)
    if second is not None:
        return on(next_day(now.date(), second // DAY), second % DAY)._replace(is_dated=False)
    day, colon, clock = text.partition(":")
    second = read_start("1:" + (clock if clock.count(":") == 2 else clock + ":00"))
    names = [name.lower() for name in DAYS]
    if not colon or second is None:
        return None
    if day in names:
        return on(next_day(now.date(), names.index(day)), second)
    ahead = {"today": 0, "tomorrow": 1}.get(day)
    return None if ahead is None else on(now.date() + datetime.timedelta(ahead), second)


def on(date: datetime.date, second: int) -> When:
    """A second of a date."""
    return When(date.weekday() * DAY + second, date)


def next_day(date: datetime.date, weekday: int) -> datetime.date:
    """The first date from this one on with a day of the week, 0 for Monday."""
    return date + datetime.timedelta((weekday - date.weekday()) % 7)


def read_number(text: str, form: str) -> Optional[float]:
    return float(text) if re.fullmatch(form, text) else None


def read_hours(text: str) -> Optional[float]:
    """The seconds of a number of hours up to a week; nothing where it is none."""
    seconds = (read_number(text, r"[0-9]{1,3}(\.[0-9]{1,4})?") or 0) * 3600
    return seconds if 0 < seconds <= WEEK else None


def read_size(text: str) -> Optional[float]:
    return read_number(text, r"[0-9]{1,6}(\.[0-9]{1,6})?") or None


def read_loudness(text: str) -> Optional[float]:
    value = read_number(text, r"-[0-9]{1,2}(\.[0-9])?")
    return value if value is not None and -40 <= value <= -5 else None


def read_address(text: str) -> Optional[str]:
    """An address of the web."""
    return text if re.fullmatch(r"https?://[!-~]+", text) else None


FLAGS = {"--go-on": "goes_on", "--strict": "is_strict", "--anyway": "is_anyway", "--quiet": "is_quiet"}
READERS: Dict[str, Tuple[str, Callable[[str], Any]]] = {
    "part": ("part", read_hours), "calendar": ("calendar", str), "cache": ("cache", str),
    "cache-size": ("cache_size", read_size), "loudness": ("loudness", read_loudness), "program": ("program", str),
    "report": ("report", str), "call": ("address", read_address)}


def read(words: List[str], now: datetime.datetime) -> Optional[Call]:
    """The call; nothing where the words are wrong."""
    found: Dict[str, Any] = {"when": on(next_day(now.date(), 0), 0)._replace(is_dated=False, is_given=False)}
    rest: List[str] = []
    for word in words:
        option, equals, value = word[2:].partition("=")
        if word in FLAGS:
            found[FLAGS[word]] = True
        elif word.startswith("--start="):
            found["when"] = read_when(value, now)
        elif word.startswith("--") and option in READERS and equals:
            name, reader = READERS[option]
            found[name] = reader(value)
        elif word.startswith("--"):
            return None
        else:
            rest.append(word)
    seconds = read_hours(rest[1]) if len(rest) == 2 else None
    if seconds is None or None in found.values() or "" in found.values():
        return None
    return Call(rest[0], seconds, **found)
