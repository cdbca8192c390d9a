"""Times as they are read: clock times of a week, and lengths."""
import re
from datetime import datetime
from typing import Optional

DAYS = ["Monday", "Tuesday", "Wednesday", "Thursday", "Friday", "Saturday", "Sunday"]
DAY = 86400
SHORT = 600  # seconds below which tenths are told


def read_start(text: str) -> Optional[int]:
    """The seconds of the week of D:HH:MM:SS, day 1 a Monday; None where it is none."""
    parts = re.fullmatch(r"([1-7]):([0-9]{2}):([0-9]{2}):([0-9]{2})", text)
    if parts is None:
        return None
    day, hour, minute, second = map(int, parts.groups())
    if hour > 23 or minute > 59 or second > 59:
        return None
    return (day - 1) * DAY + hour * 3600 + minute * 60 + second


def read_date(text: str) -> Optional[datetime]:
    """The moment of YYYY-MM-DD:HH:MM:SS, or with T in place of the first colon, or without seconds or a time; None where
    it is none."""
    parts = re.fullmatch(r"(\d{4})-(\d\d)-(\d\d)(?:[:T](\d\d):(\d\d)(?::(\d\d))?)?", text, re.ASCII)
    try:
        if parts is None:
            return None
        year, month, day, hour, minute, second = (int(part or 0) for part in parts.groups())
        return datetime(year, month, day, hour, minute, second)
    except ValueError:
        return None


def second_of(moment: datetime) -> int:
    """The second of the week of a moment."""
    return moment.weekday() * DAY + moment.hour * 3600 + moment.minute * 60 + moment.second


def week_text(second: int) -> str:
    """A second of the week as a person reads it, as Sat 01:59:58; a later week counts as this one."""
    of_day = second % DAY
    return f"{DAYS[second // DAY % 7][:3]} {of_day // 3600:02}:{of_day // 60 % 60:02}:{of_day % 60:02}"


def length_text(frames: float, rate: int, tenths: bool) -> str:
    """A length, rounded: 3:07, 1:02:03, or 0:07.5 with tenths."""
    if tenths:
        units = round(frames * 10 / rate)
        return f"{units // 600}:{units // 10 % 60:02}.{units % 10}"
    seconds = round(frames / rate)
    if seconds < 3600:
        return f"{seconds // 60}:{seconds % 60:02}"
    return f"{seconds // 3600}:{seconds // 60 % 60:02}:{seconds % 60:02}"


class Clock:
    """The clock of an output that starts at this second of the week."""

    def __init__(self, start: int, rate: int, length: int):
        self.start, self.rate = start, rate
        self.seconds = length / rate
        self.tenths = self.seconds < SHORT
        self.one_day = start % DAY + self.seconds <= DAY

    def text(self, frame: int, with_day: Optional[bool] = None) -> str:
        """The clock time of an instant, cut to the second, or to its tenth in a short output. The day of the week
        stands before it where the output does not lie within one day, unless something else is asked for."""
        units = frame * 10 // self.rate
        second = self.start + units // 10
        at_end = self.one_day and second % DAY == 0 and units > 0
        of_day = DAY if at_end else second % DAY
        text = f"{of_day // 3600:02}:{of_day // 60 % 60:02}:{of_day % 60:02}"
        if self.tenths:
            text += f".{units % 10}"
        if with_day or with_day is None and not self.one_day:
            text = f"{DAYS[(second - at_end) // DAY % 7][:3]} {text}"
        return text

    def day(self, frame: int) -> str:
        """The day of the week of an instant."""
        return DAYS[(self.start + frame // self.rate) // DAY % 7]

    def length(self, frames: float) -> str:
        """A length as it is told of this output."""
        return length_text(frames, self.rate, self.tenths)
