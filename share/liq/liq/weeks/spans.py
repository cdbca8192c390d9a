"""The seconds of the week that a line of a switch tells."""
import re
from typing import List, Optional, Sequence, Tuple

DAYS = ["Mon", "Tue", "Wed", "Thu", "Fri", "Sat", "Sun"]
DAY, WEEK = 86400, 604800
TIME = r"(?:(Mon|Tue|Wed|Thu|Fri|Sat|Sun) )?(\d\d):(\d\d)(?::(\d\d))?"
SPAN = re.compile(f"{TIME}-{TIME}")


def second_of(day: Optional[str], parts: Sequence[Optional[str]]) -> int:
    """The second of a day of the week, or of any day."""
    hours, minutes, seconds = (int(part or 0) for part in parts)
    return (DAYS.index(day) * DAY if day else 0) + hours * 3600 + minutes * 60 + seconds


def spans_of(text: str) -> List[Tuple[int, int]]:
    """The spans of the week that `nothing holds ..` tells, as pairs of a first second and one behind the last;
    none where the text does not tell all of them."""
    when = text.removeprefix("nothing holds ").split(": ")[0]
    if when == "at any time":
        return [(0, WEEK)]
    if when == text or " more" in when:
        return []
    starts = range(0, WEEK, DAY) if when.endswith(", every day") else [0]
    period = WEEK // len(starts)
    found: List[Tuple[int, int]] = []
    for match in SPAN.finditer(when):
        first = second_of(match[1], match.group(2, 3, 4))
        end = second_of(match[5] or match[1], match.group(6, 7, 8))
        for start in starts:
            found += cut(first + start, (end - first) % period or period)
    return sorted(found)


def cut(first: int, length: int) -> List[Tuple[int, int]]:
    """A span that begins at a second of the week, which may go round its end, as spans within it."""
    first %= WEEK
    end = first + length
    return [(first, end)] if end <= WEEK else [(first, WEEK), (0, end - WEEK)]
