"""When a rendering begins by the clock of the wall: NAME.start beside it, a line such as 2026-12-01T20:00:00+01:00.

A start that is older than its rendering is that of an earlier one, and does not count.
"""
import datetime
import os
from typing import List, Optional

from liq.nights.rooms import Room

ENDING = ".start"
LONGEST = 64           # bytes of such a file


def later(moment: datetime.datetime, seconds: float) -> datetime.datetime:
    """The moment so many seconds later, in the time zone of this machine. A clock that is set forward or back in between
    does not count as time."""
    return datetime.datetime.fromtimestamp(moment.timestamp() + seconds).astimezone()


def text_of(moment: datetime.datetime) -> str:
    return later(moment, 0).isoformat() + "\n"


def written(room: Room, name: str, moment: Optional[datetime.datetime]) -> List[str]:
    """Writes the start of a file in a room, where it is known; the endings of what was written."""
    if moment is None:
        return []
    room.write(name + ENDING, text_of(moment).encode())
    return [ENDING]


def start_of(name: str) -> Optional[float]:
    """The second since 1970 at which a rendering begins; nothing where none is told, or it is that of an earlier one.
    `ValueError` where the file holds anything else."""
    try:
        with open(name + ENDING, "rb") as file:
            if os.fstat(file.fileno()).st_mtime_ns < os.stat(name).st_mtime_ns:
                return None
            data = file.read(LONGEST)
    except OSError:
        return None
    return datetime.datetime.fromisoformat(data.decode("ascii").strip()).timestamp()
