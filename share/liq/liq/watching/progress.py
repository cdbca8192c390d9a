"""How far a rendering has come, read off the temporary files that it has open, and a line on a terminal that says so."""
import os
import re
import sys
import time
from typing import Dict, Optional, Tuple

from liq.watching.names import shown

LATE = 1.0             # seconds before a first line
EVERY = 0.5            # seconds between lines
Seen = Tuple[int, int, Optional[str]]      # bytes that are written, bytes that will be, and the first name
TEMPORARY = re.compile(r"(.*)\.unfinished[0-9]*", re.S)


class Writing:
    """The temporary files of a process: their places, and what tells that they are its own."""

    def __init__(self, process: int):
        self.process = process
        self.files: Dict[str, Tuple[int, int]] = {}

    def look(self) -> Optional[Seen]:
        """The bytes that are written, the bytes that will be, and the name of the first file; nothing where none is known."""
        done = whole = 0
        first = None
        try:
            handles = sorted(os.listdir(f"/proc/{self.process}/fd"), key=int)
        except OSError:
            return None
        for handle in handles:
            place = f"/proc/{self.process}/fd/{handle}"
            try:
                path = os.readlink(place)
                match = TEMPORARY.fullmatch(path)
                if not match:
                    continue
                there = os.stat(place)
                self.files[path] = there.st_dev, there.st_ino
                with open(path, "rb") as file:
                    head = file.read(8)
            except OSError:
                continue
            if head[:4] == b"RIFF":
                done, whole = done + there.st_size, whole + int.from_bytes(head[4:], "little") + 8
                first = first or os.path.basename(match[1])
        return (done, whole, first) if whole else None

    def clear(self) -> None:
        """Removes the files that the process left, where they are still its own; to be called once it has ended."""
        for path, own in self.files.items():
            try:
                there = os.lstat(path)
                if (there.st_dev, there.st_ino) == own:
                    os.remove(path)
            except OSError:
                continue


def columns() -> int:
    """The columns of the terminal, one of them left free, so that no line is broken."""
    try:
        return max(8, os.get_terminal_size(sys.stderr.fileno()).columns - 1)
    except OSError:
        return 79


def time_left(seconds: float) -> str:
    """A time in words."""
    if seconds < 90:
        return f"{max(1, round(seconds))} s"
    return f"{round(seconds / 60)} min" if seconds < 5400 else f"{seconds / 3600:.1f} h"


class Line:
    """A line on standard error that is written over, where that is a terminal."""

    def __init__(self, front: str = ""):
        self.front, self.is_on, self.is_shown = front, sys.stderr.isatty(), False
        self.begin = self.last = time.monotonic()
        self.first: Optional[Tuple[float, float]] = None       # when and where the writing was seen first

    def show(self, seen: Optional[Seen], before: float = 0.0, share: float = 1.0) -> None:
        """Shows how far it has come; of a whole of which a share is this run, and so much was done before it."""
        now = time.monotonic()
        if not self.is_on or seen is None or now - self.begin < LATE or now - self.last < EVERY:
            return
        done, whole, name = seen
        part = before + share * done / whole
        self.first = self.first or (now, part)
        self.last = now
        left = ""
        if part > self.first[1] and now - self.first[0] > 1:
            left = f", {time_left((now - self.first[0]) * (1 - part) / (part - self.first[1]))} left"
        told = f" {100 * part:.0f} %{left}"
        self.write("\r" + shown(self.front or name or "")[:max(0, columns() - len(told))] + told + "\033[K")
        self.is_shown = True

    def clear(self) -> None:
        """Takes the line away."""
        if self.is_shown:
            self.write("\r\033[K")
            self.is_shown = False

    def write(self, text: str) -> None:
        """Writes on the terminal; one that is gone is written no more."""
        try:
            print(text, end="", file=sys.stderr, flush=True)
        except OSError:
            self.is_on = False
