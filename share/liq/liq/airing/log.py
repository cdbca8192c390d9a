"""What was on the air, by the clock of the wall: a line of CSV for each track when it is over."""
import contextlib
import csv
import io
import os
from datetime import datetime
from typing import Any, Dict, Iterable, List, Optional

from liq.airing.say import Say
from liq.pages.forms import HEAD, one_line
from liq.pages.titles import Told

LEAST = 0.05           # seconds of a track that are told
LAST = 1 << 16         # bytes of the log in which a track is sought that was on the air when a run was killed


class Log:
    """A file to which lines are added. One that cannot be written is told, and the stream goes on."""

    def __init__(self, path: str, say: Say):
        self.path, self.say, self.trouble = path, say, ""
        self.row: Optional[List[str]] = None   # of the track that is on the air, without its seconds
        self.seconds = 0.0

    def begin(self, moment: float, name: str, told: Told) -> None:
        """A track begins; the one before is over."""
        self.end()
        at = datetime.fromtimestamp(round(moment))
        self.row = [f"{at:%Y-%m-%d}", f"{at:%H:%M:%S}", told.artist, told.title, told.album, told.isrc, told.label,
                    one_line(name)]
        self.seconds = 0.0

    def end(self) -> None:
        """The track is over."""
        if self.row and self.seconds >= LEAST:
            self.add(self.row, self.seconds)
        self.row = None

    def state(self) -> Dict[str, Any]:
        """What a run that is killed leaves to the next one."""
        row: List[Any] = list(self.row or ())
        return {"track": row and [*row, round(self.seconds, 1)]}

    def resume(self, state: Dict[str, Any]) -> None:
        """Adds the track that was on the air when the run before was killed, unless it was over and is there."""
        track = state.get("track")
        if isinstance(track, list) and len(track) == len(HEAD) and isinstance(track[-1], (int, float)):
            row = list(map(str, track[:-1]))
            if [*row[:2], row[-1]] not in self.last():
                self.add(row, float(track[-1]))

    def last(self) -> List[List[str]]:
        """Date, time and file of the last lines."""
        try:
            with open(self.path, "rb") as file:
                file.seek(max(0, os.path.getsize(self.path) - LAST))
                rows = list(csv.reader(file.read().decode("utf-8", "replace").split("\n")))
        except (OSError, csv.Error):
            return []
        return [[*row[:2], row[-1]] for row in rows if len(row) == len(HEAD)]

    def add(self, row: List[str], seconds: float) -> None:
        """Adds a line, with the head before the first one."""
        if not self.path:
            return
        try:
            self.append(line_of(HEAD), line_of([*row[:2], f"{seconds:.1f}", *row[2:]]))
            self.trouble = ""
        except OSError as error:
            if self.trouble != error.strerror:
                self.say(f"{self.path}: {error.strerror}; what is on the air is not logged")
            self.trouble = error.strerror or "fault"

    def append(self, head: bytes, line: bytes) -> None:
        """Adds a line, all or none, behind the head where there is nothing yet."""
        with open(self.path, "ab", buffering=0) as file:
            before = file.seek(0, os.SEEK_END)
            data = line if before else head + line
            try:
                if file.write(data) == len(data):
                    os.fsync(file.fileno())
                    return
            except OSError:
                with contextlib.suppress(OSError):
                    file.truncate(before)
                raise
            file.truncate(before)
            raise OSError(28, "No space left on device", self.path)


def line_of(row: Iterable[str]) -> bytes:
    """A line of CSV."""
    text = io.StringIO()
    csv.writer(text, lineterminator="\n").writerow(row)
    return text.getvalue().encode("utf-8", "replace")
