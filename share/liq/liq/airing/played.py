"""What was played, and how far what is played now; also in a file, if that is wanted."""
import contextlib
import json
import os
from typing import Any, Dict, List, Optional

from liq.airing.renderings import Key
from liq.airing.say import Say
from liq.preparing import disk

MOST = 1000            # renderings that are remembered


class Played:
    """Which renderings without a start were played, and how far the one that is played now. The file has what is on the
    air too. A file that cannot be written, or is none, is told, and the stream goes on."""

    def __init__(self, path: str, say: Say):
        self.path, self.say, self.trouble = path, say, ""
        self.done: List[Key] = []
        self.now: Optional[Key] = None
        self.at = 0.0                          # seconds of what is played now
        self.more: Dict[str, Any] = {}         # what else the file tells
        self.before: Dict[str, Any] = {}       # what it told of the run before
        if path and os.path.lexists(path):
            self.read()

    def read(self) -> None:
        """Reads the file."""
        try:
            with open(self.path, "rb") as file:
                told = json.loads(file.read())
            self.done, now = [key_in(one) for one in told["done"]], told["now"]
            if now:
                self.now, self.at = key_in(now[0]), float(now[1])
            self.before = dict(told)
        except OSError as error:
            self.say(f"{self.path}: {error.strerror}; what was played is not known")
        except (ValueError, TypeError, LookupError, RecursionError):
            kept = next(name for k in range(1, 1 << 30) if not os.path.lexists(name := f"{self.path}.kept{k}"))
            self.say(f"{self.path}: is no state of liq-air; it is kept as {kept}")
            with contextlib.suppress(OSError):
                os.rename(self.path, kept)

    def write(self) -> None:
        """Writes the file, whole."""
        if not self.path:
            return
        now = [list(self.now), self.at] if self.now else None
        told = {"done": [list(key) for key in self.done[-MOST:]], "now": now, **self.more}
        part = self.path + ".part"
        try:
            disk.write(part, [json.dumps(told).encode() + b"\n"])
            disk.replace(part, self.path)
            self.trouble = ""
        except OSError as error:
            with contextlib.suppress(OSError):
                os.remove(part)
            if self.trouble != error.strerror:
                self.say(f"{self.path}: {error.strerror}; what was played is not noted")
            self.trouble = error.strerror or "fault"

    def has(self, key: Key) -> bool:
        """Whether a rendering was played."""
        return key in self.done

    def add(self, key: Key) -> None:
        """Notes that a rendering was played."""
        self.done.append(key)
        if self.now == key:
            self.now = None
        self.write()

    def place(self, key: Key) -> float:
        """At which second a rendering goes on."""
        return self.at if self.now == key else 0.0


def key_in(told: Any) -> Key:
    """The key that a file tells."""
    place, size, time = told
    return str(place), int(size), int(time)
