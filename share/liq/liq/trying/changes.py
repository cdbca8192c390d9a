"""When a station has changed: its script, its lists, its sounds and their folders."""
import os
import time
from typing import Callable, Dict, Iterable, List, Tuple

SCRIPT, FILES = 0.1, 1.0   # seconds between two looks at the script, and at the files that it names
QUIET = 0.2                # seconds without a change after which the station is looked at
LATEST = 12.0              # seconds after a change at which it is looked at though it still changes
MOST = 4096                # files that are asked for at a time; of more, so many at each time
State = Tuple[int, int, int]


def state_of(name: str) -> State:
    """The time, size and number of a file; nothing of it where it is not there."""
    try:
        there = os.stat(name)
        return there.st_mtime_ns, there.st_size, there.st_ino
    except (OSError, ValueError):
        return 0, -1, 0


class Changes:
    """Watches the script, and what it names, once they are told."""

    def __init__(self, script: str):
        self.script, self.names, self.at = script, [script], 0
        self.known: Dict[str, State] = {}
        self.first = self.last = 0.0                        # when changes were seen that are not looked at yet
        self.asked = 0.0                                    # when the files were asked for

    names: List[str]

    def tell(self, names: Iterable[str]) -> None:
        """From now on these files are watched, and the folders in which they lie."""
        found = dict.fromkeys(name for name in names if "\0" not in name)
        folders = dict.fromkeys(os.path.dirname(name) or "." for name in found)
        self.names = [self.script, *list(folders)[:MOST], *found]
        watched = set(self.names)
        self.known = {name: state for name, state in self.known.items() if name in watched}

    def has_changed(self, name: str, since: int) -> bool:
        """Whether a file is another than when it was seen last; of one that is seen first, whether it changed since a
        look, in nanoseconds of the clock of files."""
        now, before = state_of(name), self.known.get(name)
        self.known[name] = now
        return now != before if before is not None else now[0] > since

    def pass_over(self, since: int) -> bool:
        """Asks for the script and, once a second, for some of the other files; whether one has changed."""
        changed = self.has_changed(self.script, since)
        if time.monotonic() - self.asked >= FILES:
            self.asked = time.monotonic()
            some = (self.names + self.names)[self.at:self.at + min(MOST, len(self.names))]
            self.at = (self.at + len(some)) % len(self.names)
            for name in some:
                changed |= self.has_changed(name, since)
        return changed

    def is_due(self, since: int) -> bool:
        """Whether it is time for a look, after a pass."""
        now = time.monotonic()
        if self.pass_over(since):
            self.first, self.last = self.first or now, now
        if not self.first or now - self.last < QUIET and now - self.first < LATEST:
            return False
        self.first = 0.0
        return True

    def watch(self, look: Callable[[], Iterable[str]]) -> None:
        """Looks now, and again after each change, for ever. A look answers the names of the files that it is about."""
        while True:
            began = time.time_ns()
            self.known[self.script] = state_of(self.script)
            self.tell(look())
            while not self.is_due(began):
                time.sleep(SCRIPT)
