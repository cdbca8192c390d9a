"""The lists of a script, from where they were left, and no longer than a part of a night needs."""
from typing import Iterable, List, Optional, Tuple

from liq.nights.library import AHEAD, Library

LEAST = 3              # entries that a copy has at least


class Turns:
    """A list with the place from which it goes on. Its entries are those that can be played."""

    def __init__(self, name: str, entries: Iterable[str], library: Library):
        self.name, self.at, self.library = name, 0, library
        self.entries = [entry for entry in entries if library.may_play(entry)]
        self.known = set(self.entries)

    def next_ones(self, seconds: float, overlap: float = 0.0) -> List[str]:
        """The entries from the place on that last so long, each without an overlap, but at least half of it, and one more;
        all of them where they are shorter."""
        found: List[str] = []
        total, count = 0.0, len(self.entries)
        for k in range(count):
            if k % AHEAD == 0:
                self.library.look(self.entry(j) for j in range(k, min(k + AHEAD, count)))
            length = self.library.seconds(self.entry(k))
            if length is None:
                continue
            found.append(self.entry(k))
            if total >= seconds and len(found) >= LEAST:
                break
            total += max(length - overlap, length / 2)
        return found

    def entry(self, k: int) -> str:
        """The entry that is the k-th one from the place on."""
        return self.entries[(self.at + k) % len(self.entries)]

    def follow(self, played: Iterable[str]) -> None:
        """Goes on behind the last of these titles that is an entry; of an entry that stands there several times to
        the next one."""
        count = len(self.entries)
        for title in played:
            if title in self.known:
                step = next(k for k in range(count) if self.entry(k) == title)
                self.at = (self.at + step + 1) % count

    def go_to(self, entry: str, place: int) -> None:
        """Goes to an entry: at a place, or at the next one that is called so; where none is, to the place."""
        if not self.entries:
            return
        self.at = place % len(self.entries)
        if entry in self.known:
            step = next(k for k in range(len(self.entries)) if self.entry(k) == entry)
            self.at = (self.at + step) % len(self.entries)

    def behind(self, count: int) -> Tuple[str, ...]:
        """So many entries behind the next one."""
        return tuple(self.entry(k) for k in range(1, min(count + 1, len(self.entries))))

    @property
    def next(self) -> Optional[str]:
        return self.entries[self.at] if self.entries else None
