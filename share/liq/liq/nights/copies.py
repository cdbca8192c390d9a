"""The copies of the lists that a part plays.

An entry of several lists, or one that a `single` plays too, is spelled another way in each copy, by `./` before it. So
a cue says of which list it was played.
"""
import collections
from typing import Dict, Iterable, List, Sequence

from liq.nights.library import Library
from liq.nights.lists import Turns

SAME = "./"            # before a name it leads to the same file
LONGEST = 4000         # bytes of a spelled name


class Copies:
    """The copies of these lists, and of which list a file is played."""

    def __init__(self, turns: Dict[str, Turns], singles: Sequence[str], library: Library):
        self.library = library
        count = collections.Counter(entry for one in turns.values() for entry in one.known)
        self.shared = {entry for entry, lists in count.items() if lists > 1 or entry in singles}
        names = [*count, *singles]
        self.first = 1 + max((name.count(SAME) for name in names), default=0)      # so many `./` no entry has
        self.number = {name: k for k, name in enumerate(turns)}
        self.owner: Dict[str, str] = {}        # of a spelled file the list that plays it

    def spelled(self, entry: str, paths: List[str], name: str) -> List[str]:
        """The files of an entry in the copy of a list."""
        if entry not in self.shared:
            return paths
        found = []
        for k, path in enumerate(paths):
            front = SAME * (self.first + self.number[name])
            other = "/" + front + path[1:] if path.startswith("/") else front + path
            found.append(other if len(other.encode(errors="surrogateescape")) <= LONGEST else path)
            self.library.names[found[-1]] = entry, k == 0
            self.owner[found[-1]] = name
        return found

    def text(self, name: str, entries: Iterable[str], files: Dict[str, List[str]]) -> bytes:
        """The copy of a list, with these files for its entries."""
        lines = [file + "\n" for entry in entries for file in self.spelled(entry, files[entry], name)]
        return "".join(lines).encode(errors="surrogateescape")

    def played(self, name: str, titles: Iterable[str]) -> List[str]:
        """The entries of a list among the tracks of a part, each once where it is several files."""
        found = []
        for title in titles:
            entry, is_first = self.library.name_of(title)
            owner = self.owner.get(title, None if entry in self.shared else name)
            if is_first and owner == name:
                found.append(entry)
        return found

    def size(self, entries: Dict[str, List[str]], singles: Sequence[str]) -> int:
        """What the sounds count for that a call plays. A file that is spelled in several ways counts for each."""
        alone = [entry for one in entries.values() for entry in one if entry not in self.shared]
        total = self.library.bytes_of([*alone, *singles])
        return total + sum(self.library.bytes_of(entry for entry in one if entry in self.shared)
                           for one in entries.values())
