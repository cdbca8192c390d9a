"""The sounds that a night may play: those that liq reads, and those that a cache decodes."""
import random
import time
from typing import TYPE_CHECKING, Dict, Iterable, List, Optional, Set, Tuple

from liq.nights.failed import KEPT, Crowded, Failed
from liq.reading.facts import Facts
from liq.watching.names import shown

AHEAD = 32             # names of a list that are looked at together
if TYPE_CHECKING:
    from liq.preparing.cache import Cache

PAUSES = (1.0, 3.0)    # seconds between looks for room in a cache
WAIT = 4 * 3600        # seconds that a night waits for it
TRIES = 3              # looks without others after which it waits no more
DECODED = ("not wav", "too large")     # states of sounds that liq does not read, and a cache may


def decoded_of(facts: Facts, loudness: Optional[float]) -> Set[str]:
    """The entries of lists that are decoded: those that liq does not read, and all that are played where they are brought to
    one loudness."""
    entries = {entry for one in facts.lists for entry in one.entries}
    return {name for name in entries if facts.sounds[name].state in DECODED
            or loudness is not None and facts.sounds[name].is_used and name not in facts.singles}


class Library:
    """The sounds of a script, by its facts and over a cache, or none."""

    def __init__(self, facts: Facts, cache: "Optional[Cache]" = None):
        self.facts, self.cache = facts, cache
        self.is_levelled = cache is not None and cache.form.loudness is not None
        self.singles = set(facts.singles)
        self.names: Dict[str, Tuple[str, bool]] = {}    # of a file in a copy its entry, and whether it is the first
        self.lengths: Dict[str, float] = {}             # seconds of the entries that were decoded
        self.waited, self.alone = 0.0, 0                # seconds that it waited for others, and tries without any

    @property
    def store(self) -> "Cache":
        """The cache, which is there where anything is decoded."""
        if self.cache is None:
            raise AssertionError("nothing is decoded here")
        return self.cache

    def may_play(self, name: str) -> bool:
        """Whether a sound is played, as far as is known before it is decoded."""
        sound = self.facts.sounds[name]
        return sound.is_used or self.cache is not None and sound.state in DECODED

    def is_decoded(self, name: str) -> bool:
        """Whether a sound is played as the cache makes it: one that liq does not read, and where all are brought to one
        loudness each entry of a list."""
        sound = self.facts.sounds[name]
        return not sound.is_used or self.is_levelled and name not in self.singles

    def skipped(self) -> int:
        """How many entries of lists are not played."""
        entries = [entry for one in self.facts.lists for entry in one.entries]
        left = {name for name in entries if not self.may_play(name) or self.cache is not None and self.cache.is_skipped(name)}
        return sum(entry in left for entry in entries) + sum(one.skipped for one in self.facts.lists)

    def look(self, names: Iterable[str]) -> None:
        """Finds out about these sounds together what `seconds` answers."""
        found = [name for name in names if self.is_decoded(name)]
        if found:
            self.store.look(found)

    def seconds(self, name: str) -> Optional[float]:
        """How long a sound is played; nothing where it is skipped."""
        sound = self.facts.sounds.get(name)
        if sound is None:
            return None
        if not self.is_decoded(name):
            return sound.played / self.facts.rate
        if name in self.lengths:
            return self.lengths[name]
        return self.cache.seconds(name) if self.cache is not None and self.may_play(name) else None

    def bytes_of(self, names: Iterable[str]) -> int:
        """The bytes that these sounds count for, each once."""
        names = set(names)
        ours = sum(self.facts.sounds[name].bytes for name in names if not self.is_decoded(name))
        decoded = sorted(name for name in names if self.is_decoded(name))
        return ours + (self.store.bytes_of(decoded) if decoded else 0)

    def has_room(self, names: Iterable[str]) -> bool:
        """Whether the cache holds these sounds together."""
        decoded = sorted({name for name in names if self.is_decoded(name)})
        return not decoded or self.store.has_room(decoded)

    def wait(self, names: Iterable[str]) -> bool:
        """Waits a while for other nights that use the room of these sounds; whether that may help."""
        decoded = sorted({name for name in names if self.is_decoded(name)})
        if self.cache is None or self.store.bytes_of(decoded) > self.cache.limit:
            return False
        self.alone = 0 if self.cache.is_crowded() else self.alone + 1       # another one may just have let go
        if self.alone > TRIES:
            return False
        if not self.waited:
            print(f"{shown(self.cache.folder)}: other nights use it; this one waits for room", flush=True)
        pause = random.uniform(*PAUSES)
        self.waited += pause
        time.sleep(pause)
        return self.waited < WAIT

    def files(self, names: Iterable[str]) -> Dict[str, List[str]]:
        """The files that liq plays for these names; a name that has none is absent."""
        names = list(dict.fromkeys(names))
        found = {name: [name] for name in names if not self.is_decoded(name)}
        decoded = [name for name in names if self.is_decoded(name)]
        if decoded:
            for name, paths in self.fetched(decoded).items():
                found[name] = paths
                self.names.update({path: (name, path == paths[0]) for path in paths})
                self.lengths[name] = self.store.seconds(name) or 0.0
        return found

    def fetched(self, names: List[str]) -> Dict[str, List[str]]:
        """Decodes these sounds, and lets go of those of the part before. `Crowded` where others use the room for them."""
        from liq.preparing import cache
        self.store.release()
        try:
            return self.store.fetch(names)
        except cache.Full as error:
            self.store.release()
            kind = Crowded if self.wait(names) else Failed
            raise kind(f"{error}; {KEPT}", 4) from None
        except cache.Failed as error:
            raise Failed(f"{error}; {KEPT}", 4) from None

    def name_of(self, file: str) -> Tuple[str, bool]:
        """The entry that a file was played for, and whether it is the first file of it."""
        return self.names.get(file, (file, True))

    def titles(self, names: Iterable[str]) -> List[str]:
        """Lines of a table of titles for those of these names that are decoded."""
        decoded = [name for name in names if name in self.facts.sounds and self.is_decoded(name)]
        return self.store.titles(decoded) if decoded else []

    def told(self) -> List[str]:
        """Lines on what could not be decoded."""
        return self.cache.told if self.cache is not None else []
