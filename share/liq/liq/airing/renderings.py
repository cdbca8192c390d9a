"""The renderings that are there: those of a name, with its parts, or those of a folder."""
import os
import re
from typing import Dict, Iterable, List, NamedTuple, Optional, Tuple

from liq.airing.say import Say
from liq.nights.starts import ENDING, start_of
from liq.pages.sounds import sounds_of
from liq.preparing.programs import Broken, Programs
from liq.preparing.sounds import looked_at
from liq.reading.companion import Companion, NoAnswer

UNKNOWN = 86400.0      # seconds that count as the length of a file of which none is told
Key = Tuple[str, int, int]


class Rendering(NamedTuple):
    """A file: its path, what tells it from others of its name, how many seconds it has, and the second since 1970 at
    which it begins, if it has one."""
    name: str
    key: Key
    seconds: float
    start: Optional[float] = None

    @property
    def end(self) -> float:
        """The second since 1970 at which it ends; 0 where it has no start."""
        return 0.0 if self.start is None else self.start + self.seconds


def key_of(name: str) -> Optional[Key]:
    """What tells a rendering from others of its name; nothing where none is there."""
    try:
        there = os.stat(name)
    except (OSError, ValueError):
        return None
    return os.path.realpath(name), there.st_size, there.st_mtime_ns


def files_of(name: str) -> List[str]:
    """The files of a name: those of a folder, or the file and its parts NAME-1.wav and so on, as far as they are there."""
    if os.path.isdir(name):
        return [os.path.join(name, other) for other in names_in(name) if other.endswith(".wav")]
    folder, last = os.path.split(name)
    front = re.escape(last[:-4] if last.endswith(".wav") else last)
    found = [other for other in names_in(folder or ".") if re.fullmatch(front + r"-[1-9][0-9]*\.wav", other)]
    found.sort(key=lambda other: (len(other), other))
    return [name] * os.path.exists(name) + [os.path.join(folder, other) for other in found]


def names_in(folder: str) -> List[str]:
    """The names in a folder; none where it cannot be read."""
    try:
        return sorted(os.listdir(folder))
    except OSError:
        return []


class Renderings:
    """What is known of the renderings of some names. Each is looked into once."""

    def __init__(self, names: List[str], companion: Companion, programs: Programs, has_clock: bool, say: Say):
        self.names, self.companion, self.programs, self.has_clock, self.say = names, companion, programs, has_clock, say
        self.lengths: Dict[Key, float] = {}

    def look(self) -> Dict[str, List[Rendering]]:
        """The renderings of each name that are there now. Where some have starts, the others are older and do not count."""
        keys = {file: key for name in self.names for file in files_of(name) if (key := key_of(file))}
        self.measure(keys)
        found = {}
        for name in self.names:
            there = [Rendering(file, keys[file], self.lengths[keys[file]], self.start(file))
                     for file in files_of(name) if file in keys and keys[file] in self.lengths]
            found[name] = [one for one in there if one.start is not None] or of_one_time(name, there)
        return found

    def start(self, file: str) -> Optional[float]:
        """When a rendering begins."""
        if not self.has_clock:
            return None
        try:
            return start_of(file)
        except ValueError:
            self.say.once(f"{file}{ENDING}: is no time as 2026-12-01T20:00:00+01:00")
            return None

    def measure(self, keys: Dict[str, Key]) -> None:
        """Finds out how long those are that are new; what is gone is forgotten."""
        there = set(keys.values())
        self.lengths = {key: seconds for key, seconds in self.lengths.items() if key in there}
        new = [file for file, key in keys.items() if key not in self.lengths]
        if not new:
            return
        lengths = self.lengths_of(new)
        for file in new:
            self.lengths[keys[file]] = lengths.get(file) or self.length_by_ffprobe(file)

    def lengths_of(self, files: Iterable[str]) -> Dict[str, float]:
        """The lengths of those that liq wrote, as the companion tells their heads."""
        try:
            found = sounds_of(self.companion, list(files))
        except (NoAnswer, OSError):
            return {}
        return {file: sound.frames / sound.rate for file, sound in found.items()}

    def length_by_ffprobe(self, file: str) -> float:
        """The length of another file."""
        try:
            return looked_at(self.programs, file).seconds or UNKNOWN
        except (Broken, OSError):
            return UNKNOWN


def of_one_time(name: str, there: List[Rendering]) -> List[Rendering]:
    """Of a file and the parts of its name that have no starts, those that are newer."""
    if os.path.isdir(name):
        return there
    whole, parts = [one for one in there if one.name == name], [one for one in there if one.name != name]
    if whole and parts:
        return whole if whole[0].key[2] >= max(part.key[2] for part in parts) else parts
    return there
