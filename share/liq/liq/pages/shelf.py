"""The audio files that were played, where they are still there."""
from typing import Dict, Iterable, List, Optional, Sequence

from liq.pages.sounds import NoSound, Sound, sounds_of
from liq.reading.companion import Companion


class Shelf:
    """The audio files that cue files name."""

    def __init__(self, companion: Companion):
        self.companion = companion
        self.sounds: Dict[str, Optional[Sound]] = {}

    def look(self, names: Iterable[str]) -> None:
        """Looks at files that are not known yet, all at once."""
        names = {name for name in names if name not in self.sounds}
        if names:
            self.sounds.update({**dict.fromkeys(names), **sounds_of(self.companion, names)})

    def sound(self, name: str) -> Optional[Sound]:
        """A file, or None where it cannot be read."""
        self.look([name])
        return self.sounds[name]

    def known(self, name: Optional[str]) -> Sound:
        """A file that is known to be there."""
        sound = self.sound(name) if name is not None else None
        if sound is None:
            raise NoSound(f"{name} cannot be read")
        return sound

    def length(self, name: Optional[str], rate: int) -> Optional[int]:
        """How many instants a file has at the rate of an output, as it is loaded; None where that is not known."""
        sound = self.sound(name) if name is not None else None
        return max(1, sound.frames * rate // sound.rate) if sound and sound.frames else None

    def values(self, name: Optional[str], frames: Sequence[int], rate: int) -> List[float]:
        """The means of the channels of a file at instants of an output; 0 behind its end."""
        sound = self.known(name)
        if sound.rate != rate:
            return [self.between(sound, frame, rate) for frame in frames]
        within = [frame for frame in frames if frame < sound.frames]
        if len(within) == len(frames):
            return sound.means(frames)
        found = iter(sound.means(within))
        return [next(found) if frame < sound.frames else 0.0 for frame in frames]

    def between(self, sound: Sound, frame: int, rate: int) -> float:
        """The mean of the channels of a file of another rate at an instant of an output."""
        at, part = divmod(frame * sound.rate, rate)
        if at >= sound.frames:
            return 0.0
        here, following = sound.means([at, min(at + 1, sound.frames - 1)])
        return here if part == 0 else here + (following - here) * part / rate

    def is_silent(self, name: Optional[str], length: int, count: int, rate: int) -> bool:
        """Whether the last samples of a file are zero, so many, by about 64 of them."""
        return not any(self.values(name, sorted(length - 1 - k * count // 64 for k in range(min(64, count))), rate))

    def zeros(self, name: Optional[str], frame: int, count: int, rate: int) -> int:
        """How many instants of a file from this one on are zero, at most so many."""
        sound = self.known(name)
        first = sound.first_sound(min(frame * sound.rate // rate, sound.frames))
        until = first * rate if sound.rate == rate else (first - 1) * rate + 1
        return min(count, max(0, -(-until // sound.rate) - frame))
