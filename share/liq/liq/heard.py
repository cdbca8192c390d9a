"""What an output plays in a stretch of the week: its tracks, its loudness, its silence."""
import array
from dataclasses import dataclass, field
from functools import cached_property
from typing import Callable, Dict, List, NamedTuple, Sequence

from liq import measuring
from liq.pages.times import week_text
from liq.pages.titles import Titles
from liq.watching.names import shown

WEEK = 604800
HEAD = 44              # bytes of a WAV file before its samples
NEAR = 2               # tracks on each side that a message shows
WIDTH = 76             # characters of a number with its tracks: a message of unittest cuts what is longer


class Cue(NamedTuple):
    """The sample, from the begin on, at which a track begins, and its file; "" where it has none."""
    at: int
    file: str


@dataclass(frozen=True)
class Recorded:
    """What was rendered of an output: its WAV files, which follow one another, their samples a side, the samples a
    second, the bits of a sample, the samples at which there was nothing to play, and its cues."""
    paths: "tuple[str, ...]"
    frames: int
    rate: int
    bits: int
    gaps: int
    cues: "tuple[Cue, ...]"


@dataclass(frozen=True)
class Track:
    """A track: `at`, the seconds from the begin of what is heard; `moment`, the second of the week, from 0 to below
    604800; `file`, as the script or its list names it, "" for silence; `title` and `artist`, "" where no table tells
    them. As a text it shows the tracks around it, for the message of a test."""
    at: float
    moment: float
    file: str
    title: str = ""
    artist: str = ""
    near: str = field(default="", compare=False, repr=False)

    def __repr__(self) -> str:
        return f"{week_text(int(self.moment))} {shown(self.file) or 'no file'}"

    def __str__(self) -> str:
        return f"{self!r} ({self.near})" if self.near else repr(self)


@dataclass(frozen=True)
class Silence:
    """A stretch of dead air: `at`, the seconds from the begin of what is heard; `moment`, the second of the week; its
    `seconds`. As a text it shows the tracks around it."""
    at: float
    moment: float
    seconds: float
    near: str = field(default="", compare=False, repr=False)

    def __repr__(self) -> str:
        return f"{week_text(int(self.moment))} for {self.seconds:.1f} s ({self.near})"


class Count(int):
    """A number of tracks. In the message of a test it shows when they begin."""

    def __new__(cls, tracks: Sequence[Track]) -> "Count":
        found = super().__new__(cls, len(tracks))
        found.tracks = list(tracks)
        return found

    tracks: List[Track]

    def __repr__(self) -> str:
        text = f"{int(self)}: " + ", ".join(map(repr, self.tracks[:9])) if self.tracks else str(int(self))
        return text if len(text) <= WIDTH else text[:WIDTH - 4] + " .."

    def __str__(self) -> str:
        return int.__repr__(self)

    def __reduce__(self) -> "tuple[type, tuple[int]]":
        return int, (int(self),)


class Heard:
    """What an output plays from a moment of the week on. It is rendered; nobody listens to it but ffmpeg, for `peak`,
    `loudness` and `dead_air`, which raise `NoAnswer` where that is not installed."""

    def __init__(self, recorded: Callable[[], Recorded], moment: int, titles: Titles):
        self._recorded, self._first, self._titles = recorded, recorded(), titles
        self.moment = moment

    def __repr__(self) -> str:
        return f"Heard({week_text(self.moment)}, {self.seconds:g} s: {self._names(self.tracks[:3 * NEAR])})"

    @property
    def seconds(self) -> float:
        """How long it is."""
        return self._first.frames / self._first.rate

    @property
    def rate(self) -> int:
        """Samples a second."""
        return self._first.rate

    @property
    def gaps(self) -> float:
        """The seconds in which the output had nothing to play; 0.0 where it always had."""
        return self._first.gaps / self._first.rate

    @cached_property
    def tracks(self) -> List[Track]:
        """The tracks that begin, in order. One that goes on after another source broke into it begins once more."""
        bare = [self._track(cue) for cue in self._first.cues]
        near = (self._names(bare[max(0, k - NEAR):k + NEAR + 1]) for k in range(len(bare)))
        return [self._track(cue, names) for cue, names in zip(self._first.cues, near)]

    def _track(self, cue: Cue, near: str = "") -> Track:
        at, told = cue.at / self.rate, self._titles.all_of(cue.file)
        return Track(at, (self.moment + at) % WEEK, cue.file, told.title, told.artist, near)

    @staticmethod
    def _names(tracks: Sequence[Track]) -> str:
        return ", ".join(map(repr, tracks)) or "no track begins"

    @property
    def files(self) -> List[str]:
        """The files of the tracks, in order."""
        return [track.file for track in self.tracks]

    def count(self, file: str) -> int:
        """How often a track of this file begins."""
        return Count([track for track in self.tracks if track.file == file])

    def repeats(self, within: float) -> List[Track]:
        """The tracks whose file began less than `within` seconds before, in order. Silence is none."""
        last: Dict[str, float] = {}
        found = []
        for track in self.tracks:
            if track.file and track.at - last.get(track.file, -within) < within:
                found.append(track)
            last[track.file] = track.at
        return found

    def around(self, at: float, tracks: int = NEAR) -> List[Track]:
        """The tracks around a second of what is heard: so many before and behind it, and the one that plays."""
        playing = sum(track.at <= at for track in self.tracks) - 1
        return self.tracks[max(0, playing - tracks):max(0, playing + tracks + 1)]

    @cached_property
    def peak(self) -> float:
        """The loudest sample, in dB of full scale: 0 at most, minus infinity of silence."""
        return measuring.peak_of(self._recorded().paths)

    @cached_property
    def loudness(self) -> float:
        """The loudness of the whole by EBU R 128, in LUFS; minus infinity where it is below -70."""
        return measuring.loudness_of(self._recorded().paths)

    def dead_air(self, longer: float, below: float = -50.0) -> List[Silence]:
        """The stretches of at least `longer` seconds in which each sample is below `below` dB of full scale. `longer`
        is above 0, and `below` is -120 to 0; else it is a `ValueError`."""
        if not longer > 0 or not -120 <= below <= 0:
            raise ValueError(f"longer={longer:g}, below={below:g}: seconds above 0, and dB from -120 to 0")
        found = measuring.quiet_in(self._recorded().paths, longer, below, self.seconds)
        return [Silence(start, (self.moment + start) % WEEK, end - start, self._names(self.around(start)))
                for start, end in found]

    def samples(self) -> "array.array[int]":
        """The samples, left and right in turn: from -32768 to 32767 of 16 bits, or from -8388608 to 8388607 of 24. An
        hour at 44100 takes 635 MB of 16 bits, and twice as much of 24."""
        recorded = self._recorded()
        found = array.array("h" if recorded.bits == 16 else "i")
        for path in recorded.paths:
            found.extend(samples_of(path, recorded.bits))
        return found


def samples_of(path: str, bits: int) -> "array.array[int]":
    """The samples of a WAV file that liq wrote."""
    with open(path, "rb") as file:
        size = int.from_bytes(file.read(HEAD)[HEAD - 4:], "little")
        data = file.read(size)
    if bits == 16:
        return array.array("h", data)
    wide = bytearray(len(data) // 3 * 4)
    for k in range(3):
        wide[k + 1::4] = data[k::3]
    return array.array("i", (value >> 8 for value in array.array("i", bytes(wide))))
