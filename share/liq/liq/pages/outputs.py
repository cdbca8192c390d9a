"""Outputs: WAV files that follow each other, with what was played in them and where they are silent."""
import bisect
from dataclasses import dataclass, field
from typing import Iterable, Iterator, List, Optional, Sequence, Tuple

from liq.pages.cues import cues_of
from liq.pages.plays import Cue, Listener, Play, Run
from liq.pages.shelf import Shelf
from liq.pages.sounds import NoSound, Sound, sound_of
from liq.reading.companion import Companion


@dataclass
class Silence:
    """A stretch in which every sample is zero."""
    start: int
    end: int
    within: bool               # a part of a recording
    blank: bool = False        # a track without a title, and no gap


@dataclass
class Output:
    """One WAV file, or several that follow each other, of one rate and one number of channels."""
    names: List[str]
    rate: int = 0
    channels: int = 0
    length: int = 0
    gaps: Optional[int] = None
    parts: List[Tuple[int, Sound]] = field(default_factory=list)   # each with its first instant
    plays: List[Play] = field(default_factory=list)
    silences: List[Silence] = field(default_factory=list)
    has_cues: bool = False

    @property
    def name(self) -> str:
        return self.names[0]

    def power(self, start: int, end: int) -> float:
        """The mean square of a stretch."""
        total = 0.0
        for first, sound in self.parts:
            low, high = max(start, first), min(end, first + sound.frames)
            if low < high:
                total += sound.power(low - first, high - first) * (high - low)
        return total / max(1, end - start)

    def add(self, name: str, least_silence: float, shelf: Shelf) -> None:
        """Adds a file behind those that are there."""
        sound = sound_of(shelf.companion, name)
        if self.parts and (sound.rate, sound.channels) != (self.rate, self.channels):
            raise NoSound(f"{name} has another rate or other channels than {self.name}")
        self.rate, self.channels = sound.rate, sound.channels
        least, first = max(1, round(least_silence * sound.rate)), self.length
        cues = cues_of(name, sound.frames)
        self.has_cues = self.has_cues or cues is not None
        cues = cues or []
        shelf.look(title for _, title in cues if title is not None)
        silences = zeros_of(cues, sound, least)
        plays = Listener(sound, cues, silences, shelf).plays()
        for silence in told(silences, plays, least):
            silence.start, silence.end = silence.start + first, silence.end + first
            self.silences.append(silence)
        for play in plays:
            play.start, play.end = play.start + first, play.end + first
        self.plays += plays
        self.parts.append((first, sound))
        self.length += sound.frames


def read_output(names: Iterable[str], least_silence: float, companion: Companion) -> Output:
    """An output of files that follow each other; silence is told from so many seconds on."""
    output, shelf = Output(list(names)), Shelf(companion)
    for name in names:
        output.add(name, least_silence, shelf)
    return output


def zeros_of(cues: Sequence[Cue], sound: Sound, least: int) -> List[Run]:
    """The silent stretches of a file, cut where tracks start: many recordings begin with zeros, and what stands
    before a start belongs to the track that ended."""
    found = sound.silences(least)
    starts, cut = [start for start, _ in cues], []                 # type: Tuple[List[int], List[Run]]
    for low, high in sorted(found + untitled_zeros(cues, sound, found)):
        inner = starts[bisect.bisect_right(starts, low):bisect.bisect_left(starts, high)]
        cut += zip([low] + inner, inner + [high])
    return cut


def untitled_zeros(cues: Sequence[Cue], sound: Sound, known: Sequence[Run]) -> List[Run]:
    """Stretches without a title that are zero all along, however short, and not yet known."""
    found, lows = [], [low for low, _ in known]
    for (start, name), (end, _) in zip(cues, [*cues[1:], (sound.frames, None)]):
        k = bisect.bisect_right(lows, start) - 1
        if name is None and not (k >= 0 and end <= known[k][1]) and sound.is_zero(start, end):
            found.append((start, end))
    return found


def told(silences: Iterable[Run], plays: Sequence[Play], least: int) -> Iterator[Silence]:
    """What is told of silent stretches: what lies in a recording, and what lies behind its end or has no title."""
    starts = [play.start for play in plays]
    for low, high in silences:
        k = bisect.bisect_right(starts, low) - 1
        play = plays[k] if k >= 0 else None
        bare = play.end if play and play.name is not None else low      # from here on no recording is played
        if bare < high:
            yield Silence(max(low, bare), high, False, play is not None and play.name is None)
        if low < bare and min(bare, high) - low >= least:
            yield Silence(low, min(bare, high), True)
