"""WAV files as they are looked at: how long they are, how loud, and where they are silent."""
import mmap
import os
import stat
import sys
from bisect import bisect_right
from collections import OrderedDict
from operator import mul
from typing import BinaryIO, Dict, Iterable, List, Sequence, Tuple

from liq.failed import Failed
from liq.reading.companion import Companion
from liq.reading.heads import Head, heads_of

WINDOW = 1 << 23       # bytes of a file that are mapped at a time
MAPPED = 16            # files of which some are
BLOCKS, BLOCK = 8, 32   # blocks of a stretch whose loudness is asked for, and frames of each
ZEROS = bytes(1 << 18)


class NoSound(Failed):
    """A file that is no WAV file that liq plays."""

    def __init__(self, text: str):
        super().__init__(text, 3)


def regular(path: str) -> BinaryIO:
    """Opens a file to read it, but for one that would keep the reader waiting, as a pipe does."""
    try:
        mode = os.stat(path).st_mode
    except ValueError:
        raise NoSound(f"{path} is a name that no file can have") from None
    if not stat.S_ISREG(mode):
        raise NoSound(f"{path} is no regular file")
    return open(path, "rb")


class Windows:
    """The parts of files that are mapped at a time, so many at most: the one that was used longest ago goes first."""

    def __init__(self) -> None:
        self.held: "OrderedDict[int, Sound]" = OrderedDict()

    def add(self, sound: "Sound") -> None:
        """Notes that a sound has a part of its file mapped."""
        self.held[id(sound)] = sound
        self.held.move_to_end(id(sound))
        if len(self.held) > MAPPED:
            self.held.popitem(last=False)[1].view = memoryview(b"")


WINDOWS = Windows()


class Sound:
    """A WAV file: whole numbers of 16 or 24 bits, one or two channels. A window of it is mapped at a time, so that a
    file of any size takes little memory."""

    def __init__(self, path: str, head: Head):
        self.path, self.channels, self.rate, self.begin = path, head.sides, head.rate, head.place
        self.width = head.bits // 8
        self.block = self.width * self.channels
        self.frames = head.size // self.block
        self.is_narrow = self.width == 2 and sys.byteorder == "little"
        self.view, self.low = memoryview(b""), 0           # what is mapped, and from which byte of the samples on
        self.quiet: List[Tuple[int, int]] = []             # stretches that are known to be zero

    def piece(self, low: int, high: int) -> memoryview:
        """The bytes of the samples from one place to another."""
        if not self.low <= low <= high <= self.low + len(self.view):
            self.map(low, high)
        return self.view[low - self.low:high - self.low]

    def map(self, low: int, high: int) -> None:
        """Maps a window of the file that holds the bytes of the samples from one place to another."""
        first = max(0, low - WINDOW // 4)
        start = (self.begin + first) // mmap.ALLOCATIONGRANULARITY * mmap.ALLOCATIONGRANULARITY
        end = min(self.begin + self.frames * self.block, max(self.begin + high, start + WINDOW))
        with regular(self.path) as file:
            try:
                view = memoryview(mmap.mmap(file.fileno(), end - start, access=mmap.ACCESS_READ, offset=start))
            except ValueError:
                raise NoSound(f"{self.path} has become shorter") from None
        skip = max(0, self.begin - start)                  # bytes of the window before the samples
        self.view, self.low = view[skip:], start + skip - self.begin
        if self.block == 4 and self.low % 2:
            raise NoSound(f"{self.path} has its samples at an odd place")
        WINDOWS.add(self)

    def values(self, start: int, end: int, step: int) -> List[int]:
        """The samples of each step-th frame, one channel behind the other, as numbers of 16 bits."""
        data, found = self.piece(start * self.block, min(end, self.frames) * self.block), []
        samples = data.cast("h") if self.is_narrow else None
        for side in range(self.channels):
            if samples is not None:
                found += samples[side::step * self.channels].tolist()
                continue
            low = (side + 1) * self.width - 2
            pairs = zip(data[low::step * self.block], data[low + 1::step * self.block])
            found += [(a | b << 8) - (b >> 7 << 16) for a, b in pairs]
        return found

    def means(self, frames: Sequence[int]) -> List[float]:
        """The means of the channels of these frames, which grow."""
        if not frames:
            return []
        first, end = frames[0], frames[-1] + 1
        if not self.is_narrow or (end - first) * self.block > WINDOW // 2:
            return [sum(found) / len(found) for found in (self.values(frame, frame + 1, 1) for frame in frames)]
        samples = self.piece(first * self.block, end * self.block).cast("h")
        if self.channels == 1:
            return [samples[frame - first] / 1 for frame in frames]
        return [(samples[2 * (frame - first)] + samples[2 * (frame - first) + 1]) / 2 for frame in frames]

    def power(self, start: int, end: int) -> float:
        """The mean square of a stretch: of all its frames, or of blocks at even distances, since few parts of a long file
        are to be read."""
        if self.is_quiet(start, end):
            return 0.0
        span = end - start
        if span <= BLOCKS * BLOCK:
            found = self.values(start, end, 1)
        elif self.is_narrow and span * self.block <= WINDOW // 2:
            found, samples = [], self.piece(start * self.block, end * self.block).cast("h")
            for k in range(BLOCKS):
                low = k * (span - BLOCK) // (BLOCKS - 1) * self.channels
                found += samples[low:low + BLOCK * self.channels].tolist()
        else:
            lows = (start + k * (span - BLOCK) // (BLOCKS - 1) for k in range(BLOCKS))
            found = [value for low in lows for value in self.values(low, low + BLOCK, 1)]
        total: float = sum(map(mul, found, found))
        return total / len(found) if found else 0.0

    def is_quiet(self, start: int, end: int) -> bool:
        """Whether a stretch is one of those, or within one, that `silences` found."""
        k = bisect_right(self.quiet, (start, self.frames)) - 1
        return k >= 0 and end <= self.quiet[k][1]

    def is_zero(self, start: int, end: int) -> bool:
        """Whether each sample of a stretch is zero."""
        return self.first_sound(start) >= min(end, self.frames)

    def silences(self, least: int) -> List[Tuple[int, int]]:
        """Where at least so many frames are zero, as pairs (start, end). The file is probed at each half of that, so
        none is missed, and is read byte by byte only around what is zero there."""
        step, found, at = max(1, least // 2), [], 0
        probe = min(step, 32) * self.block
        zero = bytes(probe)
        while at < self.frames:
            here = self.piece(at * self.block, min(at * self.block + probe, self.frames * self.block))
            if here != zero[:len(here)]:
                at += step
                continue
            start, end = self._zero_before(at), self.first_sound(at)
            if end - start >= least:
                found.append((start, end))
            at = max(at + step, -(-end // step) * step)
        self.quiet = found
        return found

    def _zero_before(self, frame: int, piece: int = 1 << 16) -> int:
        at = frame * self.block
        while at > 0:
            low = max(0, at - piece)
            rest = bytes(self.piece(low, at)).rstrip(b"\0")
            if rest:
                return -(-(low + len(rest)) // self.block)
            at = low
        return 0

    def first_sound(self, frame: int) -> int:
        """The first frame from this one on with a sample that is not zero; the end where there is none."""
        at, end, step = frame * self.block, self.frames * self.block, 1 << 12
        while at < end:
            here = bytes(self.piece(at, min(at + step, end)))
            if here != ZEROS[:len(here)]:
                return (at + len(here) - len(here.lstrip(b"\0"))) // self.block
            at, step = at + len(here), min(4 * step, len(ZEROS))
        return self.frames


def sounds_of(companion: Companion, paths: Iterable[str]) -> Dict[str, Sound]:
    """The WAV files of these that liq plays, by their paths."""
    return {path: Sound(path, head) for path, head in heads_of(companion, paths).items()}


def sound_of(companion: Companion, path: str) -> Sound:
    """A WAV file; an OSError or NoSound where it cannot be read or is none."""
    with regular(path):
        found = sounds_of(companion, [path])
    if path not in found:
        raise NoSound(f"{path} is no WAV file that liq plays, or has no sound")
    return found[path]
