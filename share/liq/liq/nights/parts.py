"""WAV files of a night's parts, and their cue files: how long they may be, where one is cut, how they are joined."""
import os
import struct
from typing import BinaryIO, Iterable, List, Tuple

from liq.nights.failed import named

MOST = 4294967295      # what the header of a WAV file may say
PIECE = 1 << 22        # bytes that are copied at a time


class Wave:
    """The form of a WAV file that liq wrote: 44 bytes, and then the samples."""

    def __init__(self, path: str):
        with open(path, "rb") as file:
            head = file.read(44)
        if len(head) < 44 or head[:4] != b"RIFF" or head[36:40] != b"data":
            raise OSError(0, "is no WAV file that liq wrote", path)
        self.path, self.head, self.rate, self.block = path, head, *struct.unpack_from("<I4xH", head, 24)
        self.frames = struct.unpack_from("<I", head, 40)[0] // self.block
        if os.path.getsize(path) < 44 + self.size:
            raise OSError(0, "is shorter than its header says", path)

    @property
    def size(self) -> int:
        """The bytes of the samples."""
        return int(self.frames * self.block)


def head_of(head: bytes, size: int) -> bytes:
    """A header for so many bytes of samples."""
    return head[:4] + struct.pack("<I", 36 + size + size % 2) + head[8:40] + struct.pack("<I", size)


def cut(path: str, frames: int) -> None:
    """Leaves so many instants of a file, and the cues before its end."""
    wave = Wave(path)
    size = frames * wave.block
    with named(path), open(path, "r+b") as file:
        file.truncate(44 + size)
        file.write(head_of(wave.head, size))
        file.seek(0, os.SEEK_END)
        file.write(b"\0" * (size % 2))
    write_cues(path + ".cue", [line for line in cues(path + ".cue") if line[0] < frames])


def fits(sizes: Iterable[int]) -> bool:
    """Whether one WAV file holds so many bytes of samples."""
    return sum(sizes) + 37 <= MOST


def join(paths: List[str]) -> str:
    """Makes one WAV file of several, and one cue file: the first ones grow, and the others are removed. No more of the
    disk is taken than a piece."""
    waves, lines, first = list(map(Wave, paths)), [], 0
    for wave in waves:
        lines += [(at + first, rest) for at, rest in cues(wave.path + ".cue")]
        first += wave.frames
    size, end = sum(wave.size for wave in waves), 44 + waves[0].size
    with named(paths[0]), open(paths[0], "r+b") as file:
        file.truncate(end)
        for wave in waves[1:]:
            append(file, end, wave)
            end += wave.size
            os.remove(wave.path)
        file.seek(end)
        file.write(b"\0" * (size % 2))
        file.seek(0)
        file.write(head_of(waves[0].head, size))
    write_cues(paths[0] + ".cue", lines)
    return paths[0]


def append(file: BinaryIO, end: int, wave: Wave) -> None:
    """Moves the samples of a WAV file to a place of another one. The last piece goes first, and is cut off where it was,
    so that a disk which keeps holes has to hold a piece twice and no more."""
    with named(wave.path), open(wave.path, "r+b") as part:
        left = wave.size
        while left:
            count = min(PIECE, left)
            left -= count
            part.seek(44 + left)
            piece = part.read(count)
            if len(piece) < count:
                raise OSError(0, "is shorter than its header says", wave.path)
            file.seek(end + left)
            file.write(piece)
            file.flush()
            part.truncate(44 + left)


def cues(path: str) -> List[Tuple[int, bytes]]:
    """The lines of a cue file as pairs of an instant and the rest."""
    with open(path, "rb") as file:
        lines = [line.partition(b" ") for line in file.read().split(b"\n")[:-1]]
    return [(int(digits), blank + name) for digits, blank, name in lines]


def write_cues(path: str, lines: Iterable[Tuple[int, bytes]]) -> None:
    with named(path), open(path, "wb") as file:
        file.write(b"".join(b"%d%b\n" % line for line in lines))
