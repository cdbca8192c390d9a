"""The loudness of a rendering in columns, as the page draws it."""
from typing import List

from liq.heard import HEAD, Recorded
from liq.pages.sounds import Sound
from liq.pages.timeline import QUIETEST, decibels
from liq.reading.heads import Head

COLUMNS = 600


def levels_of(recorded: Recorded) -> List[int]:
    """The loudness of each column, from 0 to 100 for -40 dB to full scale."""
    if not recorded.frames:
        return []
    size = recorded.frames * recorded.bits // 4
    sound = Sound(recorded.paths[0], Head(2, recorded.bits, recorded.rate, HEAD, size))
    count = min(COLUMNS, recorded.frames)
    found = []
    for k in range(count):
        start, end = k * recorded.frames // count, (k + 1) * recorded.frames // count
        db = decibels(sound.power(start, end))
        found.append(max(0, min(100, round(100 * (1 + db / QUIETEST)))))
    return found
