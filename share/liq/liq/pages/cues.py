"""Cue files: the starts of an output's tracks, one a line."""
from typing import List, Optional, Tuple

from liq.failed import Failed
from liq.pages.sounds import NoSound, regular

LONGEST = 20  # digits of an instant


class NoCues(Failed):
    """A cue file that is none, or is that of another output."""

    def __init__(self, text: str):
        super().__init__(text, 3)


def read_cues(data: bytes, path: str) -> List[Tuple[int, Optional[str]]]:
    """The pairs (instant, name) of a cue file; the name is None where a track has no title."""
    if data and not data.endswith(b"\n"):
        raise NoCues(f"{path}: its last line is cut")
    found: List[Tuple[int, Optional[str]]] = []
    for number, line in enumerate(data.split(b"\n")[:-1], 1):
        digits, blank, name = line.partition(b" ")
        if not digits.isdigit() or len(digits) > LONGEST or found and int(digits) <= found[-1][0]:
            raise NoCues(f"{path}, line {number}: no start of a track")
        found.append((int(digits), name.decode("utf-8", "replace") if blank else None))
    return found


def cues_of(name: str, frames: int) -> Optional[List[Tuple[int, Optional[str]]]]:
    """The starts of an output of so many frames; None where no cue file lies beside it."""
    path = name + ".cue"
    try:
        with regular(path) as file:
            cues = read_cues(file.read(), path)
    except FileNotFoundError:
        return None
    except NoSound as error:
        raise NoCues(str(error)) from None
    if cues and cues[-1][0] >= frames:
        raise NoCues(f"{path}: its last track starts behind the end of {name}")
    return cues
