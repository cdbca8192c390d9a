"""What was played when: the starts of a cue file, and what the files and the sound say of their ends."""
import bisect
from dataclasses import dataclass
from operator import mul
from typing import Dict, List, Optional, Sequence, Tuple

from liq.pages.shelf import Shelf
from liq.pages.sounds import Sound

UNLIKE = 0.9  # a misfit above which two sounds have nothing to do with each other
LIKE = 0.02   # one below which one sound is the other
TAIL = 4096   # instants at the end of a play that are compared
Cue = Tuple[int, Optional[str]]         # where a track starts, and its title
Run = Tuple[int, int]                   # a stretch of instants


@dataclass
class Play:
    """A stretch from one start to the next, or to a silence in which nothing is played, or to the end. All numbers are
    instants of the output."""
    start: int
    end: int
    name: Optional[str]        # None: no title
    at: int = 0                # where in the file it starts
    left: Optional[int] = None  # how much of the file was not played, where that is known
    ending: str = ""           # "whole", "faded", "cut", "breaks off" into silence, "run ends", "" where it is not known
    overlap: int = 0           # for so long the file before is mixed into its start
    resumed: bool = False      # it goes on where it was left


class Listener:
    """Compares one output with the files that were played in it."""

    def __init__(self, sound: Sound, cues: Sequence[Cue], silences: List[Run], shelf: Shelf):
        self.sound, self.cues, self.silences, self.shelf = sound, cues, silences, shelf
        self.ends = {high: low for low, high in silences}
        self.paused: Dict[Optional[str], List[int]] = {}   # where files stand that were left before their ends, the last one last

    def plays(self) -> List[Play]:
        """The plays of the output, in order."""
        found: List[Play] = []
        for k in range(len(self.cues)):
            found += self.track(k, found[-1] if found else None)
        return found

    def start_of(self, k: int) -> int:
        """Where the k-th track starts; behind the last one the end of the output."""
        return self.cues[k][0] if k < len(self.cues) else self.sound.frames

    def silences_within(self, start: int, end: int) -> List[Run]:
        """The silent stretches from this start on that are over before this end."""
        first, last = bisect.bisect_left(self.silences, (start, 0)), bisect.bisect_left(self.silences, (end, 0))
        return [run for run in self.silences[first:last] if run[1] < end]

    def last_sound(self, start: int, end: int) -> int:
        """Where the silence before this end begins; the end where there is none behind this start."""
        silent = self.ends.get(end, end)
        return silent if start < silent else end

    def first_sound(self, start: int, end: int) -> int:
        """Where the first silence behind this start begins; the end where there is none."""
        inner = self.silences_within(start + 1, end)
        return inner[0][0] if inner else self.last_sound(start, end)

    def track(self, k: int, before: Optional[Play]) -> List[Play]:
        """The plays of the k-th track, with the play before it: several where it breaks off into nothing to play and
        goes on, which starts no track."""
        (start, name), following = self.cues[k], self.start_of(k + 1)
        play = Play(start, self.first_sound(start, following), name)
        if before and before.ending == "faded":
            play.overlap = before.left or 0
        length = self.shelf.length(name, self.sound.rate)
        if length is None or not self.find_place(play, length):
            play.end = self.last_sound(start, following)
            return [play]
        found, is_known = self.stretches(play, k, length)
        if is_known:
            self.end_whole(found[-1], following, length)
            self.close(found[-1], k, length)
        return found

    def stretches(self, play: Play, k: int, length: int) -> Tuple[List[Play], bool]:
        """The stretches of the k-th track that begins with this play, of which the last one is not closed yet; and
        whether all that is heard up to the next start is known."""
        found, following = [play], self.start_of(k + 1)
        for low, high in self.silences_within(play.start, following):
            place = play.at + low - play.start
            quiet = self.shelf.zeros(play.name, place, min(high - low, max(0, length - place)), self.sound.rate)
            more = Play(high, self.first_sound(high, following), play.name, place + quiet, resumed=True)
            if quiet == high - low or place > length:
                continue       # the recording is silent, or is another one
            goes_on = self.likeliest_place(more, [more.at, place + high - low], length)
            if goes_on == place + high - low:
                continue       # the recording is so soft here that zeros were written
            play.end = low + quiet
            if goes_on is None and self.likeliest_place(play, [play.at], length) is None:
                return found, False
            self.close(play, k, length)
            if goes_on is None:
                return found, False
            self.paused[play.name].remove(more.at)
            found.append(more)
            play = more
        play.end = self.last_sound(play.start, following)
        return found, True

    def end_whole(self, play: Play, following: int, length: int) -> None:
        """Lets a play last to the end of its file, where that is as silent as what is heard."""
        whole = play.start + length - play.at
        if play.end < following and play.end <= whole <= following and \
                self.shelf.is_silent(play.name, length, whole - play.end, self.sound.rate):
            play.end = whole

    def find_place(self, play: Play, length: int) -> bool:
        """Finds out where a play begins in a file that was left before; whether that is known."""
        left = self.paused.get(play.name)
        if play.overlap or not left:
            return True
        place = self.likeliest_place(play, [*reversed(left), 0], length)
        if place:
            play.at, play.resumed = place, True
            left.remove(place)
        return place is not None

    def likeliest_place(self, play: Play, places: Sequence[int], length: int) -> Optional[int]:
        """Which of these places of its file a play begins at, by its sound: the first of those that fit best, as
        several sources may play one file. None where none fits."""
        found: Optional[int] = None
        least, span = UNLIKE, play.end - play.start
        frames = sorted({k * span // 64 for k in range(64)})
        heard = self.heard(play.start, frames)
        for place in places:
            if span <= length - place:
                fit = misfit(heard, self.said(play.name, place, frames))
                if fit < least:
                    found, least = place, fit
        return found

    def heard(self, start: int, frames: Sequence[int]) -> List[float]:
        return self.sound.means([start + k for k in frames])

    def said(self, name: Optional[str], place: int, frames: Sequence[int]) -> List[float]:
        return self.shelf.values(name, [place + k for k in frames], self.sound.rate)

    def close(self, play: Play, k: int, length: int) -> None:
        """How the k-th play ends."""
        left = length - (play.at + play.end - play.start)
        if left < 0:
            return             # the file is not the one that was played
        if left > 0 and not self.ends_alike(play):
            # another file, or a break of less time than is looked at, or a track that was left in the midst of its own fade: it may
            # go on here, which its sound tells then
            self.paused.setdefault(play.name, []).append(length - left)
            return
        play.left = left
        if left == 0:
            play.ending = "whole"
        elif play.end == self.sound.frames:
            play.ending = "run ends"
        elif play.end < self.start_of(k + 1):
            play.ending = "breaks off"
        else:
            play.ending = self.fade_or_cut(play, k + 1, length)
        if play.ending in ("cut", "breaks off", ""):
            self.paused.setdefault(play.name, []).append(length - left)

    def ends_alike(self, play: Play) -> bool:
        """Whether the end of a play sounds like the place of its file at which it would be."""
        span = min(play.end - play.start, TAIL)
        frames = sorted({play.end - play.start - 1 - k * span // 64 for k in range(64)})
        return misfit(self.heard(play.start, frames), self.said(play.name, play.at, frames)) < UNLIKE

    def fade_or_cut(self, play: Play, k: int, length: int) -> str:
        """Whether the rest of a file is mixed into the k-th play or left out, by the sound; "" where that does not
        say."""
        (start, name), rest = self.cues[k], play.left or 0
        if name is None:
            return "cut"
        next_length = self.shelf.length(name, self.sound.rate)
        if next_length is None:
            return ""
        span = min(rest, self.first_sound(start, self.start_of(k + 1)) - start, next_length)
        frames = sorted({j * span // 128 for j in range(1, 97)})
        heard = self.heard(start, frames)
        old, new = self.said(play.name, length - rest, frames), self.said(name, 0, frames)
        fade = misfit(heard, [(a * (rest - j) + b * j) / rest for a, b, j in zip(old, new, frames)])
        places = self.paused.get(name, [])
        cut = min(misfit(heard, new), *(misfit(heard, self.said(name, place, frames)) for place in places), 1.0)
        if fade < LIKE and fade * 4 < cut:
            return "faded"
        if cut < LIKE and cut * 4 < fade:
            return "cut"
        return ""


def misfit(heard: Sequence[float], said: Sequence[float]) -> float:
    """How much of what is heard is not what is said, whatever its strength: 0 none, 1 all."""
    energy: float = sum(map(mul, heard, heard))
    said_energy: float = sum(map(mul, said, said))
    if energy == 0 or said_energy == 0:
        return 0.0 if energy == said_energy else 1.0
    both: float = sum(map(mul, heard, said))
    return max(0.0, 1 - both * both / (energy * said_energy))
