"""What is told of one output: its plays and silences in order, each with its number, its kind and its file."""
from typing import Dict, List, Optional, Sequence, Union

from liq.pages.outputs import Output, Silence
from liq.pages.plays import Play
from liq.pages.times import Clock
from liq.pages.titles import Titles

Event = Union[Play, Silence]


def short_length(plays: Sequence[Play]) -> float:
    """Below this length a file is a short one: half of the length at which half of the time is played in longer
    stretches."""
    lengths = sorted((p.end - p.start for p in plays if p.name is not None), reverse=True)
    half, total = sum(lengths) / 2, 0
    for length in lengths:
        total += length
        if total >= half:
            return length / 2
    return 0


class Story:
    """One output on the page, by its number there."""

    def __init__(self, number: int, output: Output, start: int, titles: Titles):
        self.number, self.output, self.titles = number, output, titles
        self.clock = Clock(start, output.rate, output.length)
        self.files: Dict[str, int] = {}        # the number of each file, by its first play
        for play in output.plays:
            if play.name is not None:
                self.files.setdefault(play.name, len(self.files))
        self.short = short_length(output.plays)
        self.kinds = self.kinds_of()
        self.events = self.events_of()
        self.numbers = {id(event): k for k, event in enumerate(self.events)}

    def kinds_of(self) -> List[str]:
        """Of each play: "" or "odd" by turns, "short", or "none" without a title."""
        longest: Dict[Optional[str], int] = {}
        for p in self.output.plays:
            longest[p.name] = max(longest.get(p.name, 0), p.end - p.start)
        kinds, odd = [], False
        for p in self.output.plays:
            if p.name is None:
                kinds.append("none")
            elif longest[p.name] < self.short:
                kinds.append("short")
            else:
                odd = odd == p.resumed
                kinds.append("odd" if odd else "")
        return kinds

    def events_of(self) -> List[Event]:
        """Plays and silences in order. A stretch without a title that is silent all along is told once, as silence."""
        silences = [s for s in self.output.silences if not s.within]
        silent = {(s.start, s.end) for s in silences}
        plays = [p for p in self.output.plays if p.name is not None
                 or p.start < p.end and (p.start, p.end) not in silent]
        return sorted([*plays, *silences], key=lambda event: (event.start, isinstance(event, Silence)))

    def number_of(self, event: Event) -> Optional[int]:
        """The number of an event, or nothing where it is told by another."""
        return self.numbers.get(id(event))

    def file_of(self, event: Event) -> Union[int, str]:
        """The number of the file of an event; an empty text where it has none."""
        return "" if isinstance(event, Silence) or event.name is None else self.files[event.name]
