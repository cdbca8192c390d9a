"""The hours in which no case of a switch holds, below the rows of a timeline."""
from typing import Iterable, Iterator, List, Tuple

from liq.pages.marks import percent, shown
from liq.pages.times import Clock

WEEK = 604800
Spans = List[Tuple[int, int]]


class Hours:
    """What is told of switches: of each a text, and the spans of the week, as pairs of a first second and one
    behind the last."""

    def __init__(self, told: Iterable[Tuple[str, Spans]]):
        self.told = [(text, spans) for text, spans in told if spans]

    def stretches(self, spans: Spans, clock: Clock, low: int, high: int) -> Iterator[Tuple[float, float]]:
        """The stretches of a row of instants that lie in spans."""
        for first, end in spans:
            for week in range(int(clock.start + clock.seconds) // WEEK + 1):
                start = max(low, (first + week * WEEK - clock.start) * clock.rate)
                stop = min(high, (end + week * WEEK - clock.start) * clock.rate, clock.seconds * clock.rate)
                if start < stop:
                    yield start, stop

    def row(self, clock: Clock, low: int, high: int) -> str:
        """The strip of a row; nothing where there are no such hours at all."""
        parts = []
        for text, spans in self.told:
            for start, stop in self.stretches(spans, clock, max(low, 0), high):
                place = f"left:{percent(start - low, high - low)};width:{percent(stop - start, high - low)}"
                title = shown(text).replace('"', "&quot;")
                parts.append(f'<i class=hole style="{place}" title="{title}"></i>')
        return f"<div class=hours>{''.join(parts)}</div>" if self.told else ""
