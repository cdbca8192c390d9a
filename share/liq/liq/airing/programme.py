"""What is due at a moment: the rendering whose time it is, the next one that has no time, or the last ones once more."""
from datetime import datetime, timedelta
from typing import Dict, Iterable, List, NamedTuple, Optional

from liq.airing.played import Played
from liq.airing.renderings import Key, Rendering, Renderings

NEAR = 0.001           # seconds that make no difference
LEAST = 0.1            # seconds of a rendering that are worth beginning it
DAY, DAYS = 86400, 7   # seconds of a day, and so many days back a night is sought that is played once more
AGAIN = 30             # seconds after which a rendering that could not be read is tried again


class Due(NamedTuple):
    """A rendering that is to be heard, and the second since 1970 at which its begin is, where it goes by the clock. It may
    be one that was heard before."""
    rendering: Rendering
    begin: Optional[float] = None
    is_repeated: bool = False


def days_later(moment: float, days: int) -> float:
    """The same time of the day so many days later, by the clock of the wall, of which a day may have 23 or 25 hours."""
    return (datetime.fromtimestamp(moment) + timedelta(days)).timestamp()


class Programme:
    """The renderings of some names. With `stays` each name is waited for again and again; with `repeats` the last ones are
    played once more where nothing else is there."""

    def __init__(self, renderings: Renderings, stays: bool, repeats: bool, played: Played):
        self.renderings, self.stays, self.repeats, self.played = renderings, stays, repeats, played
        self.names, self.turn, self.loop = renderings.names, 0, 0
        self.there: Dict[str, List[Rendering]] = {}
        self.failed: Dict[Key, float] = {}     # when those are tried again that could not be read

    def look(self) -> None:
        """Looks what is there."""
        self.there = self.renderings.look()

    def all(self) -> Iterable[Rendering]:
        """Those that are there and may be tried."""
        return (one for name in self.names for one in self.there.get(name, ()))

    def timed(self, now: float) -> List[Rendering]:
        """Those with a start that can be read."""
        return [one for one in self.all() if one.start is not None and self.failed.get(one.key, 0) <= now]

    def due(self, now: float, slack: float = NEAR) -> Optional[Due]:
        """What is to be heard at a moment. One that begins within the slack counts as begun."""
        found = [one for one in self.timed(now) if one.start is not None and one.start <= now + slack and one.end > now + LEAST]
        if found:
            last = max(found, key=lambda one: (one.start or 0.0, one.name))
            return Due(last, last.start)
        return self.plain(now) or (self.repeated(now) if self.repeats else None)

    def plain(self, now: float) -> Optional[Due]:
        """The next one that has no start. Without `stays` each name is waited for in its turn."""
        for name in self.names[self.turn:] + self.names[:self.turn]:
            for one in self.there.get(name, ()):
                if one.start is None and not self.played.has(one.key):
                    return Due(one)
            if not self.stays and not self.is_done(name, now):
                return None
        return None

    def waited(self, now: float) -> List[str]:
        """The names that are waited for."""
        return self.names if self.stays else [name for name in self.names if not self.is_done(name, now)][:1]

    def next_start(self, now: float) -> Optional[float]:
        """When the next one begins that has a start."""
        return min((one.start for one in self.timed(now) if one.start is not None and one.start > now + NEAR), default=None)

    def repeated(self, now: float) -> Optional[Due]:
        """What was heard at this time of the day before, or some days before; else the last ones, again and again."""
        past = [one for one in self.timed(now) if one.end <= now + LEAST]
        for days in range(1, DAYS + 1):
            for one in sorted(past, key=lambda one: -one.end):
                begin = days_later(one.start or 0.0, days)
                if begin <= now + NEAR and begin + one.seconds > now + LEAST:
                    return Due(one, begin, True)
        latest = max((one.end for one in past), default=0.0)
        others = sorted((one for one in past if one.end > latest - DAY), key=lambda one: one.start or 0.0)
        others = others or [one for one in self.all() if one.start is None and self.failed.get(one.key, 0) <= now]
        return Due(others[self.loop % len(others)], None, True) if others else None

    def is_over(self, now: float) -> bool:
        """Whether nothing more will come."""
        return not self.stays and all(self.is_done(name, now) for name in self.names)

    def is_done(self, name: str, now: float) -> bool:
        """Whether what is there of a name was played."""
        there = self.there.get(name, [])
        return bool(there) and all(self.played.has(one.key) if one.start is None else one.end <= now + LEAST for one in there)

    def take(self, due: Due) -> None:
        """Notes that a rendering was played to its end."""
        self.loop += due.is_repeated and due.begin is None
        if due.rendering.start is None and not due.is_repeated:
            self.played.add(due.rendering.key)
            name = next((name for name in self.names if due.rendering in self.there.get(name, ())), self.names[0])
            self.turn = (self.names.index(name) + 1) % len(self.names) if self.stays else 0

    def give_up(self, due: Due, now: float) -> None:
        """Notes that a rendering cannot be read. One that has no time counts as played."""
        self.failed[due.rendering.key] = now + AGAIN
        self.take(due)
