"""Where a night left its lists: NAME.next, put in place together with the outputs.

It has the places of the lists behind the night, those before it, and when it began; the same of some nights that were
made before it. So the same night once more begins where it began before, and the nights behind it stay as they are. The
places of lists that another script plays are kept. A place has the entries behind it, too, so that a list from which the
next one was taken away goes on with the one that comes then.
"""
import json
import os
from typing import Any, Dict, List, NamedTuple, Optional, Tuple

from liq.nights.lists import Turns
from liq.watching.names import shown

KIND = "lists of a night"
MOST = 1000            # lists of which the places are kept
THEN, FEW = 50000, 20  # entries behind the places of all lists that are kept, and of one where a file would be too large
NIGHTS = 14            # nights of which the places are kept
LARGEST = 1 << 24      # bytes of such a file


class Place(NamedTuple):
    """The entry of a list that is next, its number, and some of those that come then."""
    entry: str
    number: int
    then: Tuple[str, ...] = ()

    def told(self) -> Dict[str, object]:
        """The place as a file tells it."""
        return {"entry": self.entry, "place": self.number, **({"then": list(self.then)} if self.then else {})}

    def first_in(self, turns: Turns) -> str:
        """The entry with which a list goes on: the one that is next, or the first one behind it that is there."""
        return next((entry for entry in (self.entry, *self.then) if entry in turns.known), self.entry)


class Foreign(Exception):
    """A file that no night made."""


def path_of(output: str) -> str:
    return os.path.join(os.path.dirname(output), os.path.basename(output) + ".next")


def places_in(told: Any) -> Dict[str, Place]:
    """The places of lists in what a file tells."""
    return {name: Place(str(left["entry"]), int(left["place"]), tuple(map(str, left.get("then", ())))) for name, left in told.items()}


class Night(NamedTuple):
    """When a night began, if that is known, and where the lists were before and behind it."""
    start: Optional[str]
    before: Dict[str, Place]
    behind: Dict[str, Place]

    @staticmethod
    def told_by(told: Any) -> "Night":
        """The night that a file tells."""
        start = told.get("start")
        return Night(None if start is None else str(start), places_in(told.get("before", {})), places_in(told["next"]))

    def told(self, most: int) -> Dict[str, object]:
        """The night as a file tells it, with so many entries behind its places at most."""
        behind, before = ({name: place._replace(then=place.then[:most]).told() for name, place in one.items()}
                          for one in (self.behind, self.before))
        return {"start": self.start, "next": behind, "before": before}


def text_of(nights: List[Night], most: int) -> str:
    """What a file tells of these nights, the last one first. Of that one alone entries behind its places are kept."""
    told: Dict[str, object] = {"is": KIND, **nights[0].told(most)}
    return json.dumps({**told, "earlier": [night.told(0) for night in nights[1:]]}, indent=1) + "\n"


class Places:
    """The places that the night before left, from which one goes on that begins at `start`, where that is known."""

    def __init__(self, path: str, start: Optional[str] = None):
        self.path, self.start = path, start
        self.before: Dict[str, Place] = {}
        self.nights: List[Night] = []          # the ones that were made before, the last first
        self.again: Optional[int] = None       # which of them this one is once more
        self.trouble = ""
        try:
            self.read()
        except FileNotFoundError:
            pass
        except OSError as error:
            self.trouble = error.strerror or "cannot be read"
        except (ValueError, KeyError, TypeError, AttributeError, OverflowError, RecursionError):
            self.trouble = "is none of a night"

    def read(self) -> None:
        """Reads the places before this night."""
        with open(self.path, "rb") as file:
            told = json.loads(file.read(LARGEST))
        if told["is"] != KIND:
            raise ValueError
        self.nights = [Night.told_by(one) for one in [told, *told.get("earlier", ())]]
        starts = [night.start for night in self.nights]
        self.again = starts.index(self.start) if self.start is not None and self.start in starts else None
        self.before = self.nights[0].behind if self.again is None else self.nights[self.again].before

    def go_on(self, lists: Dict[str, Turns]) -> List[str]:
        """Brings the lists to their places; lines on what is not as it was."""
        found = [f"{shown(self.path)}: {self.trouble}; the lists begin anew, and it is kept as "
                 f"{shown(self.kept_path())}"] if self.trouble else []
        for name, turns in lists.items():
            if name in self.before and turns.entries:
                place = self.before[name]
                turns.go_to(place.first_in(turns), place.number)
                if turns.next != place.entry:
                    found.append(f"list {shown(name)}: {shown(place.entry)} was next, and is no entry now; it goes on with "
                                 f"{shown(turns.next or '')}")
        return found

    def text_of(self, lists: Dict[str, Turns]) -> str:
        """What the next night has to know."""
        most = max(FEW, THEN // max(1, len(lists)))
        left = {name: Place(turns.next, turns.at, turns.behind(most)) for name, turns in lists.items() if turns.next is not None}
        others = {name: place for name, place in self.before.items() if name not in left}
        this = Night(self.start, self.before, dict([*others.items(), *left.items()][-MOST:]))
        nights = [this, *(night for night in self.nights if night.start is not None)]
        if self.again is not None:
            nights = [*self.nights[:self.again], this, *self.nights[self.again + 1:]]
        texts = (text_of(nights[:count], kept) for count, kept in ((NIGHTS, most), (NIGHTS, FEW), (NIGHTS, 0), (1, 0)))
        return next((text for text in texts if len(text) <= LARGEST), text_of([this], 0))

    def kept_path(self) -> str:
        """Where a file is kept that no night made."""
        return next(path for k in range(1, 1 << 30) if not os.path.lexists(path := f"{self.path}.kept{k}"))

    def free_path(self) -> str:
        """The path for the new places. A file of others that stands there is kept under another name."""
        if self.trouble and os.path.lexists(self.path):
            try:
                os.link(self.path, self.kept_path(), follow_symlinks=False)
            except OSError:
                os.rename(self.path, self.kept_path())
        return self.path
