"""What is noted of each edit: its place, its class, and what was done."""
from dataclasses import dataclass
from typing import Dict, List, Optional

from liq.adopting.marks import Places

SAME, LESS, YOU = "same", "less", "you"


@dataclass(frozen=True)
class Note:
    """A note: where it is, in characters of the old script; its class; what it says; and whether it reports an edit, or
    something that stays and means something else here."""
    at: int
    sort: str
    what: str
    is_edit: bool = True


class Notes:
    """The notes on a script. `places` are those of the old script from which the text comes that is looked at."""

    def __init__(self, text: str, places: Optional[Places] = None):
        self.text, self.places = text, places
        self.found: Dict[Note, None] = {}
        self.differs = False                   # whether a text means something else here, though it stays one

    def add(self, sort: str, at: int, what: str, is_edit: bool = True) -> None:
        """Notes something of a place in the text that is looked at, once."""
        self.put(sort, self.places.of(at) if self.places else at, what, is_edit)

    def put(self, sort: str, at: int, what: str, is_edit: bool = True) -> None:
        """Notes something of a place in the old script, once."""
        self.found[Note(at, sort, " ".join(what.split()), is_edit)] = None

    def kept(self, is_changed: bool) -> List[Note]:
        """The notes in their order; of a script that stays as it is those that report no edit."""
        return sorted((note for note in self.found if is_changed or not note.is_edit), key=lambda note: note.at)

    def line_of(self, at: int) -> int:
        """The line of a place in the text that is looked at, from 1 on."""
        return self.text.count("\n", 0, self.places.of(at) if self.places else at) + 1

    def lines(self, name: str, is_changed: bool = True) -> List[str]:
        """The notes as lines `FILE:LINE: CLASS: WHAT`."""
        found, number, place = [], 1, 0
        for note in self.kept(is_changed):
            number += self.text.count("\n", place, note.at)
            place = max(place, note.at)
            found.append(f"{name}:{number}: {note.sort}: {note.what}")
        return list(dict.fromkeys(found))
