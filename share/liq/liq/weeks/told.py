"""What the companion tells of the week of a script's switches, with the places at which they stand."""
import re
from typing import Dict, Iterable, Iterator, List, NamedTuple, Optional, Tuple

from liq.reading.companion import Companion, NoAnswer

SWITCH = re.compile(r"switch (\d+): .*")
# The lines of one switch, which stand together. Many switches tell the same, so these are read once.
LINES = re.compile(rb"switch (\d+): .*\n(?:switch \1: .*\n)*")
SUM = b"in all "


class Told(NamedTuple):
    """A line: the number of the switch, its place as `FILE:LINE:COLUMN`, or nothing where none is known, and what is
    told of it."""
    number: int
    place: Optional[str]
    text: str


class Switch(NamedTuple):
    """A switch: its number, its place as in `Told`, and what is told of it, each once. Switches that tell the same share
    `texts`."""
    number: int
    place: Optional[str]
    texts: Tuple[str, ...]


class Week:
    """What is told of each switch, and the last line, which has the sum of the silent hours; nothing where none is."""

    def __init__(self, switches: Iterable[Switch] = (), sum_of: Optional[str] = None):
        self.switches, self.sum_of = list(switches), sum_of

    def once(self) -> List[Told]:
        """The lines, but for those that tell the same of the same place: calls of one def make many switches there."""
        found: Dict[Tuple[str, str], Told] = {}
        seen = set()
        for number, place, texts in self.switches:
            where = place or f"switch {number}"
            if (where, id(texts)) not in seen:
                seen.add((where, id(texts)))
                for text in texts:
                    found.setdefault((where, text), Told(number, place, text))
        return list(found.values())

    def shown(self) -> List[str]:
        """The lines as they are printed: what is told twice of one place stands there once."""
        lines = [f"{line.place or f'switch {line.number}'}: {line.text}" for line in self.once()]
        return [*lines, *([self.sum_of] if self.sum_of else [])]


def switches_in(data: bytes) -> Iterator[Switch]:
    """The switches of which lines tell, without their places."""
    known: Dict[bytes, Tuple[str, ...]] = {}
    for lines in LINES.finditer(data):
        front = b"switch %s: " % lines[1]
        block = lines[0][len(front):-1].replace(b"\n" + front, b"\n")
        if block not in known:
            known[block] = tuple(dict.fromkeys(block.decode("utf-8", "surrogateescape").split("\n")))
        yield Switch(int(lines[1]), None, known[block])


def places_of(companion: Companion, file: str, switches: Iterable[Switch]) -> Dict[int, str]:
    """The place of each switch, by its number, where it is known. `where` is asked of one line of each, as the place rests
    on the number alone."""
    lines = "".join(f"switch {switch.number}: {switch.texts[0]}\n" for switch in switches)
    try:
        shown = companion.where(file, lines).split("\n")[:-1] if lines else []
    except NoAnswer:
        return {}
    head, found = re.compile(re.escape(file) + r":\d+:\d+(?=: )"), {}
    for line, behind in zip(shown, shown[1:] + [""]):
        match, place = SWITCH.fullmatch(line), head.match(behind)
        if match and place:
            found[int(match[1])] = place[0]
    return found


def placed(companion: Companion, file: str, data: bytes) -> List[Switch]:
    """The switches of which lines tell, with their places."""
    switches = list(switches_in(data))
    places = places_of(companion, file, switches)
    return [switch._replace(place=places.get(switch.number)) for switch in switches]


def told(companion: Companion, file: str, is_placed: bool = True) -> Week:
    """What is told of the script `file`, with the places of its switches or without; `NoAnswer` where nothing is."""
    data = companion.week(file)
    last = data[data.rfind(b"\n", 0, -1) + 1:].rstrip(b"\n")
    sum_of = last.decode("utf-8", "surrogateescape") if last.startswith(SUM) else None
    return Week(placed(companion, file, data) if is_placed else switches_in(data), sum_of)
