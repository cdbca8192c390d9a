"""The week of a station for the page: of each switch the spans of its cases, and the next change."""
from bisect import bisect_right
from typing import Dict, Iterator, List, Optional

from liq.reading.companion import Companion
from liq.reading.facts import Facts
from liq.reading.hours import WEEK, Calendar, Spans, Switch, calendar_of, narrowed, window_of
from liq.trying.lines import plain
from liq.watching.names import shown

HOUR = 3600
SHOWN = 2                  # files in the name of a case
AHEAD = 24                 # hours in which the next change is looked for where the spans are too many


def leaves(facts: Facts, source: int) -> Iterator[str]:
    """The files and lists in a source, in the order in which they stand, and the words for what has none."""
    todo, seen = [source], set()
    while todo:
        number = todo.pop()
        if number in seen:
            continue
        seen.add(number)
        one = facts.sources[number]
        if one.file is not None:
            yield one.file
        elif one.op == "blank":
            yield "silence"
        elif not one.children:
            yield one.op
        todo += reversed(one.children)


def name_of(facts: Facts, source: int) -> str:
    """What a case is called: what is in its source."""
    names = list(dict.fromkeys(leaves(facts, source)))
    names = [name for name in names if name != "silence"] or names
    more = f" and {len(names) - SHOWN} more" if len(names) > SHOWN else ""
    front = f"switch {source}: " if facts.sources[source].op == "switch" else ""
    return plain(shown(front + ", ".join(names[:SHOWN]) + more))


def case_of(spans: Spans, **more: object) -> Dict[str, object]:
    return {"count": spans.count, "spans": spans.spans, **more}


def switches_of(calendar: Calendar, facts: Facts, line_at: "dict[int, int]") -> "list[Dict[str, object]]":
    """The switches of a calendar as the page gets them, with their lines by the bytes at which they stand."""
    found = []
    for switch in calendar.switches:
        source = facts.sources[switch.source]
        cases = [case_of(spans, name=name_of(facts, child), shortest=windows.shortest, longest=windows.longest)
                 for spans, child, windows in zip(switch.cases, source.children, source.windows)]
        found.append({"source": switch.source, "line": line_at.get(switch.at, 0), "cases": cases,
                      "none": case_of(switch.none)})
    return found


class Hours:
    """The calendar of a script, also where it has more spans than are told: then an hour of it is asked for."""

    def __init__(self, companion: Companion, script: bytes):
        self.companion, self.script = companion, script
        self.whole = calendar_of(companion, script)
        self.kept: Dict[int, Calendar] = {}

    def hour(self, second: int) -> Calendar:
        """The calendar of the hour of a second alone: outside of it no case holds."""
        first = second // HOUR * HOUR
        if first not in self.kept:
            if len(self.kept) > AHEAD:
                self.kept.clear()
            self.kept[first] = calendar_of(self.companion, narrowed(self.companion, self.script, window_of(first, 2)))
        return self.kept[first]

    def told(self, second: int, number: int) -> Dict[str, object]:
        """The cases of a switch in the hour of a second, as the page gets them."""
        first = second // HOUR * HOUR
        switch = self.hour(second).switches[number]
        none = [cut for span in switch.none.spans or () if (cut := cut_to(span, first, first + HOUR))]
        return {"first": first, "cases": [spans.spans for spans in switch.cases], "none": none}

    def next_change(self, second: int, number: int) -> Optional[int]:
        """The second at which another case of a switch begins to hold, behind a second; None where that is not soon, or
        never. The week goes round."""
        switch = self.whole.switches[number]
        if all(spans.spans is not None for spans in (*switch.cases, switch.none)):
            return after(starts_of(switch), second)
        for ahead in range(AHEAD):
            first = (second // HOUR + ahead) * HOUR % WEEK
            here = self.hour(first).switches[number]
            starts = [one for one in starts_of(here) if first < one < first + HOUR or one == first and ahead]
            found = [one for one in starts if ahead or one > second]
            if found:
                return found[0]
        return None


def cut_to(span: "tuple[int, int]", low: int, high: int) -> "Optional[tuple[int, int]]":
    """What of a span lies between two seconds; None where nothing does."""
    first, end = max(span[0], low), min(span[1], high)
    return (first, end) if first < end else None


def starts_of(switch: Switch) -> List[int]:
    """The seconds at which a case begins, or no case holds any more. What goes over the end of the week begins once."""
    found = set()
    for spans in (*switch.cases, switch.none):
        told = spans.spans or ()
        goes_round = bool(told) and told[0][0] == 0 and told[-1][1] == WEEK
        found |= {first for first, _ in told if first or not goes_round}
    return sorted(found)


def after(starts: List[int], second: int) -> Optional[int]:
    """The next one of some seconds behind a second; the first one where none is left in the week."""
    if len(starts) < 2:
        return None
    return starts[bisect_right(starts, second) % len(starts)]
