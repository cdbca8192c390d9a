"""The calendar of a script's switches, as the companion's verb `hours` tells it: in which seconds of the week which
case is the first that holds."""
from dataclasses import dataclass
from typing import Any, Optional, Tuple

from liq.reading.companion import STDIN, TEXT, Companion, read

WEEK = 604800          # seconds of a week, from Monday 00:00:00 on


@dataclass(frozen=True)
class Spans:
    """How many spans of the week a case has, and each as its first second and the second behind its last one, in order.
    `spans` is None where they are more than the companion tells."""
    count: int
    spans: Optional[Tuple[Tuple[int, int], ...]]

    @property
    def seconds(self) -> Optional[int]:
        """How many seconds of the week they are together; None where they are not told."""
        return None if self.spans is None else sum(end - first for first, end in self.spans)

    def holds(self, second: int) -> Optional[bool]:
        """Whether a second of the week lies in one of them; None where they are not told."""
        return None if self.spans is None else any(first <= second < end for first, end in self.spans)


@dataclass(frozen=True)
class Switch:
    """A switch: its number among the sources of the script, the byte at which its call begins, the spans in which
    each case is the first that holds, in the order of its children, and those in which none holds."""
    source: int
    at: int
    cases: "tuple[Spans, ...]"
    none: Spans


@dataclass(frozen=True)
class Calendar:
    """The switches of a script, and how many spans of a case are told at most."""
    most: int
    switches: "tuple[Switch, ...]"


def read_hours(told: "dict[str, Any]") -> Calendar:
    """The calendar of what `hours` prints."""
    return Calendar(told["most"], tuple(map(read_switch, told["switches"])))


def read_switch(told: "dict[str, Any]") -> Switch:
    return Switch(told["source"], told["at"], tuple(map(read_spans, told["cases"])), read_spans(told["none"]))


def read_spans(told: "dict[str, Any]") -> Spans:
    spans = told.get("spans")
    return Spans(told["count"], None if spans is None else tuple((first, end) for first, end in spans))


def calendar_of(companion: Companion, script: bytes) -> Calendar:
    """The calendar of a script that is a text; `NoPlan` where it has no plan, `NoAnswer` where there is no answer."""
    return read(read_hours, companion.call("hours", STDIN, given=script), TEXT)


def narrowed(companion: Companion, script: bytes, window: str) -> bytes:
    """The script with each of its predicates narrowed to a window of the week, which is a predicate as `5w20h`: so its
    calendar tells of that window alone, however many spans the week has."""
    found, begun, at = b"", False, 0
    for token in companion.tokens_of(script).tokens:
        if token.kind != "sign" or script[token.start:token.end] not in (b"{", b"}"):
            continue
        begun = script[token.start:token.end] == b"{"
        found += script[at:token.end] + b"(" if begun else script[at:token.start] + f") and {window}}}".encode()
        at = token.end
    return found + script[at:]


def window_of(second: int, parts: int) -> str:
    """The predicate of the hour, the minute or the second (2, 3 or 4 parts) of the week in which a second lies."""
    values = (second // 86400 + 1, "w"), (second // 3600 % 24, "h"), (second // 60 % 60, "m"), (second % 60, "s")
    return "".join(f"{value}{unit}" for value, unit in values[:parts])
