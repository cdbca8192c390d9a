"""What the companion tells of a script: its settings, outputs, sources, lists, sounds and tokens."""
from dataclasses import dataclass
from typing import Any, Mapping, NamedTuple, Optional, Union


@dataclass(frozen=True)
class Refused:
    """The script has no plan. `liq check` says why."""


@dataclass(frozen=True)
class Output:
    """A file that a render writes. `source` is the number of its source, `bits` is 16 or 24, `sides` 1 or 2; `fallible`
    is what the script says. The clock is None where the sources of the script can have no clocks (E26 to E28)."""
    name: str
    source: int
    bits: int
    sides: int
    fallible: bool
    clock: Optional[str]


@dataclass(frozen=True)
class Windows:
    """When in the week, which goes round, a case of a switch is the first that holds: in how many windows, stretches
    without a gap, and the seconds of the shortest and of the longest one; without a window 0."""
    count: int
    shortest: int
    longest: int


@dataclass(frozen=True)
class Source:
    """A source, by its operator. `children` are the numbers of the sources in it; `always` is whether it is sure to have
    something to play. What its operator does not have is None: the file of `single` and `playlist`, whether a playlist
    begins anew (`again`), the samples of `blank` (`track`, 0 where it has no end) and of `crossfade` (`overlap`), and
    `track_sensitive` of `fallback` and `switch`. A switch has the windows of each case, in the order of its children. `at` is
    the byte of the script at which the call that made it begins."""
    op: str
    sides: int
    children: "tuple[int, ...]"
    always: bool
    file: Optional[str]
    again: Optional[bool]
    track: Optional[int]
    overlap: Optional[int]
    sensitive: Optional[bool]
    windows: "tuple[Windows, ...]"
    at: Optional[int] = None


@dataclass(frozen=True)
class Listed:
    """A list. Its state is `read`, `missing`, `too large`, or `unread` where it is no regular file or may not be read.
    Entries stand in their order; `skipped` is how many more lines are no UTF-8."""
    name: str
    state: str
    entries: "tuple[str, ...]"
    skipped: int


class Sound(NamedTuple):
    """An audio file, once. Its state is `used`, `missing`, `too large`, `not wav` (with the number of E21 as `fault`) or
    `unread`. Where its header could be read: sides, bits of a sample, samples a second (`rate`), the byte at which its
    samples begin (`place`), its own samples a side, those that are played at the rate of the script, and the bytes for
    which it counts; else all are 0."""
    name: str
    state: str
    fault: int
    sides: int
    bits: int
    rate: int
    place: int
    own: int
    played: int
    bytes: int

    @property
    def is_used(self) -> bool:
        return self.state == "used"

    @property
    def seconds(self) -> float:
        return self.own / self.rate if self.rate else 0.0


@dataclass(frozen=True)
class Facts:
    """What a script with a plan has: samples a second, samples of a tick, its outputs, its sources by their numbers, its
    lists, its sounds by their names, for how many bytes the used ones count, and for how many they may (`most`).
    `file_most`, `list_most` and `script_most` are the bytes that a sound, a list and a script may have."""
    rate: int
    tick: int
    outputs: "tuple[Output, ...]"
    sources: "tuple[Source, ...]"
    lists: "tuple[Listed, ...]"
    sounds: "Mapping[str, Sound]"
    bytes: int
    most: int
    file_most: int
    list_most: int
    script_most: int

    @property
    def singles(self) -> "list[str]":
        """The files of `single`, each once."""
        return list(dict.fromkeys(source.file for source in self.sources if source.op == "single" and source.file is not None))

    def playable(self, listed: Listed) -> "list[str]":
        """The entries of a list that are played, in order."""
        return [entry for entry in listed.entries if self.sounds[entry].is_used]


class Token(NamedTuple):
    """A token: `name`, `open` (a name with its bracket), `int`, `number`, `text`, `time`, `keyword`, `wav` or `sign`; its
    first byte, the byte after it, and for a name, an open bracket and a text the text without its escapes."""
    kind: str
    start: int
    end: int
    text: Optional[str] = None


@dataclass(frozen=True)
class Tokens:
    """The tokens of a script as far as they go. Where it goes no further `fault` is 1 to 4, for E02 to E05, else 0; `at`
    is the byte of the fault, or None."""
    tokens: "tuple[Token, ...]"
    fault: int
    at: Optional[int]


def read_facts(told: "dict[str, Any]") -> Facts:
    """The facts of what `files` prints, read with `Shared`."""
    return Facts(
        told["rate"], told["tick"], tuple(map(read_output, told["outputs"])), tuple(map(read_source, told["sources"])),
        tuple(map(read_list, told["lists"])), {each["name"]: read_sound(each) for each in told["sounds"]}, told["bytes"],
        told["most"], told["file_most"], told["list_most"], told["script_most"])


def read_output(told: "dict[str, Any]") -> Output:
    return Output(told["name"], told["source"], told["bits"], told["sides"], told["fallible"], told.get("clock"))


def read_source(told: "dict[str, Any]") -> Source:
    return Source(told["op"], told["sides"], tuple(told["children"]), told["always"], told.get("file"), told.get("again"),
                  told.get("track"), told.get("overlap"), told.get("sensitive"),
                  tuple(told.get("windows", ())), told.get("at"))


class Shared:
    """Reads the windows of the cases of a script: equal ones, of which there may be hundreds of thousands, are held once. An
    instance is the `object_hook` of the reader of JSON."""

    def __init__(self) -> None:
        self.known: "dict[tuple[int, int, int], Windows]" = {}

    def __call__(self, told: "dict[str, Any]") -> "Union[Windows, dict[str, Any]]":
        if "count" not in told:
            return told
        key = told["count"], told.get("shortest", 0), told.get("longest", 0)
        found = self.known.get(key)
        if found is None:
            found = self.known[key] = Windows(*key)
        return found


def read_list(told: "dict[str, Any]") -> Listed:
    return Listed(told["name"], told["state"], tuple(told.get("entries", ())), told.get("skipped", 0))


def read_sound(told: "dict[str, Any]") -> Sound:
    get = told.get
    return Sound(told["name"], told["state"], get("fault", 0), get("sides", 0), get("bits", 0), get("rate", 0), get("place", 0),
                 get("own", 0), get("played", 0), get("bytes", 0))


def read_tokens(told: "dict[str, Any]") -> Tokens:
    """The tokens of what `tokens` prints."""
    return Tokens(tuple(Token(*each) for each in told["tokens"]), told.get("fault", 0), told.get("at"))
