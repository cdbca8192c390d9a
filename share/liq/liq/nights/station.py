"""The script of a station: the files that it names, what it sets, and what a border between two parts loses."""
import os
from typing import Callable, Dict, List, Mapping, NamedTuple, Optional, Tuple

from liq.nights import lacking
from liq.nights.failed import Failed
from liq.nights.parts import MOST
from liq.reading.companion import Companion
from liq.reading.facts import Facts, Source
from liq.watching.names import shown

# What a part does not know of the one before, by the sources of the script.
LOST: Tuple[Tuple[Callable[[Source], bool], str], ...] = (
    (lambda source: source.op == "rotate", "whose turn it was in a rotate: it begins anew"),
    (lambda source: source.op == "random",
     "the draws of a random: they begin anew, and are the same ones in each part"),
    (lambda source: source.op == "sequence", "how far a sequence had come: it begins anew"),
    (lambda source: source.op == "single", "how far a file of single had come: it begins anew"),
    (lambda source: source.op == "blank" and bool(source.track),
     "how far a blank of some length had come: it begins anew"),
    (lambda source: source.op == "crossfade",
     "the end of a track that a crossfade would have mixed into the next one"),
    (lambda source: source.op == "buffer", "what a buffer held"),
    (lambda source: source.op == "add",
     "the rest of a track that an add plays beside the one that ends: its list goes on"),
)
BROKEN = "the rest of a track into which another source broke: its list goes on"
LATE = "less than a second of the clock: a switch may come so much later"
CUT = "the rest of the track that is played: its list goes on behind it"
AHEAD = 2              # so many times its own length a crossfade or a buffer may read of what is in it
WINDOW = 1000          # ticks that clocks make, if no buffer joins them, before they wait for each other


class Need(NamedTuple):
    """What may be taken of a list: so many seconds of its tracks, each shorter by the overlap, but at least half of it; and
    at most so many seconds of it in all."""
    seconds: float
    overlap: float
    most: float


NOTHING = Need(0.0, 0.0, 0.0)
WHOLE = ("amplify", "mean", "stereo", "rotate", "random")      # operators that pass the tracks in them whole
CHOOSING = ("fallback", "switch")                              # those that do, where they are track-sensitive


class Station:
    """A script with the names in it, and what it sets."""

    def __init__(self, file: str, companion: Companion, facts: Facts, longest: float, lack: lacking.Lacking = lacking.Lacking()):
        self.file, self.companion, self.facts, self.longest, self.lack = file, companion, facts, longest, lack
        self.text, self.tokens = content(file), companion.tokens(file).tokens
        self.outputs = [output.name for output in facts.outputs]
        self.lists = {one.name: one for one in facts.lists}
        self.singles = facts.singles
        self.rate, self.tick = facts.rate, facts.tick
        self.width = max(output.bits for output in facts.outputs) // 8         # bytes of a sample
        self.lost, self.window = lost_of(facts), window_of(facts)
        self.examine()

    def examine(self) -> None:
        """Fails where its outputs are none that a night can have."""
        for name in self.outputs:
            if name in self.lists or name in self.singles:
                raise Failed(f"the output {shown(name)} has the name of a list or a sound", 1)
            if os.path.isdir(name):
                raise Failed(f"the output {shown(name)} is a folder", 1)
            if name.startswith("/dev/") or os.path.exists(name) and not os.path.isfile(name):
                raise Failed(f"the output {shown(name)} is a pipe or a device: a night is written into files", 1)

    def limit(self) -> int:
        """How many seconds a part can be."""
        return (MOST - 64) // (2 * self.width * self.rate)

    def needs(self, seconds: float) -> Dict[str, Need]:
        """What so many seconds of the outputs may take of each list."""
        sources, rate = self.facts.sources, self.rate
        wanted = [NOTHING] * len(sources)
        for output in self.facts.outputs:
            wanted[output.source] = Need(seconds, 0.0, seconds)
        for number in reversed(range(len(sources))):
            source, need = sources[number], of_children(sources[number], wanted[number], rate)
            for child in range(number) if source.children is None else source.children:
                wanted[child] = wider(wanted[child], need)
        found: Dict[str, Need] = {}
        for source, need in zip(sources, wanted):
            if source.op == "playlist" and source.file is not None:
                found[source.file] = wider(found.get(source.file, NOTHING), need)
        return found

    def renamed(self, names: Mapping[str, str], empty: str = "") -> bytes:
        """The script with other names in place of these, and an empty list in place of singles that are lacking."""
        return lacking.renamed(self.text, self.tokens, names, self.lack.calls, empty)


def of_children(source: Source, need: Need, rate: int) -> Need:
    """What a source takes of those in it, where so much is taken of it. A crossfade of D seconds reads within S seconds at
    most 2 S + 2 D and two samples; of a track that it has whole it leaves its length but for D, or half of it."""
    if source.op == "crossfade":
        overlap = (source.overlap or 0) / rate
        most = AHEAD * (need.most + overlap) + 2 / rate
        return Need(need.most + overlap + 2 / rate, overlap, most)
    if source.op == "buffer":
        return Need(AHEAD * need.most, 0.0, AHEAD * need.most)
    if source.op in WHOLE or source.op in CHOOSING and source.sensitive is not False:
        return need
    return Need(need.most, 0.0, need.most)


def wider(first: Need, second: Need) -> Need:
    """What is enough for both."""
    most = max(first.most, second.most)
    if NOTHING in (first, second) or first.overlap == second.overlap:
        return Need(max(first.seconds, second.seconds), max(first.overlap, second.overlap), most)
    return Need(most, 0.0, most)


def content(file: str) -> bytes:
    try:
        with open(file, "rb") as opened:
            return opened.read()
    except OSError as error:
        raise Failed(f"{shown(file)}: {error.strerror}", 3) from None


def lost_of(facts: Facts) -> List[str]:
    """What a border of two parts loses."""
    found = [words for is_lost, words in LOST if any(map(is_lost, facts.sources))]
    if any(breaks(facts, source) for source in facts.sources):
        found.append(BROKEN)
    if any(source.op == "switch" for source in facts.sources):
        found.append(LATE)
    return ([CUT] if len(facts.outputs) > 1 else []) + found


def window_of(facts: Facts) -> List[str]:
    """The word of a rendering that says how long its windows are; none where a source is a buffer. Without a buffer no
    clock hears another one, so the bytes are the same in windows of any length. In long ones clocks wait less often."""
    return [] if any(source.op == "buffer" for source in facts.sources) else [f"--window={WINDOW}"]


def breaks(facts: Facts, source: Source) -> bool:
    """Whether another source may break into a track of this one. What mksafe makes, a fallback of one source and then
    silence, does so where that source has nothing to play."""
    if source.sensitive is not False:
        return False
    children: Optional[Tuple[int, ...]] = source.children
    if source.op != "fallback" or children is None or len(children) != 2:
        return True
    last = facts.sources[children[1]]
    return last.op != "blank" or bool(last.track)
