"""Files of `single` that cannot be played, and what a night plays in their place.

Where the reader takes the script with an empty list in the place of such a file, what stands beside it is played. Else a second
of silence stands in for it. So it is only where each output has something else to play, and each file is told.
"""
import collections
import dataclasses
import struct
from typing import Dict, List, Mapping, NamedTuple, Optional, Set, Tuple

from liq.doctoring.sounds import trouble_of_sound
from liq.nights.seen import plays
from liq.reading.companion import Companion, NoAnswer
from liq.reading.facts import Facts, Refused, Token
from liq.watching.names import shown

EMPTY, SILENT = "0-0.m3u", "0-0.wav"       # what stands in for them: a list without entries, and silence
HOW = {(True, False): "what stands beside it is played", (False, True): "silence stands in for it",
       (True, True): "what stands beside it is played, or silence stands in for it"}


class Lacking(NamedTuple):
    """Of each file what stands in for it, and the bytes at which the calls begin that play an empty list."""
    files: Mapping[str, str] = {}
    calls: Tuple[int, ...] = ()

    def names(self, empty: str, silent: str) -> Dict[str, str]:
        """What stands in for each file, where an empty list and silence have these names."""
        return {file: empty if stand == EMPTY else silent for file, stand in self.files.items()}


def renamed(text: bytes, tokens: Tuple[Token, ...], names: Mapping[str, str], calls: Tuple[int, ...] = (), empty: str = "") -> bytes:
    """A script with other names in place of these. The singles that begin at these bytes are playlists of the empty list."""
    data, at, is_empty = b"", 0, False
    for token in tokens:
        other = None
        if token.kind == "text" and token.text is not None and token.text in names:
            name = empty if is_empty else names[token.text]
            other = '"{}"'.format(name.replace("\\", "\\\\").replace('"', '\\"')).encode(errors="surrogateescape")
        is_empty = token.kind == "open" and token.text == "single" and token.start in calls
        if is_empty:
            other = b"playlist("
        if other is not None:
            data += text[at:token.start] + other
            at = token.end
    return data + text[at:]


def without(facts: Facts, names: Set[str]) -> Facts:
    """The facts with singles of no file in place of those of these."""
    sources = tuple(dataclasses.replace(source, file=None) if source.op == "single" and source.file in names else source
                    for source in facts.sources)
    return dataclasses.replace(facts, sources=sources)


def of(companion: Companion, file: str, facts: Facts) -> Tuple[Facts, Lacking, List[str]]:
    """The facts of a script without the files of singles that cannot be played, what stands in for them, and a line on each.
    Where an output has nothing else to play all is as it is."""
    gone = [name for name in facts.singles if not facts.sounds[name].is_used]
    rest = without(facts, set(gone))
    if not gone or not all(plays(rest, rest.sources[output.source]) for output in rest.outputs):
        return facts, Lacking(), []
    try:
        found = Stands(companion, file, facts, gone).found()
    except (NoAnswer, OSError):
        found = None
    if found is None:
        return facts, Lacking(), []
    lines = []
    for name in gone:
        places = [source.at in found.calls for source in facts.sources if source.op == "single" and source.file == name]
        trouble = trouble_of_sound(facts.sounds[name], facts) or "could not be read"
        lines.append(f"audio file {shown(name)}: {trouble}; {HOW[any(places), not all(places)]}")
    return rest, found, lines


class Stands:
    """What stands in for files of singles, as the reader takes it."""

    def __init__(self, companion: Companion, file: str, facts: Facts, gone: List[str]):
        self.companion, self.facts, self.gone = companion, facts, gone
        self.tokens = companion.tokens(file).tokens
        with open(file, "rb") as opened:
            self.text = opened.read()
        self.opened = {token.start: after for token, after in zip(self.tokens, self.tokens[1:])
                       if token.kind == "open" and token.text == "single"}

    def found(self) -> Optional[Lacking]:
        """What stands in for each: an empty list wherever the reader takes that, and silence elsewhere. Nothing where it
        takes neither."""
        best, is_known = Lacking(dict.fromkeys(self.gone, SILENT)), False
        for name in self.gone:
            calls = tuple(source.at for source in self.facts.sources
                          if source.op == "single" and source.file == name and source.at is not None)
            more = Lacking({**best.files, name: EMPTY}, (*best.calls, *calls))
            if self.is_taken(more):
                best, is_known = more, True
                continue
            for at in calls:
                after = self.opened.get(at)
                more = Lacking(best.files, (*best.calls, at))
                if after is not None and after.text == name and self.is_taken(more):
                    best, is_known = more, True
        return best if is_known or self.is_taken(best) else None

    def is_taken(self, lack: Lacking) -> bool:
        """Whether the reader takes the script so, with the sources that are meant, and no output may fall silent in it that
        may not."""
        found = self.companion.plan_of(renamed(self.text, self.tokens, lack.names(EMPTY, SILENT), lack.calls, EMPTY))
        if isinstance(found, Refused):
            return False
        wanted: "collections.Counter[Tuple[str, Optional[str]]]" = collections.Counter()
        for source in self.facts.sources:
            is_gone = source.op == "single" and source.file in self.gone
            stand = ("playlist", EMPTY) if source.at in lack.calls else ("single", SILENT)
            wanted[stand if is_gone else (source.op, source.file)] += 1
        is_meant = wanted == collections.Counter((source.op, source.file) for source in found.sources)
        return is_meant and all(output.fallible or found.sources[output.source].always for output in found.outputs)


def silence(rate: int) -> bytes:
    """What stands in for a sound: a WAV file of a second of silence, of one side of 16 bits."""
    size = 2 * rate
    return (b"RIFF" + struct.pack("<I", 36 + size) + b"WAVEfmt " + struct.pack("<IHHIIHH", 16, 1, 1, rate, 2 * rate, 2, 16)
            + b"data" + struct.pack("<I", size) + bytes(size))
