"""The entries of a list of sounds: a name a line, with `annotate:` before it or not, or the lines `File1=` of a PLS list."""
import os
import re
from typing import Dict, Iterator, List, NamedTuple, Tuple

from liq.preparing.sounds import TAGS

MARK = b"\xef\xbb\xbf"
PLS = "[playlist]"     # the first line of a list of that form
ANNOTATED = re.compile(r'annotate:((?:[^:"]|"(?:[^"\\]|\\.)*")*):(.*)', re.S)
PAIR = re.compile(r'\s*([^=,\s"]+)\s*=\s*(?:"((?:[^"\\]|\\.)*)"|([^,]*))\s*(?:,|$)', re.S)


class Entry(NamedTuple):
    """A name, the texts that stand before it by the names of tags, and the names of other values there."""
    name: str
    texts: Dict[str, str]
    others: Tuple[str, ...] = ()


def entries_of(data: bytes) -> List[Entry]:
    """The entries of a list, in its order."""
    lines = [line.removesuffix("\r") for line in map(os.fsdecode, data.removeprefix(MARK).split(b"\n"))]
    first = next((line for line in lines if line.strip()), "")
    names = of_pls(lines) if first.strip().lower() == PLS else (line for line in lines if line and not line.startswith("#"))
    return [entry_of(name) for name in names if name]


def of_pls(lines: List[str]) -> Iterator[str]:
    """The names of a PLS list, by their numbers."""
    found = [(int(match[1]), match[2].strip()) for line in lines if (match := re.fullmatch(r"\s*file([0-9]{1,9})\s*=(.*)", line, re.I))]
    return (name for _, name in sorted(found, key=lambda pair: pair[0]))


def entry_of(line: str) -> Entry:
    """The entry of a line. Of texts that stand before a name several times the outer ones count."""
    texts: Dict[str, str] = {}
    others: Dict[str, None] = {}
    while match := ANNOTATED.fullmatch(line):
        for key, quoted, plain in PAIR.findall(match[1]):
            value = re.sub(r"\\(.)", r"\1", quoted) if quoted else plain.strip()
            tag = next((tag for tag, keys in TAGS.items() if key.lower() in keys), "")
            if tag:
                texts.setdefault(tag, value)
            else:
                others[key] = None
        line = match[2]
    return Entry(line, texts, tuple(others))
