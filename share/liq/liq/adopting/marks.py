"""Where each part of a new text comes from. A mark stands in the text before what was taken over: two letters that no
script has, which hold a place of the old text."""
import bisect
import re
from typing import List, Sequence, Tuple

FIRST = 0xD800         # of 1024 letters that no text of UTF-8 holds; bytes that are none are other ones
DIGITS = 1024
MOST = DIGITS * DIGITS  # places, and so characters of a script
MARKS = re.compile("(?:[\ud800-\udbff]{2})+")


def mark(at: int) -> str:
    """The mark of a place of the old text, from 0 on; of one that is too far away the last one that has a mark."""
    at = min(at, MOST - 1)
    return chr(FIRST + at // DIGITS) + chr(FIRST + at % DIGITS)


def place_of(two: str) -> int:
    """The place that a mark holds."""
    return (ord(two[0]) - FIRST) * DIGITS + ord(two[1]) - FIRST


def plain(text: str) -> str:
    """A text without its marks."""
    return MARKS.sub("", text)


class Places:
    """The places of an old text from which the parts of a new one come, by where these begin."""

    def __init__(self, found: Sequence[Tuple[int, int]]):
        self.found = list(found)
        self.begins = [begin for begin, _ in self.found]

    def of(self, at: int) -> int:
        """The place in the old text of what stands at a place of the new one: that of the last part which begins
        there or before; 0 where none does."""
        number = bisect.bisect_right(self.begins, at) - 1
        return self.found[number][1] if number >= 0 else 0

    def behind(self, before: "Places") -> "Places":
        """These places in the text from which the old one itself came."""
        return Places([(begin, before.of(at)) for begin, at in self.found])


def read(text: str) -> Tuple[str, Places]:
    """A text without its marks, and the places that they held."""
    parts: List[str] = []
    found: List[Tuple[int, int]] = []
    at = place = 0
    for match in MARKS.finditer(text):
        parts.append(text[place:match.start()])
        at += match.start() - place
        place = match.end()
        found.append((at, place_of(match[0][-2:])))
    parts.append(text[place:])
    return "".join(parts), Places(found)
