"""Texts as an editor holds them, and places in them as the protocol counts them."""
import re
from typing import Any, Dict, List, Optional
from urllib.parse import unquote, urlsplit

from liq.serving.looking import Span, Told

HALF = re.compile("[\ud800-\udfff]")       # a letter that is cut, which no text of UTF-8 has
NO_WORDS = -32602


class Refused(Exception):
    """A request that has no answer, with the number of its error."""

    def __init__(self, code: int, text: str):
        super().__init__(text)
        self.code = code


class Places:
    """The places of a text as the protocol counts them: lines, and units of UTF-16, from 0."""

    def __init__(self, text: str):
        self.lines = text.split("\n")
        self.begins = [0]
        for line in self.lines:
            self.begins.append(self.begins[-1] + len(line) + 1)

    def place(self, at: int) -> Dict[str, int]:
        """The place of a character."""
        low, high = 0, len(self.lines) - 1
        while low < high:
            middle = (low + high + 1) // 2
            low, high = (middle, high) if self.begins[middle] <= at else (low, middle - 1)
        front = self.lines[low][:at - self.begins[low]]
        return {"line": low, "character": len(front) + sum(ord(letter) > 0xFFFF for letter in front)}

    def range(self, span: Span) -> Dict[str, Any]:
        return {"start": self.place(span.first), "end": self.place(span.behind)}

    def at(self, place: Any) -> int:
        """The character at a place; behind the end of a line or of the text it is that end."""
        number, units = place["line"], place["character"]
        if not isinstance(number, int) or not isinstance(units, int) or number < 0 or units < 0:
            raise Refused(NO_WORDS, "a place has a line and a character, from 0")
        if number >= len(self.lines):
            return self.begins[-1] - 1
        line, column = self.lines[number], 0
        while column < len(line) and units > 0:
            units -= 1 + (ord(line[column]) > 0xFFFF)
            column += 1
        return self.begins[number] + column

    def span(self, found: Any) -> Span:
        """The characters of a range."""
        first, behind = self.at(found["start"]), self.at(found["end"])
        return Span(min(first, behind), max(first, behind))


class Document:
    """A text that is open, its version, and what was told of it last: `told` of the text alone, `saved` of the file, its
    lists and its sounds when it was opened or saved last, as long as the text is the same. `is_live`: it was a script of
    Liquidsoap then, of which a look at the text alone would tell what liq refuses."""

    def __init__(self, text: str, version: Any, is_live: bool = False):
        self.text, self.version, self.is_new, self.is_live = HALF.sub("\ufffd", text), version, True, is_live
        self.places = Places(self.text)
        self.told: List[Told] = []
        self.saved: List[Told] = []




def changed(text: str, changes: List[Any]) -> Optional[str]:
    """A text behind the changes of a notification, in their order; nothing where one of them is none."""
    for one in changes:
        if not isinstance(one["text"], str):
            return None
        if "range" not in one:
            text = HALF.sub("\ufffd", one["text"])
            continue
        span = Places(text).span(one["range"])
        text = text[:span.first] + HALF.sub("\ufffd", one["text"]) + text[span.behind:]
    return text


def path_of(uri: str) -> Optional[str]:
    """The path of a file on this machine, or nothing where the address is another."""
    try:
        parts = urlsplit(uri)
    except ValueError:
        return None
    if parts.scheme != "file" or parts.netloc not in ("", "localhost"):
        return None
    path = unquote(parts.path, errors="surrogateescape")
    return path if path.startswith("/") and "\0" not in path else None
