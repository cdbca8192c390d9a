"""The outline of a script: what it binds, its defs and its outputs; and the word at a place."""
import re
from typing import Dict, Iterator, List, NamedTuple, Optional

from liq.advising import tables
from liq.advising.script import MAKERS, Script
from liq.serving.looking import Span


class Item(NamedTuple):
    """A part of the outline: its name, its sort ("source", "value", "def" or "output"), what stands behind the name,
    the whole statement, and the name in it."""
    name: str
    sort: str
    detail: str
    whole: Span
    word: Span


def items(script: Script) -> Iterator[Item]:
    """The statements of a script that bind or play something, as far as it is read."""
    ends = [*script.starts[1:], len(script.tokens)]
    for first, end in zip(script.starts, ends):
        if end <= first:
            continue
        whole = Span(script.tokens[first].at, script.tokens[end - 1].behind)
        token, after = script.tokens[first], script.token(first + 1)
        if token.text == "def" and after is not None:
            yield Item(after.name, "def", "", whole, Span(after.at, after.at + len(after.name)))
        elif token.kind == "name" and script.word(first + 1) == "=" and first + 2 < end:
            value = script.tokens[first + 2]
            sort = "source" if value.kind == "open" and value.name in MAKERS else "value"
            yield Item(token.text, sort, value.name if value.kind == "open" else "", whole, Span(token.at, token.behind))
        elif token.kind == "open" and token.name == "output.file":
            text = next((one.text[1:-1] for one in script.tokens[first:end] if one.kind == "text"), token.name)
            yield Item(text or token.name, "output", token.name, whole, Span(token.at, token.at + len(token.name)))


class Rows:
    """The rows of the pages: of a call of this language, or of a word of Liquidsoap."""

    def __init__(self) -> None:
        self.words, self.calls = tables.Words(), tables.calls()
        self.rows: Dict[str, List[str]] = {}
        for line in tables.page("builtins.md"):
            row = tables.cells(line)
            call = tables.call_of_row(row)
            if call:
                self.rows[call.name] = row

    def of(self, word: str) -> Optional[str]:
        """What is told of a word, in Markdown, or nothing."""
        if word in self.rows:
            form, types, what, tracks, always, bad = map(tables.plain, self.rows[word])
            lines = [form, what] + [f"{title}: {cell}" for title, cell in (
                ("Parameters", types), ("Tracks", tracks), ("Never silent", always), ("Bad values and limits", bad))
                                    if cell]
            return "\n\n".join(lines)
        return self.words.told(word) or self.family(word)

    def family(self, word: str) -> Optional[str]:
        """What is told of a word of a family of Liquidsoap's."""
        way = self.words.family(word) if "." in word else None
        return self.words.told_as(word, way) if way else None


def word_round(text: str, at: int) -> "tuple[str, Span]":
    """The word round a character, and where it stands."""
    front = re.search(r"%?[A-Za-z_][\w.]*$|%$", text[max(0, at - 80):at])
    begin = at - len(front[0]) if front else at
    match = re.compile(r"%?[A-Za-z_]\w*(?:\.[A-Za-z_]\w*)*").match(text, begin)
    return (match[0], Span(begin, match.end())) if match and match.end() >= at else ("", Span(at, at))
