"""What may stand at a place of a script: names, calls, labels of the call round it, and files in a text."""
import os
from typing import Dict, Iterator, List, NamedTuple, Optional

from liq.advising.calls import call_of_def
from liq.advising.script import KEYWORDS, Script, arguments_of
from liq.advising.tables import Call
from liq.serving.looking import Span
from liq.serving.naming import Binding, scope_at

MOST_FILES = 500           # names that are offered of a folder
ENDINGS = {"playlist": (".m3u", ".m3u8"), "single": (".wav",)}


class Item(NamedTuple):
    """What is offered: its name, its sort ("value", "def", "parameter", "call", "label", "keyword" or "file"), what stands
    beside it, and the characters that it takes the place of."""
    name: str
    sort: str
    detail: str
    span: Span
    text: str


def call_named(script: Script, number: int, calls: Dict[str, Call]) -> Optional[Call]:
    """The call that a token opens: of a def that is bound there, or of the language."""
    binding = scope_at(script, number).get(script.tokens[number].name)
    if binding is not None:
        return call_of_def(script, binding.number) if binding.sort == "def" else None
    return calls.get(script.tokens[number].name)


def word_before(text: str, at: int) -> Span:
    """The characters of the word that ends at a character."""
    first = at
    while first > 0 and (text[first - 1].isalnum() or text[first - 1] in "_.%"):
        first -= 1
    return Span(first, at)


def number_before(script: Script, at: int) -> int:
    """The number of the first token that does not end before a character."""
    return next((number for number, token in enumerate(script.tokens) if token.behind >= at), len(script.tokens))


class Completing:
    """The script to its place, the calls of the language, and the folder from which names of files count."""

    def __init__(self, script: Script, at: int, calls: Dict[str, Call], folder: Optional[str]):
        self.script, self.at, self.calls, self.folder = script, at, calls, folder
        self.span = word_before(script.text, at)
        self.number = number_before(script, self.span.first + 1)

    def items(self) -> List[Item]:
        """What is offered, the nearest first."""
        text = self.text_round()
        if text is not None:
            return list(self.files(text))
        return [*self.labels(), *self.names(), *self.words()]

    def text_round(self) -> Optional[Span]:
        """The characters of the text round the place, without its quotes, up to the place; nothing where there is none."""
        for token in self.script.tokens:
            if token.kind == "text" and token.at < self.at < token.behind:
                return Span(token.at + 1, self.at)
        end = self.script.tokens[-1].behind if self.script.tokens else 0
        rest = self.script.text[end:self.at].lstrip()
        if rest[:1] in ("'", '"') and "\n" not in rest:
            return Span(self.at - len(rest) + 1, self.at)
        return None

    def files(self, text: Span) -> Iterator[Item]:
        """The files that the call round a text may name, in the folder that its front names."""
        opener = self.opener()
        ends = ENDINGS.get(self.script.tokens[opener].name) if opener is not None else None
        if self.folder is None or ends is None:
            return
        front = self.script.text[text.first:text.behind]
        below = os.path.dirname(front)
        try:
            names = sorted(os.listdir(os.path.join(self.folder, below)))[:MOST_FILES]
        except (OSError, ValueError):
            return
        for name in names:
            path = os.path.join(below, name)
            is_folder = os.path.isdir(os.path.join(self.folder, path))
            if (is_folder or name.lower().endswith(ends)) and not name.startswith(".") and is_plain(name):
                yield Item(path + "/" * is_folder, "file", "", text, path + "/" * is_folder)

    def opener(self) -> Optional[int]:
        """The number of the token that opens the call round the place."""
        return self.script.call_round(min(self.number, len(self.script.tokens)))

    def labels(self) -> Iterator[Item]:
        """The labels of the call round the place that are not given."""
        opener = self.opener()
        if opener is None or opener >= self.number or self.script.word(self.number - 1) not in (",", self.script.word(opener)):
            return
        call = call_named(self.script, opener, self.calls)
        given = {one.label for one in arguments_of(self.script.tokens, opener)}
        for parameter in call.parameters if call else ():
            if parameter.is_labelled and parameter.name not in given:
                beside = " ".join(filter(None, (parameter.type, f"default {parameter.default}" if parameter.default else "")))
                yield Item(f"{parameter.name}=", "label", beside, self.span, f"{parameter.name}=")

    def names(self) -> Iterator[Item]:
        """The names that the script binds before the place."""
        for binding in reversed(list(scope_at(self.script, self.number).values())):
            call = "(" * (binding.sort == "def")
            yield Item(binding.name, binding.sort, shown_line(self.script, binding), self.span, binding.name + call)

    def words(self) -> Iterator[Item]:
        """The calls and keywords of the language; one whose name the script has is not meant there."""
        own = scope_at(self.script, self.number)
        for name, call in self.calls.items():
            if name not in own:
                yield Item(name, "call", call.form, self.span, name + "(")
        yield Item("%wav", "keyword", "", self.span, "%wav")
        for word in sorted(KEYWORDS):
            yield Item(word, "keyword", "", self.span, word)


def is_plain(name: str) -> bool:
    """Whether a name can stand in a text as it is."""
    return name.isprintable() and not any(letter in name for letter in "\"\\") \
        and not any("\udc80" <= letter <= "\udcff" for letter in name)


def shown_line(script: Script, binding: Binding) -> str:
    """The line that binds a name, without the blanks round it."""
    return script.text.split("\n")[script.line(script.tokens[binding.number].at) - 1].strip()
