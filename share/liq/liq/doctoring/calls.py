"""What the tokens of a script tell: the names in its calls, where it has no plan, and values that are not meant so."""
import difflib
from dataclasses import dataclass, field
from typing import Iterator, NamedTuple, Optional

from liq.doctoring.findings import Told
from liq.reading.facts import Tokens
from liq.watching.names import shown

KEYS = ("frame.audio.samplerate", "frame.duration")


class Word(NamedTuple):
    """A token: its kind, its text (of a text without quotes, of a call without its bracket), and its first byte."""
    kind: str
    text: str
    start: int

    def is_sign(self, *texts: str) -> bool:
        return self.kind == "sign" and self.text in texts


@dataclass
class Names:
    """The names in the calls of a script, each once: files of `single`, lists of `playlist`, and outputs."""
    singles: "dict[str, None]" = field(default_factory=dict)
    lists: "dict[str, None]" = field(default_factory=dict)
    outputs: "dict[str, None]" = field(default_factory=dict)


def words_of(tokens: Tokens, script: bytes) -> "list[Word]":
    return [Word(token.kind, script[token.start:token.end].decode(errors="surrogateescape") if token.text is None else token.text,
                 token.start) for token in tokens.tokens]


def names_in(words: "list[Word]") -> Names:
    """The names that stand in a call, as a text or as a name that is bound to one."""
    names, open_calls = Names(), []
    roles = {"single": names.singles, "playlist": names.lists, "output.file": names.outputs}
    bound = {first.text: third.text for first, second, third in zip(words, words[1:], words[2:])
             if first.kind == "name" and second.is_sign("=") and third.kind == "text"}
    for number, word in enumerate(words):
        if word.kind == "open" or word.is_sign("(", "[", "{"):
            open_calls.append(word.text)
        elif word.is_sign(")", "]", "}"):
            del open_calls[-1:]
        elif open_calls and open_calls[-1] in roles and not any(other.is_sign("=") for other in words[max(0, number - 1):number + 2]):
            name = word.text if word.kind == "text" else bound.get(word.text) if word.kind == "name" else None
            if name is not None:
                roles[open_calls[-1]][name] = None
    return names


def script_of(names: Names) -> bytes:
    """A script that plays these files, of which the companion tells what becomes of them."""
    sources = [f"single({quoted(name)})" for name in names.singles] + [f"playlist({quoted(name)})" for name in names.lists]
    script = f'output.file(fallible=true, %wav, "o", fallback([{", ".join(sources or ["fail()"])}]))\n'
    return script.encode(errors="surrogateescape")


def quoted(text: str) -> str:
    escaped = text.replace("\\", "\\\\").replace('"', '\\"')
    return f'"{escaped}"'


def near_key(text: str) -> Optional[str]:
    """The setting that is meant by a key which has no effect, or nothing where none is."""
    bare = {key: key.replace(".", "").replace("audio", "") for key in KEYS}
    given = text.lower().translate({ord(sign): None for sign in "._-"}).replace("audio", "")
    if text in KEYS:
        return None
    return next((key for key, letters in bare.items() if (letters.endswith(given) and len(given) > len("duration")
                 or difflib.SequenceMatcher(None, letters, given).ratio() > 0.85)), None)


class Lines:
    """The lines of a script, counted once from its begin on: places are asked for in their order."""

    def __init__(self, script: bytes) -> None:
        self.script, self.place, self.number = script, 0, 1

    def of(self, at: int) -> int:
        """The line of a byte, from 1 on."""
        self.number += self.script.count(b"\n", self.place, at)
        self.place = max(self.place, at)
        return self.number


def values_told(file: str, words: "list[Word]", script: bytes) -> Iterator[str]:
    """Settings that have no effect since their key is another one, and factors that look like decibels."""
    lines, name = Lines(script), shown(file)
    for word, first, second in zip(words, words[1:], words[2:]):
        if word.kind != "open" or word.text not in ("set", "amplify"):
            continue
        key = near_key(first.text) if word.text == "set" and first.kind == "text" else None
        if key:
            yield Told(f'script {name}: line {lines.of(word.start)} sets "{shown(first.text)}", which has no effect; do you '
                       f'mean "{key}"?')
        if word.text == "amplify" and first.is_sign("-") and second.kind in ("int", "number"):
            yield (f"script {name}: line {lines.of(word.start)} amplifies by -{second.text}: a factor, which turns the sound upside down; "
                   f"{-float(second.text):g} dB are {10 ** (-float(second.text) / 20):.3f}")
