"""A script as the lines of a refusal count it: its tokens, as the companion tells them, its brackets and its calls
(docs/language.md, docs/grammar.md)."""
from bisect import bisect_left, bisect_right
from dataclasses import dataclass
from functools import cached_property
from typing import Dict, List, Optional, Set, Tuple

from liq.advising.grammar import Reading
from liq.reading.facts import Tokens as Told

KEYWORDS = {"def", "end", "if", "then", "else", "true", "false", "and", "or", "not"}
CLOSES = {"(": ")", "[": "]", "{": "}", "def": "end", "if": "end"}
CLOSERS = (")", "]", "}", "end")
# Calls that give a source.
MAKERS = {"single", "playlist", "blank", "square", "fail", "fallback", "switch", "sequence", "rotate", "random", "add",
          "amplify", "mean", "stereo", "crossfade", "mksafe", "buffer", "clock"}
ENDS = {"text", "time", "number", "int", "wav", "name"}     # kinds with which a value ends


@dataclass
class Token:
    """A token: its kind, its text, and where it stands, in characters."""
    kind: str
    text: str
    at: int

    def __bool__(self) -> bool:
        """Whether it is one: outside of the script there is none."""
        return self.at >= 0

    @property
    def name(self) -> str:
        return self.text.removesuffix("(")

    @property
    def behind(self) -> int:
        """Where it ends."""
        return self.at + len(self.text)

    @property
    def is_sign(self) -> bool:
        return self.kind in ("mark", "keyword")

    @property
    def opens(self) -> Optional[str]:
        """The bracket that the token opens, or nothing."""
        if self.kind == "open":
            return "("
        return self.text if self.is_sign and self.text in CLOSES else None

    @property
    def closes(self) -> bool:
        return self.is_sign and self.text in CLOSERS


NO_TOKEN = Token("", "", -1)     # what stands before the first token, and behind the last one


def tokens_of(told: Told, script: bytes) -> "list[Token]":
    """The tokens that are told of a script, by their places in characters."""
    found, at, end = [], 0, 0
    for token in told.tokens:
        at += len(script[end:token.start].decode("utf-8", "surrogateescape"))
        text, end = script[token.start:token.end].decode("utf-8", "surrogateescape"), token.end
        found.append(Token("mark" if token.kind == "sign" else token.kind, text, at))
        at += len(text)
    return found


def closer_of(token: Token) -> str:
    """The sign that closes the bracket which a token opens, or an empty text where it opens none."""
    return CLOSES.get(token.opens or "", "")


def parents_of(tokens: List[Token]) -> List[Optional[int]]:
    """For each token, and for the end, the number of the innermost bracket that is open before it, or nothing. A
    closing sign that does not fit closes nothing."""
    found: List[Optional[int]] = []
    stack: List[int] = []
    for number, token in enumerate(tokens):
        found.append(stack[-1] if stack else None)
        if token.opens:
            stack.append(number)
        elif stack and token.closes and closer_of(tokens[stack[-1]]) == token.text:
            stack.pop()
    return found + [stack[-1] if stack else None]


@dataclass
class Argument:
    """An argument of a call, or an item of a list: its label or nothing, its tokens, and the number of their first."""
    label: Optional[str]
    tokens: List[Token]
    number: int


def argument_of(tokens: List[Token], first: int, last: int) -> Argument:
    """The argument that these tokens make, up to the last one, which is not of it."""
    labelled = last - first > 2 and tokens[first].kind == "name" and tokens[first + 1].text == "="
    first += 2 * labelled
    return Argument(tokens[first - 2].text if labelled else None, tokens[first:last], first)


def arguments_of(tokens: List[Token], number: int) -> List[Argument]:
    """The arguments of the call, or the items of the bracket, that this token opens."""
    found: List[Argument] = []
    first, depth = number + 1, 0
    for place in range(number + 1, len(tokens)):
        token = tokens[place]
        if depth == 0 and (token.closes or token.text == "," and token.is_sign):
            if place > first:
                found.append(argument_of(tokens, first, place))
            first = place + 1
            if token.closes:
                break
        else:
            depth += bool(token.opens) - token.closes
    return found


class Tokens:
    """The tokens of a text with their brackets and statements."""

    def __init__(self, text: str, tokens: List[Token]) -> None:
        self.text, self.tokens, self.parents = text, tokens, parents_of(tokens)

    @cached_property
    def reading(self) -> Reading:
        """What the grammar reads of the tokens."""
        return Reading(self.tokens)

    @property
    def starts(self) -> List[int]:
        """The numbers of the first tokens of the statements, as far as the grammar reads them."""
        return self.reading.starts

    def token(self, number: Optional[int]) -> Token:
        """The token of a number, or none outside of the script."""
        return self.tokens[number] if number is not None and 0 <= number < len(self.tokens) else NO_TOKEN

    @property
    def last(self) -> Token:
        """The last token, or none."""
        return self.token(len(self.tokens) - 1)

    def word(self, number: Optional[int]) -> str:
        """The text of a token, or an empty one outside of the script."""
        return self.token(number).text

    def stack(self, number: int) -> List[int]:
        """The numbers of the brackets that are open before a token, the innermost last."""
        found: List[int] = []
        inner = self.parents[number]
        while inner is not None:
            found.append(inner)
            inner = self.parents[inner]
        return found[::-1]

    def begins(self, number: int) -> bool:
        """Whether a token begins a statement: the first one, or one outside of all brackets that begins its line."""
        at = self.tokens[number].at
        return self.parents[number] is None and not self.text[self.text.rfind("\n", 0, at) + 1:at].strip()

    def is_close(self, number: int) -> bool:
        """Whether nothing stands between a token and the one before it."""
        return 0 < number < len(self.tokens) and self.tokens[number - 1].behind == self.tokens[number].at

    def call_round(self, number: int) -> Optional[int]:
        """The number of the token that opens the innermost call round a token, or nothing."""
        return next((k for k in reversed(self.stack(number)) if self.tokens[k].kind == "open"), None)

    def statement_of(self, number: int) -> int:
        """The number of the first token of the statement in which a token stands."""
        place = bisect_right(self.starts, number)
        return self.starts[place - 1] if place else 0

    def end_of(self, number: int) -> int:
        """The number of the token behind the statement in which a token stands."""
        place = bisect_right(self.starts, number)
        return self.starts[place] if place < len(self.starts) else len(self.tokens)

    @cached_property
    def bindings(self) -> Tuple[List[int], List[Tuple[int, str, str]]]:
        """The numbers of the tokens at which names are bound, in order, and for each the name and its sort."""
        found = []
        for number, token in enumerate(self.tokens):
            if token.kind == "open" and self.word(number - 1) == "def":
                found.append((number, token.name, "def"))
            elif token.kind == "name" and self.word(number + 1) == "=" and self.is_binding(number):
                found.append((number, token.text, "value"))
        return [number for number, _, _ in found], found

    def bound(self, until: Optional[int] = None) -> Dict[str, Tuple[str, int]]:
        """The names that are bound before a token, by their sort: "value" or "def"; with the token at which each
        stands."""
        numbers, found = self.bindings
        last = len(found) if until is None else bisect_left(numbers, until)
        return {name: (sort, number) for number, name, sort in found[:last]}

    def visible(self, number: int) -> int:
        """Up to which token names are bound that may stand at a token: in a def all before it, else those of the
        statements before."""
        start = self.statement_of(number)
        return number if self.word(start) == "def" else start

    def is_binding(self, number: int) -> bool:
        """Whether a name with a `=` behind it binds, and is no label."""
        inner = self.parents[number]
        return inner is None or self.tokens[inner].text in ("def", "if")

    def parameters(self, number: int) -> Set[str]:
        """The names of the parameters of the def round a token."""
        found = set()
        for k in self.stack(number):
            if self.tokens[k].text == "def" and k + 1 < len(self.tokens):
                for argument in arguments_of(self.tokens, k + 1):
                    found |= {token.text for token in argument.tokens[:2] if token.kind == "name"}
                    found |= {argument.label} if argument.label else set()
        return found


class Script(Tokens):
    """The text of a script with its tokens, as far as they go."""

    def __init__(self, data: bytes, told: Told) -> None:
        super().__init__(data.decode("utf-8", "surrogateescape"), tokens_of(told, data))
        self.data = data

    def place(self, line: int, column: int) -> int:
        """The character at a line and a column, both from 1, as they are shown: a column counts characters."""
        return ([0, *self.ends][min(line - 1, len(self.ends))]) + column - 1

    def of_byte(self, byte: int) -> int:
        """The character at a byte."""
        return len(self.data[:byte].decode("utf-8", "surrogateescape"))

    def line(self, at: int) -> int:
        """The number of the line of a character, from 1."""
        return bisect_right(self.ends, at) + 1

    @cached_property
    def ends(self) -> List[int]:
        """The characters after the line ends."""
        return [at + 1 for at, sign in enumerate(self.text) if sign == "\n"]

    def begins_line(self, number: int) -> bool:
        """Whether a token is the first of its line."""
        at = self.tokens[number].at
        return not self.text[self.text.rfind("\n", 0, at) + 1:at].strip()

    def number_at(self, at: int) -> Optional[int]:
        """The number of the token that begins at a character, or nothing."""
        number = bisect_left(self.places, at)
        return number if number < len(self.places) and self.places[number] == at else None

    @cached_property
    def places(self) -> List[int]:
        """The characters at which the tokens begin."""
        return [token.at for token in self.tokens]


def is_end(token: Token) -> bool:
    """Whether a value may end with a token."""
    return token.kind in ENDS or token.is_sign and token.text in (*CLOSERS, "true", "false")


def is_begin(token: Token) -> bool:
    """Whether a value may begin with a token."""
    return (token.kind in ENDS or token.kind == "open"
            or token.is_sign and token.text in ("(", "[", "{", "true", "false", "if"))
