"""The statements and values of a script of Liquidsoap, as far as bringing it over has to tell them apart. What has no
form here is a value of the kind "raw", which is taken as it stands."""
import bisect
from dataclasses import dataclass, field
from typing import Any, Iterator, List, Optional, Tuple, Union

from liq.adopting.marks import mark
from liq.adopting.tokens import Token, mates_of, tokens_of

DIRECTIVES = ("%include", "%include_extra", "%ifdef", "%ifndef", "%ifversion", "%ifencoder", "%ifnencoder", "%define",
              "%else", "%endif", "%argsof")
BINARY = {"==", "!=", "<", "<=", ">", ">=", ":=", "+", "-", "*", "/", "^", "and", "or", "mod", "??", "&&", "||", "::",
          "?", ":", "|>", "<-", "**", "->", "=", "%", "|", "&", "@"}
PREFIX = {"not", "!", "-", "ref", "~", "...", "+"}
LITERALS = ("text", "number", "int", "time", "regexp")


@dataclass
class Argument:
    """An argument of a call or an item of a list: its label or nothing, its value, and its first and last tokens."""
    label: Optional[str]
    value: "Node"
    first: int
    behind: int


@dataclass
class Parameter:
    """A parameter of a def or a function: its name, with `~` or `?` where it has a label, and its default or nothing."""
    label: str
    value: Optional["Node"]
    first: int
    behind: int


@dataclass
class Node:
    """A value: its kind, the tokens from one to before another, its name, and the values in it."""
    kind: str
    first: int
    behind: int
    name: str = ""
    args: List[Argument] = field(default_factory=list)
    parts: List[Any] = field(default_factory=list)             # values; of a block or a function statements, or lists of them
    parameters: List[Parameter] = field(default_factory=list)


@dataclass
class Statement:
    """A statement: its kind ("bind", "def", "call", "directive" or "other"), its tokens, the name that it binds, its
    value, and of a def its parameters and the statements in it."""
    kind: str
    first: int
    behind: int
    name: str = ""
    value: Optional[Node] = None
    parameters: List[Parameter] = field(default_factory=list)
    body: List["Statement"] = field(default_factory=list)


Part = Union[Argument, Parameter, Node, Statement]


class Tree:
    """A script with its tokens and statements."""

    def __init__(self, text: str):
        self.text = text
        self.tokens: List[Token] = tokens_of(text)
        self.mates = mates_of(self.tokens)
        self.words = ["" if token.kind == "text" else token.text for token in self.tokens]
        self.begins_at = [token.at for token in self.tokens]
        self.statements = self.block(0, len(self.tokens))

    # What stands where.

    def word(self, number: int) -> str:
        """The text of a token that is a sign, a word or a name, or an empty one."""
        return self.words[number] if 0 <= number < len(self.words) else ""

    def raw(self, node: Part) -> str:
        """The text of a value, a statement or an argument."""
        if node.first >= node.behind:
            return ""
        return self.text[self.tokens[node.first].at:self.tokens[node.behind - 1].behind]

    def said(self, node: Part) -> str:
        """The same with a mark before each token."""
        if node.first >= node.behind:
            return ""
        return self.cut_out(self.tokens[node.first].at, self.tokens[node.behind - 1].behind)

    def cut_out(self, begin: int, behind: int) -> str:
        """What stands between two places, with a mark before each token."""
        found, place = [], begin
        for number in range(bisect.bisect_left(self.begins_at, begin), bisect.bisect_left(self.begins_at, behind)):
            at = self.begins_at[number]
            found += [self.text[place:at], mark(at)]
            place = at
        return "".join(found) + self.text[place:behind]

    def at(self, node: Part) -> int:
        """Where it begins."""
        return self.tokens[min(node.first, len(self.tokens) - 1)].at

    def is_close(self, number: int) -> bool:
        """Whether nothing stands between a token and the one before it."""
        return number > 0 and self.tokens[number - 1].behind == self.tokens[number].at

    def is_apart(self, number: int) -> bool:
        """Whether a line ends between a token and the one before it."""
        return "\n" in self.text[self.tokens[number - 1].behind:self.tokens[number].at]

    def next(self, number: int) -> int:
        """The number behind a token, or behind what it opens."""
        return self.mates.get(number, number) + 1

    # Statements.

    def cut(self, first: int, behind: int) -> Iterator[Tuple[int, int]]:
        """The first token and the one behind of each statement between two tokens."""
        begin, place = first, first
        while place < behind:
            if place > begin and self.begins(place, begin):
                yield begin, place
                begin = place
            if self.word(place) == ";":
                if place > begin:
                    yield begin, place
                begin = place + 1
            place = self.next(place)
        if begin < behind:
            yield begin, behind

    def begins(self, number: int, begin: int) -> bool:
        """Whether a statement begins at a token, of which one begins before it."""
        token, before = self.tokens[number], self.tokens[number - 1]
        if self.word(begin) in DIRECTIVES:
            return self.is_apart(number)
        if self.word(begin) == "let" and "=" not in [self.word(k) for k in range(begin, min(number, begin + 8))]:
            return False
        if not before.ends_value or token.kind == "format" and before.kind == "format":
            return token.kind == "format" and token.text in DIRECTIVES
        if token.kind == "sign":
            is_bracket = token.text in ("(", "[", "{")
            return is_bracket and self.is_apart(number) or token.text == "!" and self.is_apart(number)
        return token.kind != "keyword" or token.text in ("def", "if", "let", "try", "begin", "while", "for", "fun",
                                                         "true", "false", "ref", "not")

    def block(self, first: int, behind: int) -> List[Statement]:
        """The statements between two tokens."""
        return [self.statement(begin, end) for begin, end in self.cut(first, behind)]

    def statement(self, first: int, behind: int) -> Statement:
        """The statement of these tokens."""
        token = self.tokens[first]
        if token.text == "def" and token.kind == "keyword" and self.next(first) == behind:
            return self.definition(first, behind)
        if token.kind == "format" and token.text in DIRECTIVES:
            return Statement("directive", first, behind, token.text)
        begin = first + (self.word(first) == "let" and first + 1 < behind)
        if self.tokens[begin].kind == "name" and self.word(begin + 1) in ("=", ":=") and begin + 2 < behind:
            kind = "bind" if self.word(begin + 1) == "=" else "other"
            return Statement(kind, first, behind, token.text if begin == first else self.word(begin),
                             self.value(begin + 2, behind))
        value = self.value(first, behind)
        kind = "call" if value.kind in ("call", "method") else "other"
        return Statement(kind, first, behind, value.name, value)

    def definition(self, first: int, behind: int) -> Statement:
        """A def."""
        place = first + 1
        while self.word(place) in ("rec", "replaces"):
            place += 1
        name, place, parameters = self.word(place), place + 1, []
        has_brackets = self.word(place) == "("
        if has_brackets:
            parameters = [self.parameter(*span) for span in self.items(place)]
            place = self.next(place)
        if self.word(place) == ":":
            place = next((k for k in range(place, behind) if self.word(k) == "="), place)
        place += self.word(place) == "="
        body = self.block(place, behind - 1)
        kind = "def" if has_brackets else "other"
        return Statement(kind, first, behind, name, None, parameters, body)

    def parameter(self, first: int, behind: int) -> Parameter:
        """A parameter of a def or a function."""
        place = first + (self.word(first) in ("~", "?"))
        front = self.word(first) if place > first else ""
        if self.word(place) == "(":
            place += 1
        sign = next((k for k in range(place, behind) if self.word(k) == "="), None)
        value = self.value(sign + 1, behind) if sign is not None and sign + 1 < behind else None
        return Parameter(front + self.word(place), value, first, behind)

    # Values.

    def items(self, number: int) -> Iterator[Tuple[int, int]]:
        """The first token and the one behind of each item of a bracket."""
        begin = place = number + 1
        last = self.mates[number]
        while place < last:
            if self.word(place) == ",":
                if place > begin:
                    yield begin, place
                begin = place + 1
            place = self.next(place)
        if begin < last:
            yield begin, last

    def argument(self, first: int, behind: int) -> Argument:
        """An argument of a call."""
        if behind - first > 2 and self.tokens[first].kind in ("name", "keyword") and self.word(first + 1) == "=":
            return Argument(self.word(first), self.value(first + 2, behind), first, behind)
        if self.word(first) == "~" and behind - first == 2:
            return Argument(self.word(first + 1), self.value(first + 1, behind), first, behind)
        return Argument(None, self.value(first, behind), first, behind)

    def arguments(self, number: int) -> List[Argument]:
        """The arguments in the brackets that a token opens."""
        return [self.argument(*span) for span in self.items(number)]

    def value(self, first: int, behind: int) -> Node:
        """The value of these tokens."""
        if first >= behind:
            return Node("raw", first, behind)
        if self.word(first) == "fun":
            return self.function(first, behind)
        parts = [span for span in self.operands(first, behind) if span[0] < span[1]]
        if parts == [(first, behind)]:
            return self.operand(first, behind)
        return Node("op", first, behind, parts=[self.value(*span) for span in parts])

    def operands(self, first: int, behind: int) -> Iterator[Tuple[int, int]]:
        """What stands between the signs that join values."""
        begin, place = first, first
        while place < behind:
            word = self.word(place)
            is_sign = word in BINARY or word in PREFIX
            if is_sign and not (word == "-" and place + 1 < behind and self.is_minus(place, first)):
                yield begin, place
                begin = place + 1
            if word == "fun":
                break
            place = self.next(place)
        yield begin, behind

    def is_minus(self, place: int, first: int) -> bool:
        """Whether a `-` is the sign of a number."""
        is_first = place == first or not self.tokens[place - 1].ends_value
        return is_first and self.tokens[place + 1].kind in ("int", "number")

    def operand(self, first: int, behind: int) -> Node:
        """A value without signs that join values."""
        token, last = self.tokens[first], self.next(first)
        if token.text == "-" and behind - first == 2:
            return Node(self.tokens[first + 1].kind, first, behind)
        if token.kind in ("name", "format"):
            if self.word(first + 1) == "(" and first + 1 < behind and (token.kind == "format"
                                                                       or self.is_close(first + 1)):
                last = self.next(first + 1)
                kind = "call" if token.kind == "name" else "format"
                node = Node(kind, first, last, token.text, self.arguments(first + 1))
            else:
                node = Node(token.kind, first, last, token.text)
        elif token.kind in LITERALS:
            node = Node(token.kind, first, last)
        elif token.text in ("true", "false"):
            node = Node("bool", first, last, token.text)
        else:
            node = self.bracket(first, last)
        return node if last == behind else self.behind_value(node, last, behind)

    def bracket(self, first: int, last: int) -> Node:
        """What stands in a bracket or a block."""
        word = self.word(first)
        if word == "[":
            return Node("list", first, last, args=self.arguments(first))
        if word == "(":
            found = self.arguments(first)
            return Node("paren" if len(found) == 1 else "tuple", first, last, args=found)
        if word == "{":
            return Node("braces", first, last, parts=self.block(first + 1, last - 1))
        if word == "begin":
            return Node("block", first, last, "begin", parts=self.block(first + 1, last - 1))
        if word == "try":
            end = next((k for k in range(first, last) if self.word(k) == "catch"), last - 1)
            return Node("block", first, last, "try", parts=self.block(first + 1, end))
        return self.branches(first, last) if word == "if" else Node("raw", first, last)

    def branches(self, first: int, last: int) -> Node:
        """An `if`: its condition, and what stands behind `then` and `else`, in turn."""
        parts, begin, place = [], first + 1, first + 1
        while place < last - 1:
            if self.word(place) in ("then", "else", "elsif"):
                parts.append(self.block(begin, place))
                begin = place + 1
            place = self.next(place)
        parts.append(self.block(begin, last - 1))
        return Node("if", first, last, parts=parts)

    def behind_value(self, node: Node, number: int, behind: int) -> Node:
        """A method of what stands before a token, or nothing that is known."""
        if self.word(number) in (".", "?.") and number + 1 < behind:
            args = self.arguments(number + 2) if self.word(number + 2) == "(" and number + 2 < behind else []
            return Node("method", node.first, behind, self.word(number + 1), args, [node])
        return Node("raw", node.first, behind)

    def function(self, first: int, behind: int) -> Node:
        """A function without a name."""
        place = first + 1
        parameters: List[Parameter] = []
        if self.word(place) == "(":
            parameters = [self.parameter(*span) for span in self.items(place)]
            place = self.next(place)
        body = self.block(place + 1, behind) if self.word(place) == "->" else []
        return Node("fun", first, behind, parts=body, parameters=parameters)
