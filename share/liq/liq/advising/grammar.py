"""Reads the tokens of a script by the grammar of docs/grammar.md: where no script goes on with them, and which
calls it met."""
from dataclasses import dataclass
from typing import TYPE_CHECKING, List, Optional

if TYPE_CHECKING:
    from liq.advising.script import Token

COMPARISONS = ("==", "!=", "<", "<=", ">", ">=")
SIGNS = ("+", "-", "*", "/")
CONSTANTS = ("int", "number", "text", "name")


@dataclass
class Met:
    """A call that was read whole: the numbers of its first token and of the token that closes it."""
    number: int
    last: int


class Stop(Exception):
    """No script goes on with the token at hand."""


class Reading:
    """What was read: the token with which no script goes on, or nothing; the calls; and where statements begin."""

    def __init__(self, tokens: "List[Token]") -> None:
        self.tokens, self.at = tokens, 0
        self.inner: Optional[int] = None
        self.calls: List[Met] = []
        self.starts: List[int] = []
        self.fault: Optional[int] = None
        try:
            while self.at < len(tokens):
                self.starts.append(self.at)
                self.statement()
        except (Stop, RecursionError):
            self.fault = self.at

    def token(self, ahead: int = 0) -> "Optional[Token]":
        place = self.at + ahead
        return self.tokens[place] if place < len(self.tokens) else None

    def is_kind(self, *kinds: str, ahead: int = 0) -> bool:
        token = self.token(ahead)
        return token is not None and token.kind in kinds

    def is_sign(self, *texts: str, ahead: int = 0) -> bool:
        """Whether the token is one of these signs or keywords."""
        token = self.token(ahead)
        return token is not None and token.kind in ("mark", "keyword") and token.text in texts

    def is_name(self, text: str, ahead: int = 0) -> bool:
        """Whether the token is this name."""
        token = self.token(ahead)
        return token is not None and token.kind == "name" and token.text == text

    def take(self, *texts: str) -> bool:
        """Passes one of these signs, if it stands here."""
        found = self.is_sign(*texts)
        self.at += found
        return found

    def need(self, *texts: str) -> None:
        if not self.take(*texts):
            raise Stop

    def need_kind(self, *kinds: str) -> None:
        if not self.is_kind(*kinds):
            raise Stop
        self.at += 1

    def is_binding(self) -> bool:
        return self.is_kind("name") and self.is_sign("=", ahead=1)

    def statement(self) -> None:
        if self.is_sign("def"):
            self.definition()
        elif self.is_sign("if"):
            self.branches()
        elif self.is_kind("open"):
            self.call()
        else:
            self.binding()
        self.take(";")

    def binding(self) -> None:
        self.need_kind("name")
        self.need("=")
        self.value()

    def definition(self) -> None:
        self.need("def")
        self.need_kind("open")
        if not self.take(")"):
            self.parameter()
            while self.take(","):
                self.parameter()
            self.need(")")
        self.take("=")
        while self.is_binding():
            self.inner = self.at + 1
            self.binding()
            self.take(";")
        self.expression()
        self.need("end")

    def parameter(self) -> None:
        is_labelled = self.take("~")
        self.need_kind("name")
        if is_labelled and self.take("="):
            self.value()

    def value(self) -> None:
        if self.take("-"):
            self.need_kind("int", "number")
        else:
            self.expression()

    def expression(self) -> None:
        while True:
            self.take("not")
            self.sum()
            if self.take(*COMPARISONS):
                self.sum()
            if not self.take("and", "or"):
                return

    def sum(self) -> None:
        self.operand()
        while self.take(*SIGNS):
            self.operand()

    def operand(self) -> None:
        if self.is_kind(*CONSTANTS):
            self.at += 1
        elif self.is_kind("open"):
            self.call()
        elif self.is_kind("wav"):
            self.form()
        elif self.is_sign("if"):
            self.branches()
        elif self.take("("):
            self.items(")")
        elif self.take("["):
            self.items("]")
        elif self.take("{"):
            self.predicate()
            self.need("}")
        else:
            self.need("true", "false")

    def items(self, close: str) -> None:
        if self.take(close):
            return
        self.value()
        while self.take(","):
            self.value()
        self.need(close)

    def form(self) -> None:
        """`%wav` with its option. Where it is the whole value of a binding in a def, a `(` behind it may begin the
        def's own value."""
        self.at += 1
        is_option = self.is_name("samplesize", 1) and self.is_sign("=", ahead=2)
        if self.is_sign("(") and (is_option or self.at - 2 != self.inner):
            self.at += 1
            if not self.is_name("samplesize"):
                raise Stop
            self.at += 1
            self.need("=")
            self.need_kind("int")
            self.need(")")

    def call(self) -> None:
        first = self.at
        self.at += 1
        if not self.take(")"):
            self.argument()
            while self.take(","):
                self.argument()
            self.need(")")
        self.calls.append(Met(first, self.at - 1))

    def argument(self) -> None:
        if self.is_binding():
            self.at += 2
        self.value()

    def branches(self) -> None:
        self.need("if")
        self.value()
        self.need("then")
        self.value()
        self.need("else")
        self.value()
        self.need("end")

    def predicate(self) -> None:
        while True:
            self.take("not")
            self.atom()
            if not self.take("and", "or"):
                return

    def atom(self) -> None:
        if self.take("("):
            self.predicate()
            self.need(")")
        elif self.is_kind("time"):
            self.at += 1
            if self.take("-"):
                self.need_kind("time")
        else:
            self.need("true", "false")
