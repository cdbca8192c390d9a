"""The names of a script: where each is bound, and where each is used (docs/typing.md, "Names")."""
from bisect import bisect_right
from dataclasses import dataclass, field
from typing import Dict, List, Optional

from liq.advising.grammar import Reading
from liq.advising.script import Script, Token


@dataclass
class Binding:
    """A name that is bound: its sort ("value", "def" or "parameter"), the number of the token that binds it, those of the
    tokens that mean it, and of a def its parameters that are given by a label."""
    name: str
    sort: str
    number: int
    uses: List[int] = field(default_factory=list)
    labels: "Dict[str, Binding]" = field(default_factory=dict)

    @property
    def places(self) -> List[int]:
        """The token that binds it, and those that mean it."""
        return [self.number, *self.uses]


class Names(Reading):
    """What the grammar reads of tokens, with the names that it meets: `found` are all bindings in their order, `scope` those
    that may be used where the reading ended. A fault of the grammar ends the reading."""

    def __init__(self, tokens: List[Token]):
        self.found: List[Binding] = []
        self.scope: Dict[str, Binding] = {}
        self.outer: Dict[str, Binding] = {}
        self.callees: List[Optional[Binding]] = []
        super().__init__(tokens)

    def bind(self, number: int, sort: str) -> Binding:
        """Takes a token as the name of a binding, which hides an older one of this name."""
        binding = Binding(self.tokens[number].name, sort, number)
        self.found.append(binding)
        self.scope[binding.name] = binding
        return binding

    def use(self, number: int) -> None:
        """Takes a token as a use of the binding of its name, if that is of its sort: a def is called, a value is not."""
        token = self.tokens[number]
        binding = self.scope.get(token.name)
        if binding and (binding.sort == "def") == (token.kind == "open"):
            binding.uses.append(number)

    def binding(self) -> None:
        number = self.at
        super().binding()
        self.bind(number, "value")

    def definition(self) -> None:
        number, outer, begun = self.at + 1, self.scope, len(self.found)
        self.outer, self.scope = outer, dict(outer)
        super().definition()
        self.scope = outer
        parameters = [one for one in self.found[begun:] if one.sort == "parameter"]
        self.bind(number, "def").labels = {one.name: one for one in parameters if self.tokens[one.number - 1].text == "~"}

    def parameter(self) -> None:
        """A default is read among the names that were bound before the def."""
        is_labelled, number = self.take("~"), self.at
        self.need_kind("name")
        if is_labelled and self.take("="):
            inner, self.scope = self.scope, self.outer
            self.value()
            self.scope = inner
        self.bind(number, "parameter")

    def operand(self) -> None:
        if self.is_kind("name"):
            self.use(self.at)
        super().operand()

    def call(self) -> None:
        self.use(self.at)
        binding = self.scope.get(self.tokens[self.at].name)
        self.callees.append(binding if binding and binding.sort == "def" else None)
        super().call()
        self.callees.pop()

    def argument(self) -> None:
        callee = self.callees[-1]
        if self.is_binding() and callee and self.tokens[self.at].text in callee.labels:
            callee.labels[self.tokens[self.at].text].uses.append(self.at)
        super().argument()


def token_round(script: Script, at: int) -> Optional[int]:
    """The number of the token in which a character stands, or which ends there; a name goes before what stands behind it."""
    number = bisect_right(script.places, at) - 1
    for one in (number, number - 1):
        token = script.token(one)
        if token is not None and token.kind in ("name", "open") and token.at <= at <= token.at + len(token.name):
            return one
    return None


def binding_at(script: Script, at: int) -> Optional[Binding]:
    """The binding that the name at a character means or makes, or nothing."""
    number = token_round(script, at)
    if number is None:
        return None
    return next((one for one in Names(script.tokens).found if number in one.places), None)


def scope_at(script: Script, number: int) -> Dict[str, Binding]:
    """The names that may be used at a token."""
    return Names(script.tokens[:number]).scope
