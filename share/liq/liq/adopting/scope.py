"""The names of a script of Liquidsoap: which are bound to values, which to functions, and which to a plain text."""
import re
from dataclasses import dataclass, field
from typing import Dict, List, Set

from liq.adopting.tree import Node, Statement, Tree

PLAIN = re.compile(r"\"(?:\\[\"'\\]|[^\"\\\x00-\x1f\x7f\udc80-\udcff])*\""
                   r"|'(?:\\[\"'\\]|[^'\\\x00-\x1f\x7f\udc80-\udcff])*'")


@dataclass
class Scope:
    """The names of a script, and of a def the names of its parameters."""
    values: Set[str] = field(default_factory=set)
    defs: Dict[str, Statement] = field(default_factory=dict)
    texts: Dict[str, str] = field(default_factory=dict)
    told: Set[str] = field(default_factory=set)                # names whose values were written where they are read
    nodes: Dict[str, Node] = field(default_factory=dict)       # the value that each name has last
    others: Set[str] = field(default_factory=set)              # new names for values that have one in the old script

    def inner(self, statement: Statement, tree: Tree) -> "Scope":
        """The names within a def."""
        found = Scope(set(self.values), dict(self.defs), dict(self.texts), self.told, dict(self.nodes))
        for parameter in statement.parameters:
            name = parameter.label.lstrip("~?")
            found.values.add(name)
            found.texts.pop(name, None)
            found.nodes.pop(name, None)
        bind(found, statement.body, tree)
        return found


def is_plain(text: str) -> bool:
    """Whether a text with its quotes is one here as well, and means the same."""
    return bool(PLAIN.fullmatch(text)) and "#{" not in text


def content(text: str) -> str:
    """A plain text without its quotes and backslashes."""
    return re.sub(r"\\(.)", r"\1", text[1:-1])


def quoted(text: str) -> str:
    """A text in quotes."""
    return '"' + text.replace("\\", "\\\\").replace('"', '\\"') + '"'


def as_def(statement: Statement) -> None:
    """Makes a def of a name that is bound to a function."""
    value = statement.value
    if statement.kind == "bind" and value is not None and value.kind == "fun" and value.parts:
        statement.kind, statement.parameters, statement.body = "def", value.parameters, value.parts


def bind(scope: Scope, statements: List[Statement], tree: Tree) -> None:
    """Adds what statements bind."""
    several = set()
    for statement in statements:
        as_def(statement)
        if statement.kind == "def":
            scope.defs[statement.name] = statement
        elif statement.kind == "bind" and statement.value is not None:
            if statement.name in scope.values:
                several.add(statement.name)
            scope.values.add(statement.name)
            scope.nodes[statement.name] = statement.value
            raw = tree.raw(statement.value)
            if statement.value.kind == "text" and is_plain(raw):
                scope.texts[statement.name] = content(raw)
            elif statement.value.kind == "name" and statement.value.name in scope.texts:
                scope.texts[statement.name] = scope.texts[statement.value.name]
            else:
                several.add(statement.name)
    for name in several:
        scope.texts.pop(name, None)


def scope_of(tree: Tree) -> Scope:
    """The names of a whole script."""
    found = Scope()
    bind(found, tree.statements, tree)
    return found
