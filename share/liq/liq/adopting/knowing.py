"""What is known of the names of a script of Liquidsoap while it is read: the values that they are bound to."""
import bisect
from dataclasses import dataclass
from typing import Dict, Iterator, List, Optional, Set, Tuple, Union

from liq.adopting.scope import content, is_plain
from liq.adopting.tree import Node, Statement, Tree

DEEPEST = 40           # names that are followed one behind the other
Local = Dict[str, Optional["Bound"]]


@dataclass
class Bound:
    """A value that is known: a part of the script with the names in it, or a list or tuple of such, or a text that is
    written out already. `is_part`: it is a call of an output, of which only a part of the arguments is given."""
    node: Optional[Union[Node, Statement]]
    env: "Env"
    items: Optional[List["Bound"]] = None
    text: Optional[str] = None
    is_part: bool = False


class Names:
    """What each name is bound to, one binding behind the other."""

    def __init__(self) -> None:
        self.step = 0
        self.found: Dict[str, Tuple[List[int], List[Optional[Bound]]]] = {}
        self.others: Dict[str, List[Tuple[int, str]]] = {}

    def bind(self, name: str, bound: Optional[Bound]) -> None:
        """Binds a name; to nothing that is known where `bound` is nothing."""
        self.step += 1
        steps, values = self.found.setdefault(name, ([], []))
        steps.append(self.step)
        values.append(bound)

    def get(self, name: str, step: int) -> Optional[Bound]:
        """What a name is bound to at a step."""
        steps, values = self.found.get(name, ([], []))
        number = bisect.bisect_right(steps, step) - 1
        return values[number] if number >= 0 else None


    def call_otherwise(self, name: str, other: str) -> None:
        """What a name is bound to up to here has another name, too, which holds it when the first is bound anew."""
        self.others.setdefault(name, []).append((self.step, other))

    def other(self, name: str, step: int) -> Optional[str]:
        """The name that still has what another one was bound to at a step; nothing where the other one has it."""
        return next((other for last, other in self.others.get(name, ()) if last >= step), None)


class Env:
    """The names at a place: those of the script up to a step, and those of a function round it."""

    def __init__(self, names: Names, step: int, local: Optional[Local] = None) -> None:
        self.names, self.step, self.local = names, step, local or {}

    def get(self, name: str) -> Optional[Bound]:
        """What a name is bound to here, or nothing."""
        return self.local[name] if name in self.local else self.names.get(name, self.step)

    def within(self, more: Local) -> "Env":
        """The names within a function."""
        return Env(self.names, self.step, {**self.local, **more})


class Knowing:
    """Finds out what values are."""

    def __init__(self, tree: Tree) -> None:
        self.tree = tree

    def resolved(self, node: Optional[Node], env: Env, deep: int = 0) -> Bound:
        """The value that a node stands for, as far as it is known; else the node itself."""
        here = Bound(node, env)
        if node is None or deep > DEEPEST:
            return here
        if node.kind == "paren" and len(node.args) == 1 and node.args[0].value.kind != "op":
            return self.resolved(node.args[0].value, env, deep + 1)
        if node.kind == "name":
            return self.named(node, env, here, deep)
        if node.kind == "op" and self.tree.word(node.first) == "!" and len(node.parts) == 1:
            inner = self.resolved(node.parts[0], env, deep + 1)
            if inner.items is not None:
                return inner
            held = self.held(inner)
            return self.followed(held, deep) if held else here
        if node.kind == "call" and node.name == "null.get" and len(node.args) == 1:
            return self.resolved(node.args[0].value, env, deep + 1)
        if node.kind == "call" and node.name in ("fst", "snd") and len(node.args) == 1:
            items = self.items(node.args[0].value, env)
            return self.followed(items[int(node.name == "snd")], deep) if items and len(items) > 1 else here
        return here

    def followed(self, bound: Bound, deep: int = 0) -> Bound:
        """What a value stands for."""
        if isinstance(bound.node, Node) and bound.items is None and bound.text is None:
            return self.resolved(bound.node, bound.env, deep + 1)
        return bound

    def named(self, node: Node, env: Env, here: Bound, deep: int) -> Bound:
        """What a name stands for: its value, or the field of a record."""
        head, *rest = node.name.split(".")
        bound = env.get(head) if rest else env.get(node.name)
        for field in rest:
            bound = self.fields(self.followed(bound, deep)).get(field) if bound else None
        return self.followed(bound, deep) if bound else here

    def held(self, bound: Bound) -> Optional[Bound]:
        """What a reference holds at first, or nothing where it is none."""
        node = bound.node
        if not isinstance(node, Node):
            return None
        if node.kind == "call" and node.name == "ref" and len(node.args) == 1:
            return Bound(node.args[0].value, bound.env)
        if node.kind == "op" and self.tree.word(node.first) == "ref" and len(node.parts) == 1:
            inner = node.parts[0]
            return Bound(inner.args[0].value if inner.kind == "paren" else inner, bound.env)
        if node.kind == "raw" and self.tree.word(node.first) == "ref" and self.tree.word(node.first + 1) == "(":
            items = list(self.tree.items(node.first + 1))
            return Bound(self.tree.value(*items[0]), bound.env) if len(items) == 1 else None
        return None

    def fields(self, bound: Bound) -> Dict[str, Bound]:
        """The fields of a record, or of what is put on a source."""
        node = bound.node
        if not isinstance(node, Node):
            return {}
        brace = node.first
        if node.kind == "method" and node.name == "{":
            brace = next((k for k in range(node.first, node.behind) if self.tree.word(k) == "." and
                          self.tree.word(k + 1) == "{"), node.first) + 1
        if self.tree.word(brace) != "{" or self.tree.word(brace + 2) != "=":
            return {}
        found = {}
        for first, behind in self.tree.items(brace):
            if self.tree.word(first + 1) == "=":
                found[self.tree.word(first)] = Bound(self.tree.value(first + 2, behind), bound.env)
        return found

    def items(self, node: Node, env: Env) -> Optional[List[Bound]]:
        """The items of a list or a tuple that is written out, or nothing."""
        bound = self.resolved(node, env)
        if bound.items is not None:
            return bound.items
        value = bound.node
        if not isinstance(value, Node) or value.kind not in ("list", "tuple"):
            return None
        found: List[Bound] = []
        for one in value.args:
            spread = spread_in(self.tree, one.value)
            inner = self.items(spread, bound.env) if spread is not None else [Bound(one.value, bound.env)]
            if inner is None:
                return None
            found += inner
        return found

    def text(self, bound: Bound) -> Optional[str]:
        """The text that a value is, or the digits of a number, or nothing."""
        bound = self.followed(bound)
        node = bound.node
        if not isinstance(node, Node):
            return bound.text if bound.text is not None and bound.text.isdigit() else None
        raw = self.tree.raw(node)
        if node.kind == "text" and is_plain(raw):
            return content(raw)
        if node.kind == "op" and "^" in {self.tree.word(k) for k in range(node.first, node.behind)}:
            found = [self.text(Bound(part, bound.env)) for part in node.parts]
            return None if None in found else "".join(filter(None, found))
        if node.kind == "call" and node.name in ("string_of", "string", "string_of_int") and len(node.args) == 1:
            return self.text(Bound(node.args[0].value, bound.env))
        return raw if node.kind in ("int", "number") else None

    def truth(self, node: Node, env: Env) -> Optional[bool]:
        """Whether a condition holds, or nothing where that is not known."""
        bound = self.resolved(node, env)
        value = bound.node
        if not isinstance(value, Node):
            return None
        if value.kind == "bool":
            return value.name == "true"
        if value.kind == "paren":
            return self.truth(value.args[0].value, bound.env)
        if value.kind == "call" and value.name == "null.defined" and len(value.args) == 1:
            return self.is_there(self.resolved(value.args[0].value, bound.env))
        if value.kind == "call" and value.name == "not" or value.kind == "op" and self.tree.word(value.first) == "not":
            inner = self.truth(value.parts[0], bound.env) if len(value.parts) == 1 else None
            return None if inner is None else not inner
        return self.compared(value, bound.env)

    def compared(self, node: Node, env: Env) -> Optional[bool]:
        """Whether a comparison of two values holds that are known."""
        if node.kind != "op" or len(node.parts) != 2:
            return None
        sign = self.tree.word(node.parts[0].behind)
        if sign in ("and", "or"):
            both = [self.truth(part, env) for part in node.parts]
            decides = sign == "or"
            if decides in both:
                return decides
            return None if None in both else not decides
        texts = [self.text(Bound(part, env)) for part in node.parts]
        if sign not in ("==", "!=") or None in texts:
            return None
        return (texts[0] == texts[1]) == (sign == "==")

    def is_there(self, bound: Bound) -> Optional[bool]:
        """Whether a value is there, and not `null()`; nothing where that is not known."""
        node = bound.node
        if bound.items is not None or bound.text is not None:
            return True
        if not isinstance(node, Node):
            return None
        if node.kind in ("call", "name") and node.name == "null":
            return node.kind == "call" and bool(node.args)
        return None if node.kind == "name" and node.name in bound.env.local else True

    def times(self, bound: Bound) -> Optional[Tuple[Node, Env]]:
        """The times that a def or a function without parameters has, or nothing."""
        node = bound.node
        if isinstance(node, Statement) and node.kind == "def" and not node.parameters and len(node.body) == 1:
            value = node.body[0].value
        elif isinstance(node, Node) and node.kind == "fun" and not node.parameters and len(node.parts) == 1:
            value = node.parts[0].value
        elif isinstance(node, Node) and node.kind == "braces" and len(node.parts) == 1:
            value = node.parts[0].value
        else:
            return None
        return (value, bound.env) if value is not None else None


def spread_in(tree: Tree, node: Node) -> Optional[Node]:
    """The list of which the items stand in another one by `...l`, or nothing where a value is no such item."""
    if node.kind == "op" and tree.word(node.first) == "..." and len(node.parts) == 1:
        inner: Node = node.parts[0]
        return inner
    return None


def taken_apart(tree: Tree) -> Set[str]:
    """The names of which the items are spread in a list, or that are handed to a function of lists."""
    found = set()
    for number, token in enumerate(tree.tokens):
        if token.kind == "name" and token.text.startswith("list.") and tree.word(number + 1) == "(":
            inner = range(number + 2, tree.mates[number + 1])
            found |= {tree.word(k) for k in inner if tree.tokens[k].kind == "name"}
        elif token.kind == "name" and tree.word(number - 1) == "...":
            found.add(token.text)
    return found


def walk(node: Optional[Node]) -> Iterator[Node]:
    """A value and all that stand in it, but not in statements."""
    if node is None:
        return
    yield node
    for one in node.args:
        yield from walk(one.value)
    for part in node.parts:
        for inner in part if isinstance(part, list) else [part]:
            yield from walk(inner if isinstance(inner, Node) else inner.value)
