"""What is known when a script is read, written out: each statement of the old script as those that it stands for."""
import re
from dataclasses import dataclass, field
from typing import Any, Dict, Iterator, List, Optional, Set, Tuple

from liq.adopting.classes import MAY_STOP, SOURCE, classes
from liq.adopting.conditions import branches
from liq.adopting.knowing import Bound, Env, Knowing, Local, Names, spread_in, taken_apart, walk
from liq.adopting.marks import mark, plain
from liq.adopting.notes import LESS, SAME, YOU, Note
from liq.adopting.outputs import bare_of, is_output
from liq.adopting.scope import as_def, quoted
from liq.adopting.tree import Argument, Node, Statement, Tree

MOST = 400             # calls of functions that are written out
LONGEST = 1 << 20      # characters of a script
MOST_TURNS = 60        # rounds of a `for` that are written out
DEEPEST = 12           # functions that are written out within each other
# What a def has in it that is written out where it is called, since it has no form here.
UNSAID = re.compile(r"#\{|\bnull\b|\blist\.|\bfst\b|\bsnd\b|\bmode\s*=\s*[a-z_]+\b|weights\s*=\s*\[[^\]]*[a-z]|\bprefix\s*=\s*[a-z]")
RUNS = re.compile(r"\bref\b|\bthread\.|:=|\bwhile\b|\bserver\.|\bprocess\.|\blog\b")
ATOMS = ("name", "text", "int", "number", "bool", "format", "time")
SWITCHES = ("switch", "at", "source.available", "mkavailable")
# What is worth a look: a script without any of these stays as it is.
WORTH = re.compile(r"%if|\blist\.|\bnull\b|\bfst\b|\bsnd\b|\bref\b|\blet\b|\bdef\b|\bfun\b|\bpredicate\.|interactive\."
                   r"|output\.|\{[^}]*=|\bif\b|\bfor\b|\bbegin\b")


@dataclass
class Units:
    """Statements with marks, each with the number of that of the old script from which it comes, and what is noted;
    `told` are names whose values were written where they are read, and `others` new names for values that have one."""
    texts: List[str]
    homes: List[int]
    notes: List[Note] = field(default_factory=list)
    told: Set[str] = field(default_factory=set)
    others: Set[str] = field(default_factory=set)


class TooMuch(Exception):
    """More would be written out than is worth it."""


class Unfolder:
    """Goes through the statements of a script from the first on."""

    def __init__(self, tree: Tree) -> None:
        self.tree, self.knowing, self.names = tree, Knowing(tree), Names()
        self.classes = classes()
        self.units = Units([], [])
        self.above: List[str] = []             # statements that have to stand before the one that is written
        self.used = {token.text for token in tree.tokens if token.kind == "name"}
        self.calls, self.deep, self.length = 0, 0, 0
        self.taken_apart = taken_apart(tree)
        self.read_within: Dict[str, int] = {}  # where the last def is that reads a name and is written out where it is called
        self.assigned = {token.text for token, after in zip(tree.tokens, tree.tokens[1:]) if after.text == ":="}

    # Statements.

    def run(self) -> Units:
        """All statements."""
        numbers = {id(one): number for number, one in enumerate(self.tree.statements)}
        for statement, is_taken in branches(self.tree, self.tree.statements):
            home = numbers[id(statement)]
            if is_taken:
                self.put(home, self.statement(statement, self.env()))
            elif statement.kind == "directive" and statement.name.startswith("%if"):
                self.note(LESS, statement, f"`{self.short(statement)}` is decided by what Liquidsoap 2.1 has")
        return self.units

    def env(self) -> Env:
        """The names up to here."""
        return Env(self.names, self.names.step)

    def put(self, home: int, texts: List[str]) -> None:
        """Adds statements that stand for one of the old script."""
        self.length += sum(map(len, texts))
        if self.length > LONGEST:
            raise TooMuch()
        self.units.texts += texts
        self.units.homes += [home] * len(texts)

    def note(self, sort: str, part: "Node | Statement | Argument", what: str) -> None:
        """Notes something at a place of the old script."""
        self.units.notes.append(Note(self.tree.at(part), sort, " ".join(what.split())))

    def short(self, part: "Node | Statement | Argument") -> str:
        """A part in a few letters."""
        text = " ".join(self.tree.raw(part).split())
        return text if len(text) <= 48 else text[:46] + ".."

    def statement(self, statement: Statement, env: Env) -> List[str]:
        """The statements that stand for one, which binds its name."""
        before, self.above = self.above, []
        try:
            text = self.said(statement, env)
            return [*self.above, *([mark(self.tree.at(statement)) + text] if text is not None else [])]
        finally:
            self.above = before

    def said(self, statement: Statement, env: Env) -> Optional[str]:
        """The text of a statement, or nothing where those above it are all."""
        as_def(statement)
        if statement.kind == "def":
            return self.definition(statement, env)
        if statement.kind == "bind" and statement.value is not None:
            return self.binding(statement, statement.value, env)
        if self.tree.word(statement.first) == "let" and self.pattern(statement, env):
            return None
        if self.tree.word(statement.first) == "for" and self.turns(statement, env):
            return None
        if statement.kind == "other" and self.tree.word(statement.first + 1) == ":=" and statement.value is not None:
            self.assign(statement, env)
            return self.tree.said(statement)
        if statement.kind == "directive" or statement.value is None:
            return self.tree.said(statement)
        return self.call_statement(statement, statement.value, env)

    def call_statement(self, statement: Statement, value: Node, env: Env) -> Optional[str]:
        """A statement that is a value: of a known `if` the branch, of `list.iter` each call."""
        if value.kind == "if":
            taken = self.branch(value, env)
            if taken is not None:
                for step in taken:
                    self.above += self.statement(step, env)
                return None
        if value.kind == "call" and value.name == "list.iter" and len(value.args) == 2:
            items = self.knowing.items(value.args[1].value, env)
            if items is not None:
                found = [self.applied(value.args[0].value, env, item) for item in items]
                self.above += [text for text in found if text is not None]
                return None
        return self.emit(value, env)

    def definition(self, statement: Statement, env: Env) -> Optional[str]:
        """A def, which is written out where it is called, or with its own steps written out."""
        raw, row = self.tree.raw(statement), self.classes.of(statement.name)
        if row and row.edit in (SOURCE, MAY_STOP) and (UNSAID.search(raw) or "source.tracks" in raw or "fun" in raw):
            self.note(LESS, statement, f"`def {statement.name}` is left out: its calls are read as the word of Liquidsoap, "
                      "of which the source stays")
            self.names.bind(statement.name, None)
            return None
        local: Local = {one.label.lstrip("~?"): None for one in statement.parameters}
        self.names.bind(statement.name, Bound(statement, env))
        if self.is_written_out(Bound(statement, env)):
            tokens = self.tree.tokens[statement.first:statement.behind]
            self.read_within.update({token.text: self.names.step for token in tokens if token.text not in local})
        if not WORTH.search(raw.partition("=")[2]):
            return self.tree.said(statement)
        return self.steps_said(statement, env.within(local))

    def steps_said(self, statement: Statement, env: Env) -> str:
        """A def in which each step is written out."""
        tree, parts, place = self.tree, [], self.tree.at(statement)
        local: Local = {**dict.fromkeys(self.assigned), **env.local}       # it runs when these may have other values
        for step in statement.body:
            inner = Env(env.names, env.step, local)
            texts = self.step(step, inner)
            parts += [tree.cut_out(place, tree.at(step)), "\n".join(texts)]
            place = tree.tokens[step.behind - 1].behind
            if step.kind in ("bind", "def"):
                local = {**local, step.name: None}
        return "".join(parts) + tree.cut_out(place, tree.tokens[statement.behind - 1].behind)

    def step(self, step: Statement, env: Env) -> List[str]:
        """A step of a def that stays: its value is written out, and it binds no name of the script."""
        before, self.above = self.above, []
        try:
            if step.value is None or step.kind in ("def", "directive") or self.tree.word(step.first) in ("let", "for"):
                return [self.tree.said(step)]
            front = self.tree.cut_out(self.tree.at(step), self.tree.at(step.value))
            text = front + self.emit(step.value, env)
            return [*self.above, text]
        finally:
            self.above = before

    def binding(self, statement: Statement, value: Node, env: Env) -> Optional[str]:
        """A name that is bound: to what is known of it, or to itself."""
        name = statement.name
        if self.is_partial(value, env):
            self.names.bind(name, Bound(value, env, is_part=True))
            self.note(SAME, statement, f"`{name}` is a part of an output: its arguments are written where it is called")
            return None
        if name in self.taken_apart and (value.kind == "list" or value.kind == "call" and value.name.startswith("list.")):
            return self.each_bound(statement, value, env)
        bound = self.knowing.resolved(value, env)
        text = self.emit(value, env)
        self.keep_name(name)
        self.names.bind(name, self.kept(bound, value, env))
        return self.tree.cut_out(self.tree.at(statement), self.tree.at(value)) + text

    def keep_name(self, name: str) -> None:
        """Before a name is bound anew that a def reads which is written out behind: another name for what it is now."""
        if self.read_within.pop(name, None) is not None and name in self.names.found:
            other = self.fresh(name)
            self.units.others.add(other)
            self.above.append(f"{other} = {name}")
            self.names.call_otherwise(name, other)

    def each_bound(self, statement: Statement, value: Node, env: Env) -> str:
        """A list that is taken apart behind: each source in it is bound by itself, as a call that stands twice is two."""
        items = self.listed(value, env)
        if items is None:
            self.names.bind(statement.name, None)
            return self.tree.cut_out(self.tree.at(statement), self.tree.at(value)) + self.emit(value, env)
        made = [item if self.is_plain(item) else self.bound_above(statement.name, item) for item in items]
        self.names.bind(statement.name, Bound(value, env, made))
        return f"{statement.name} = [{', '.join(map(self.written, made))}]"

    def kept(self, bound: Bound, value: Any, env: Env) -> Optional[Bound]:
        """What is to be known of a name: a list, a record, a function, a reference, or a plain value; of a source
        nothing, since a call that stands twice is two sources."""
        node = bound.node
        items = self.knowing.items(value, env) or self.listed(value, env)
        if items is not None and all(self.is_plain(item) for item in items):
            return Bound(node, bound.env, items)
        if isinstance(node, Statement) or not isinstance(node, Node):
            return bound if isinstance(node, Statement) else None
        if node.kind in ("fun", "text", "int", "number", "bool", "format") or self.knowing.held(bound):
            return bound
        if node.kind == "op" and self.knowing.text(bound) is not None:
            return bound
        if node.kind in ("braces", "method") and (self.knowing.fields(bound) or node.kind == "braces"):
            return bound
        if node.kind in ("call", "name") and (node.name == "null" or node.name.startswith("interactive.")):
            return bound
        return None

    def is_plain(self, bound: Bound) -> bool:
        """Whether a value may stand several times: a name, a text, a number, or a tuple of such."""
        if bound.text is not None:
            return re.fullmatch(r"[\w.]+", re.sub("[\ud800-\udbff]", "", bound.text)) is not None
        node = bound.node
        if isinstance(node, Node) and node.kind == "tuple":
            return all(self.is_plain(Bound(one.value, bound.env)) for one in node.args)
        return isinstance(node, Node) and (node.kind in ATOMS or node.kind == "call" and node.name == "null" and not node.args)

    def pattern(self, statement: Statement, env: Env) -> bool:
        """Whether `let (a, b) = ..` or `let [a, b] = ..` was written as a binding of each."""
        tree, place = self.tree, statement.first + 1
        if tree.word(place) not in ("(", "["):
            return False
        names = ["".join(map(tree.word, range(*span))) for span in tree.items(place)]
        sign = tree.next(place)
        items = self.knowing.items(tree.value(sign + 1, statement.behind), env) if tree.word(sign) == "=" else None
        if items is not None and names and names[-1].startswith("...") and len(items) >= len(names) - 1:
            rest = [item if self.is_plain(item) else self.bound_above(names[-1][3:], item) for item in items[len(names) - 1:]]
            names[-1], items = names[-1][3:], [*items[:len(names) - 1], Bound(None, env, rest)]
        if items is None or len(items) != len(names):
            return False
        for name, item in zip(names, items):
            if name == "_":
                continue
            self.above.append(f"{name} = {self.written(item)}")
            is_node = isinstance(item.node, Node) and item.items is None and item.text is None
            self.names.bind(name, self.kept(self.knowing.followed(item), item.node, item.env) if is_node else item)
        self.note(SAME, statement, f"`{self.short(statement)}` is written as a binding of each name")
        return True

    def turns(self, statement: Statement, env: Env) -> bool:
        """Whether the rounds of a `for` were written out."""
        match = re.match(r"for\s+(\w+)\s*=\s*(\d+)\s+to\s+(\d+)\s+do\b", self.tree.raw(statement))
        place = next((k for k in range(statement.first, statement.behind) if self.tree.word(k) == "do"), None)
        if not match or place is None or not 0 <= int(match[3]) - int(match[2]) < MOST_TURNS:
            return False
        body = self.tree.block(place + 1, statement.behind - 1)
        if not all(step.value is not None and (step.kind == "call" or self.is_assigned(step)) for step in body):
            return False
        for number in range(int(match[2]), int(match[3]) + 1):
            for step in body:
                self.turn(step, self.env().within({match[1]: Bound(None, env, text=str(number))}))
        self.note(LESS, statement, f"`{self.short(statement)}` is written out")
        return True

    def is_assigned(self, step: Statement) -> bool:
        """Whether a statement is `x := ..`."""
        return step.kind == "other" and self.tree.word(step.first + 1) == ":="

    def turn(self, step: Statement, env: Env) -> None:
        """A step of a round."""
        if self.is_assigned(step):
            self.assign(step, env)
        elif step.value is not None:
            text = self.call_statement(step, step.value, env)
            self.above += [text] if text is not None else []

    def assign(self, statement: Statement, env: Env) -> None:
        """`x := ..`: what the reference holds from here on, each of its sources bound by itself."""
        value = statement.value
        items = self.listed(value, env) if value is not None else None
        if items is None:
            self.names.bind(statement.name, None)
            return
        made = [item if self.is_plain(item) else self.bound_above(statement.name, item) for item in items]
        held = Bound(None, env, made)
        self.names.bind(statement.name, held)

    def bound_above(self, front: str, item: Bound) -> Bound:
        """A value that is bound to a new name above the statement."""
        name = self.fresh(front)
        self.above.append(f"{name} = {self.written(item)}")
        return Bound(None, item.env, text=name)

    def fresh(self, front: str) -> str:
        """A name that nothing has."""
        front, number = front.replace(".", "_").replace("'", ""), 1
        while f"{front}_{number}" in self.used:
            number += 1
        self.used.add(f"{front}_{number}")
        return f"{front}_{number}"

    # Values.

    def written(self, bound: Bound) -> str:
        """The text of a value."""
        if bound.text is not None:
            return bound.text
        if bound.items is not None:
            return f"[{', '.join(self.written(item) for item in bound.items)}]"
        return self.emit(bound.node, bound.env) if isinstance(bound.node, Node) else "fail()"

    def emit(self, node: Node, env: Env) -> str:
        """A value with what is known of it written out."""
        made = self.known(node, env)
        if made is not None:
            return mark(self.tree.at(node)) + made
        return self.around(node, env)

    def around(self, node: Node, env: Env) -> str:
        """A value in which those within it are written out."""
        tree, parts, place = self.tree, [], self.tree.at(node)
        for inner in self.inner(node):
            at = tree.at(inner)
            if at < place:
                continue
            parts += [tree.cut_out(place, at), self.emit(inner, env)]
            place = tree.tokens[inner.behind - 1].behind
        return "".join(parts) + tree.cut_out(place, tree.tokens[node.behind - 1].behind)

    def inner(self, node: Node) -> Iterator[Node]:
        """The values right within one, from the first on. Functions and blocks stay as they are."""
        found = [one.value for one in node.args if one.value.first < one.value.behind]
        if node.kind in ("op", "method", "braces"):
            for part in node.parts:
                value = part if isinstance(part, Node) else part.value
                if value is not None and value.first < value.behind and self.tree.word(node.first + 2) != "=":
                    found.append(value)
        if node.kind == "if":
            found += [part[0].value for part in node.parts if len(part) == 1 and part[0].value is not None]
        return iter(sorted(found, key=lambda one: one.first))

    def known(self, node: Node, env: Env) -> Optional[str]:
        """What a value is written as, or nothing where it stays, but for what stands within it."""
        if node.kind == "name":
            return self.name(node, env)
        if node.kind == "text" and "#{" in self.tree.raw(node):
            return self.filled(node, env)
        if node.kind == "op":
            return self.op(node, env)
        if node.kind == "if":
            taken = self.branch(node, env)
            text = self.block(taken, env) if taken is not None else None
            if text is not None:
                self.note(SAME, node, f"of `{self.short(node)}` the part stays that is taken")
            return text
        if node.kind == "list" and any(spread_in(self.tree, one.value) is not None for one in node.args):
            items = self.listed(node, env)
            return f"[{', '.join(self.written(item) for item in items)}]" if items is not None else None
        if node.kind == "block" and node.name == "begin" and len(node.parts) > 1:
            return self.block(node.parts, env)
        return self.call(node, env) if node.kind == "call" else None

    def name(self, node: Node, env: Env) -> Optional[str]:
        """A name: that of a parameter or a field is written out."""
        head, *rest = node.name.split(".")
        if head in env.local and not rest:
            bound = env.local[head]
            return self.written(bound) if bound is not None else None
        other = self.names.other(head, env.step) if not rest and head not in env.local else None
        if other is not None:
            return other
        if rest and env.get(head) is not None:
            found = self.knowing.resolved(node, env)
            if found.node is not node and (found.text is not None or found.items is not None
                                           or isinstance(found.node, Node)):
                self.units.told.add(head)
                return self.written(found)
        return None

    def filled(self, node: Node, env: Env) -> Optional[str]:
        """A text in which what is known is filled in."""
        def value(match: "re.Match[str]") -> str:
            name = match[1]
            bound = self.knowing.resolved(Node("name", node.first, node.first, name), env)
            text = self.knowing.text(bound) if bound.node is None or getattr(bound.node, "name", "") != name else None
            if text is None or "\\" in text or '"' in text:
                return match[0]
            self.units.told.add(name.split(".")[0])
            return text
        made = re.sub(r"#\{\s*([A-Za-z_][\w.']*)\s*\}", value, self.tree.raw(node))
        if made != self.tree.raw(node) and not env.local:
            self.note(SAME, node, f"the text {self.short(node)} is filled in: {made}")
        return made

    def op(self, node: Node, env: Env) -> Optional[str]:
        """`!x`, which is what the reference holds at first, `x ?? y`, and texts that are joined."""
        word = self.tree.word(node.first)
        if word == "!" and len(node.parts) == 1:
            bound = self.knowing.resolved(node.parts[0], env)
            held = bound if bound.items is not None else self.knowing.held(bound)
            if held is not None:
                self.note(LESS, node, f"`{self.short(node)}` has the value that it has at first")
                self.units.told.add(node.parts[0].name)
                return self.written(held)
        if len(node.parts) == 2 and self.tree.word(node.parts[0].behind) == "??":
            is_there = self.knowing.is_there(self.knowing.resolved(node.parts[0], env))
            if is_there is None:
                return None
            self.note(SAME, node, f"`{self.short(node)}` is its {'first' if is_there else 'second'} value")
            return self.emit(node.parts[int(not is_there)], env)
        text = self.knowing.text(Bound(node, env)) if env.local else None
        return quoted(text) if text is not None and "^" in self.tree.raw(node) else None

    def branch(self, node: Node, env: Env) -> Optional[List[Statement]]:
        """The branch of an `if` that is taken, or nothing where that is not known."""
        parts = node.parts
        for number in range(0, len(parts) - 1, 2):
            condition = parts[number][0].value if len(parts[number]) == 1 else None
            holds = self.knowing.truth(condition, env) if condition is not None else None
            if holds is None:
                return None
            if holds:
                taken: List[Statement] = parts[number + 1]
                return taken
        last: List[Statement] = parts[-1] if len(parts) % 2 else []
        return last

    def block(self, steps: List[Statement], env: Env) -> Optional[str]:
        """The value of statements, of which all but the last are bound above."""
        if not steps or steps[-1].value is None or steps[-1].kind == "bind":
            return None
        local: Local = {}
        for step in steps[:-1]:
            inner = env.within(local)
            if step.kind == "bind" and step.value is not None:
                name = self.fresh(step.name)
                self.above.append(f"{name} = {self.emit(step.value, inner)}")
                local[step.name] = Bound(None, env, text=name)
            elif step.kind == "call" and step.value is not None:
                text = self.call_statement(step, step.value, inner)
                if text is not None:
                    self.above.append(text)
            else:
                return None
        return self.emit(steps[-1].value, env.within(local))

    # Calls.

    def call(self, node: Node, env: Env) -> Optional[str]:
        """A call that is known: of a list, of a def that is written out, or a part of an output."""
        if node.name in ("list.map", "list.append", "list.add", "list.rev", "list.tl"):
            items = self.listed(node, env)
            return f"[{', '.join(self.written(item) for item in items)}]" if items is not None else None
        if node.name in ("fst", "snd", "null.get", "list.hd", "list.nth"):
            return self.picked(node, env)
        if node.name in SWITCHES:
            return self.timed(node, env)
        if node.name in ("rotate", "random"):
            return self.weighted(node, env)
        bound = env.get(node.name)
        if bound is None:
            return None
        if bound.is_part:
            return self.completed(node, bound, env)
        if self.is_written_out(bound) or isinstance(bound.node, Statement) and self.takes_record(node, env):
            return self.inlined(node, bound, env)
        if isinstance(bound.node, Node) and bound.node.name.startswith("interactive.") and not node.args:
            return self.default(bound)
        return None

    def default(self, bound: Bound) -> Optional[str]:
        """The value of what is asked for while it plays."""
        node = bound.node
        given = [one.value for one in node.args if one.label is None][1:] if isinstance(node, Node) else []
        return self.written(Bound(given[0], bound.env)) if given else None

    def listed(self, node: Node, env: Env, is_read: bool = False) -> Optional[List[Bound]]:
        """The items of a call that makes a list, or of a list that is known; with `is_read` of what a reference holds."""
        if node.kind == "list" and any(spread_in(self.tree, one.value) is not None for one in node.args):
            return self.spread(node, env)
        if node.kind != "call" or not node.name.startswith("list."):
            bound = self.knowing.resolved(node, env)
            held = self.knowing.held(bound) if is_read else None
            known = bound.items if bound.items is not None else self.knowing.items(node, env) if held is None \
                else self.knowing.items(held.node, held.env) if isinstance(held.node, Node) else None
            self.units.told.update([node.name] if known is not None and node.kind == "name" else [])
            return known
        values = [one.value for one in node.args if one.label is None]
        if node.name == "list.map" and len(values) == 2:
            items = self.listed(values[1], env)
            found = [self.applied(values[0], env, item) for item in items] if items is not None else None
            return None if found is None or None in found else [Bound(None, env, text=text) for text in found]
        if node.name == "list.append" and len(values) == 2:
            both = [self.listed(value, env) for value in values]
            return None if both[0] is None or both[1] is None else [*both[0], *both[1]]
        if node.name == "list.add" and len(values) == 2:
            rest = self.listed(values[1], env)
            return None if rest is None else [Bound(values[0], env), *rest]
        first = self.listed(values[0], env) if len(values) == 1 and node.name in ("list.rev", "list.tl") else None
        return None if first is None else first[::-1] if node.name == "list.rev" else first[1:]

    def spread(self, node: Node, env: Env) -> Optional[List[Bound]]:
        """The items of a list in which others are spread, or nothing where one of these is not known."""
        found: List[Bound] = []
        for one in node.args:
            inner = spread_in(self.tree, one.value)
            is_read = inner is not None and self.tree.word(inner.first - 1) == "!"
            items = self.listed(inner, env, is_read) if inner is not None else [Bound(one.value, env)]
            if items is None:
                return None
            found += items
        return found

    def picked(self, node: Node, env: Env) -> Optional[str]:
        """An item of a list or a tuple."""
        values = [one.value for one in node.args if one.label is None]
        if node.name in ("fst", "snd", "null.get"):
            bound = self.knowing.resolved(node, env)
            return self.written(bound) if bound.node is not node else None
        items = self.listed(values[0], env) if values else None
        place = self.knowing.text(Bound(values[1], env)) if len(values) == 2 else "0"
        if items is None or place is None or not place.isdigit() or int(place) >= len(items):
            return None
        return self.written(items[int(place)])

    def applied(self, function: Node, env: Env, item: Bound) -> Optional[str]:
        """A function of one value."""
        bound = self.knowing.resolved(function, env)
        if isinstance(bound.node, Node) and bound.node.kind == "fun" and len(bound.node.parameters) == 1:
            label = bound.node.parameters[0].label
            return self.block(bound.node.parts, bound.env.within({label: self.atom(label, item)}))
        if function.kind != "name":
            return None
        found = env.get(function.name)
        if found is not None and self.is_written_out(found) and isinstance(found.node, Statement) \
                and len(found.node.parameters) == 1:
            label = found.node.parameters[0].label
            return self.body(found.node, found.env.within({label: self.atom(label, item)}))
        return f"{function.name}({self.written(item)})"

    def atom(self, label: str, bound: Bound) -> Bound:
        """A value that may stand several times: itself, or a new name that is bound to it above."""
        if self.is_plain(bound) or isinstance(bound.node, Node) and bound.node.kind in ("fun", "braces", "list", "tuple") \
                or bound.items is not None:
            return bound
        return self.bound_above(label.lstrip("~?"), bound)

    def is_written_out(self, bound: Bound) -> bool:
        """Whether a def is written out where it is called: its text has no form here."""
        node = bound.node
        if not isinstance(node, Statement) or node.kind != "def" or not node.body:
            return False
        raw = self.tree.raw(node)
        if RUNS.search(raw):
            return False
        outputs = sum(self.is_output_call(inner, bound.env) for step in node.body for inner in walk(step.value))
        is_given = any(re.search(rf"\b{re.escape(one.label.lstrip('~?'))}\s*(\(|,\s*[a-z_]+\s*\))", raw.partition("=")[2])
                       and "switch" in raw for one in node.parameters)
        return bool(UNSAID.search(raw)) or outputs > 1 or is_given or any(
            self.is_output_call(inner, bound.env) for step in node.body[:-1] for inner in walk(step.value)) \
            or node.body[-1].value is None or any(self.is_part(inner, bound.env) for inner in walk(node.body[-1].value))

    def is_part(self, node: Node, env: Env) -> bool:
        """Whether a value is a call of an output of which a part was given before."""
        before = env.get(node.name) if node.kind == "call" else None
        return before is not None and before.is_part

    def is_output_call(self, node: Node, env: Env) -> bool:
        """Whether a value is a call of an output."""
        return node.kind == "call" and is_output(node.name) or self.is_part(node, env)

    def takes_record(self, node: Node, env: Env) -> bool:
        """Whether a record is given to a call: its fields have no form here, so that the def is written out."""
        records = [one.value for one in node.args if self.knowing.fields(self.knowing.resolved(one.value, env))]
        self.units.told.update(value.name for value in records if value.kind == "name")
        return bool(records)

    def inlined(self, node: Node, bound: Bound, env: Env) -> Optional[str]:
        """A call of a def, written out."""
        statement = bound.node
        assert isinstance(statement, Statement)
        bare = [one.value for one in node.args if one.label is None]
        local: Local = {}
        for one in statement.parameters:
            name = one.label.lstrip("~?")
            given = next((arg.value for arg in node.args if arg.label == name), None) if one.label[0] in "~?" else \
                bare.pop(0) if bare else None
            value = Bound(given, env) if given is not None else Bound(one.value, bound.env) if one.value is not None else None
            if value is None or not isinstance(value.node, Node):
                return None
            local[name] = self.atom(name, self.known_bound(value))
        return self.body(statement, bound.env.within(local))

    def known_bound(self, bound: Bound) -> Bound:
        """What is known of an argument, where that is a list, a record or a function; else itself."""
        found = self.knowing.followed(bound)
        return found if found.items is not None or isinstance(found.node, Statement) or isinstance(found.node, Node) \
            and found.node.kind in ("fun", "braces", "list", "tuple", "text", "int", "number", "bool") \
            or isinstance(found.node, Node) and found.node.name == "null" else bound

    def body(self, statement: Statement, env: Env) -> Optional[str]:
        """The steps of a def, of which all but the last stand above."""
        self.units.told.add(statement.name)
        self.calls, self.deep = self.calls + 1, self.deep + 1
        if self.calls > MOST:
            raise TooMuch()
        try:
            return self.block(statement.body, env) if self.deep <= DEEPEST else None
        finally:
            self.deep -= 1

    def weighted(self, node: Node, env: Env) -> Optional[str]:
        """`rotate` and `random`, of which names of weights are written out."""
        weights = next((one.value for one in node.args if one.label == "weights"), None)
        items = self.listed(weights, env) if weights is not None else None
        if weights is None or items is None:
            return None
        texts = [self.knowing.text(item) for item in items]
        if None in texts or texts == [self.tree.raw(one.value) for one in weights.args]:
            return None
        self.units.told.update(inner.name.split(".")[0] for inner in walk(weights) if inner.kind == "name")
        return self.respliced(node, env, {id(weights): f"[{', '.join(filter(None, texts))}]"})

    def respliced(self, node: Node, env: Env, made: Dict[int, str]) -> str:
        """A value in which some of those within it have new texts, and the others are written out."""
        tree, parts, place = self.tree, [], self.tree.at(node)
        for one in node.args:
            at = tree.at(one.value)
            parts += [tree.cut_out(place, at), made.get(id(one.value)) or self.emit(one.value, env)]
            place = tree.tokens[one.value.behind - 1].behind
        return "".join(parts) + tree.cut_out(place, tree.tokens[node.behind - 1].behind)

    # Predicates.

    def timed(self, node: Node, env: Env) -> Optional[str]:
        """A switch, or a source at some times, of which the predicates are written out."""
        made: Dict[int, str] = {}
        for one in node.args:
            value = one.value
            if node.name == "switch" and value.kind == "list":
                made[id(value)] = self.pairs(value, env)
            elif node.name != "switch" and value.kind in ("braces", "call", "name", "fun"):
                text = self.predicate(value, env)
                if text is not None:
                    made[id(value)] = text
        return self.respliced(node, env, made)

    def pairs(self, node: Node, env: Env) -> str:
        """The pairs of a switch."""
        tree, parts, place = self.tree, [], self.tree.at(node)
        for one in node.args:
            pair = one.value
            at = tree.at(pair)
            is_pair = pair.kind == "tuple" and len(pair.args) == 2
            times = self.predicate(pair.args[0].value, env) if is_pair else None
            text = self.respliced(pair, env, {id(pair.args[0].value): times}) if times is not None else self.emit(pair, env)
            parts += [tree.cut_out(place, at), text]
            place = tree.tokens[pair.behind - 1].behind
        return "".join(parts) + tree.cut_out(place, tree.tokens[node.behind - 1].behind)

    def predicate(self, node: Node, env: Env) -> Optional[str]:
        """A predicate by times, or nothing where it is not known."""
        if node.kind == "call" and node.name.startswith("predicate."):
            inner = [one.value for one in node.args if one.value.kind in ("braces", "name", "call", "fun")]
            text = self.predicate(inner[-1], env) or self.as_it_stands(inner[-1], env) if inner else None
            if text is not None:
                self.note(LESS, node, f"`{node.name}(..)` is left out, its times stay: they hold without its rule")
            return text
        if node.kind == "braces" and len(node.parts) == 1 and node.parts[0].value is not None:
            text = self.condition(node.parts[0].value, env)
            is_same = text is None or plain(text) == self.tree.raw(node.parts[0].value)
            return None if is_same else f"{{{text}}}"
        if node.kind in ("name", "fun", "call"):
            bound = self.knowing.resolved(node, env) if node.kind != "call" else Bound(node, env)
            times = self.knowing.times(bound if bound.node is not node else env.get(node.name) or bound)
            if times is not None:
                text = self.condition(*times)
                self.units.told.add(node.name)
                return f"{{{text}}}" if text is not None else None
            if node.kind == "name" and isinstance(bound.node, Node) and bound.node.name.startswith("interactive."):
                text = self.default(bound)
                self.units.told.add(node.name)
                self.note(LESS, node, f"`{node.name}` has the value that it has at first")
                return f"{{{text}}}" if text is not None else None
            held = self.knowing.held(bound) if node.kind == "name" else None
            if held is not None and isinstance(held.node, Node) and held.node.kind == "bool":
                return f"{{{held.node.name}}}"
        return None

    def as_it_stands(self, node: Node, env: Env) -> Optional[str]:
        """A predicate of times in braces, or nothing where another value stands in them."""
        value = node.parts[0].value if node.kind == "braces" and len(node.parts) == 1 else None
        return self.tree.said(node) if value is not None and self.condition(value, env) is not None else None

    def condition(self, node: Node, env: Env) -> Optional[str]:
        """Times and truth values with `and`, `or` and `not`, or nothing where another value stands in it."""
        if node.kind in ("time", "bool"):
            return self.tree.said(node)
        if node.kind == "paren":
            inner = self.condition(node.args[0].value, env)
            return f"({inner})" if inner is not None else None
        if node.kind == "call" and not node.args:
            bound = env.get(node.name)
            times = self.knowing.times(bound) if bound is not None else None
            if times is not None:
                self.units.told.add(node.name)
                inner = self.condition(*times)
                return f"({inner})" if inner is not None else None
            return self.default(bound) if bound is not None and isinstance(bound.node, Node) else None
        return self.conditions(node, env) if node.kind == "op" else None

    def conditions(self, node: Node, env: Env) -> Optional[str]:
        """Several conditions with the words between them; of a reference that is read what it holds at first."""
        made, place = [], self.tree.at(node)
        for part in node.parts:
            is_read = self.tree.word(part.first - 1) == "!"
            text = self.read(part, env) if is_read else self.condition(part, env)
            if text is None:
                return None
            made += [self.tree.cut_out(place, self.tree.tokens[part.first - is_read].at), text]
            place = self.tree.tokens[part.behind - 1].behind
        return "".join(made)

    def read(self, node: Node, env: Env) -> Optional[str]:
        """The truth value that a reference holds at first."""
        held = self.knowing.held(self.knowing.resolved(node, env))
        if held is None or not isinstance(held.node, Node) or held.node.kind != "bool":
            return None
        self.units.told.add(node.name)
        if node.name in self.assigned:
            self.note(LESS, node, f"`!{self.short(node)}` changes while it plays, and is read as `false`")
            return "false"
        self.note(LESS, node, f"`!{self.short(node)}` has the value that it has at first: {held.node.name}")
        return held.node.name

    # Outputs of which a part of the arguments is given before.

    def is_partial(self, node: Node, env: Env) -> bool:
        """Whether a value is a call of an output without its source."""
        if node.kind != "call":
            return False
        parts = [(node, env), *self.parts(env.get(node.name))]
        name = parts[-1][0].name
        return is_output(name) and sum(len(bare_of(part)) for part, _ in parts) < needed(name)

    def parts(self, bound: Optional[Bound]) -> List[Tuple[Node, Env]]:
        """The calls in which the arguments of an output were given before, the last first."""
        found = []
        while bound is not None and bound.is_part and isinstance(bound.node, Node):
            found.append((bound.node, bound.env))
            bound = bound.env.get(bound.node.name)
        return found

    def completed(self, node: Node, bound: Bound, env: Env) -> Optional[str]:
        """An output whose other arguments were given before."""
        parts = [(node, env), *self.parts(bound)]
        name = parts[-1][0].name
        texts = [text for part, inner in reversed(parts) for text in self.arguments(part, inner)]
        self.note(SAME, node, f"`{node.name}(..)` is `{name}(..)` with the arguments that it was given before")
        return f"{name}({', '.join(texts)})"

    def arguments(self, node: Node, env: Env) -> List[str]:
        """The arguments of a call, each with its label."""
        return [(f"{one.label}=" if one.label is not None else "") + self.emit(one.value, env) for one in node.args]


def needed(name: str) -> int:
    """How many arguments without labels an output has."""
    if name in ("output.file", "output.url", "output.external", "output.file.hls", "output.hls"):
        return 3 if name != "output.url" else 2
    has_format = name in ("output.icecast", "output.shoutcast", "output.harbor", "output.srt", "output.udp")
    return 2 if has_format else 1


def plain_units(tree: Tree) -> Units:
    """The statements of a script as they are."""
    return Units([tree.said(one) for one in tree.statements], list(range(len(tree.statements))))


def unfolded(tree: Tree) -> Units:
    """The statements of a script, written out as far as they are known."""
    if not WORTH.search(tree.text):
        return plain_units(tree)
    try:
        return Unfolder(tree).run()
    except TooMuch:
        found = plain_units(tree)
        found.notes.append(Note(0, YOU, "more is written out by its functions than is worth it: they are left as they are"))
        return found
