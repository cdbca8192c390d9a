"""What an output plays, from the outputs backwards, and what becomes of each statement."""
import re
from dataclasses import dataclass, field
from typing import List, Optional, Set, Tuple

from liq.adopting.dropping import Dropping, Readers
from liq.adopting.marks import mark, plain
from liq.adopting.notes import LESS, SAME, YOU
from liq.adopting.outputs import name_all, output, outputs_in, plays
from liq.adopting.rewriting import Rewriter
from liq.adopting.settings import setting
from liq.adopting.tokens import Trouble, tokens_of
from liq.adopting.tree import Node, Statement


@dataclass
class Need:
    """The names that something plays: values, and defs that are called."""
    values: Set[str] = field(default_factory=set)
    calls: Set[str] = field(default_factory=set)

    def add(self, text: str) -> None:
        """Adds the names in a text of this language, but labels and what it binds by itself."""
        try:
            found = tokens_of(plain(text))
        except Trouble:
            return
        for token, after in zip(found, [*found[1:], None]):
            if token.kind != "name" or after is not None and after.text == "=":
                continue
            is_call = after is not None and after.text == "(" and after.at == token.behind
            (self.calls if is_call else self.values).add(token.text)


@dataclass
class Line:
    """A statement and what stands in its place, or nothing."""
    statement: Statement
    new: Optional[str]
    is_setting: bool = False


class Slicer:
    """Goes through the statements of a script, or of a def, the last first."""

    def __init__(self, writer: Rewriter, statements: List[Statement], readers: Optional[Readers] = None) -> None:
        self.writer, self.tree, self.need, self.statements = writer, writer.tree, Need(), statements
        self.readers = readers or Readers(writer.tree)
        self.skipped: Set[int] = set()         # outputs that write nothing, by their first tokens
        self.dropping = Dropping(self, statements)

    def lines(self) -> List[Line]:
        """All statements with what stands in their places."""
        found = [node for statement in self.statements for node in self.outputs_of(statement)]
        is_played = any(node.name != "output.dummy" for node in found) or self.has_calls()
        self.skipped = {node.first for node in found if node.name == "output.dummy"} if is_played else set()
        name_all(self.writer, [node for node in found if node.first not in self.skipped])
        made = [self.line(statement) for statement in reversed(self.statements)][::-1]
        self.directives(made)
        if not found and not is_played:
            self.writer.notes.add(YOU, 0, "there is no output: nothing is played", False)
        return made

    def directives(self, lines: List[Line]) -> None:
        """Notes what goes of `%ifdef .. %endif` and the like: it is for the reader to decide where something that is
        played stands within."""
        opened: List[Tuple[Line, List[Line]]] = []
        for line in lines:
            name = line.statement.name if line.statement.kind == "directive" else ""
            if name.startswith("%if"):
                opened.append((line, []))
            elif name == "%endif" and opened:
                begin, within = opened.pop()
                is_played = any(inner.new is not None for inner in within)
                for one in [*within, begin, line]:
                    self.directive(one, is_played)
            elif opened:
                opened[-1][1].append(line)
            elif name:
                self.directive(line, True)
        for first, _ in opened:
            self.directive(first, True)

    def directive(self, line: Line, is_open: bool) -> None:
        """Notes that a directive goes."""
        if line.statement.kind == "directive":
            row = self.writer.classes.of(line.statement.name)
            why = row.way if is_open and row else "nothing that is played stands within"
            self.writer.note(YOU if is_open else LESS, line.statement,
                             f"`{self.writer.short(line.statement)}` is left out: {why}")

    def has_calls(self) -> bool:
        """Whether a statement calls a def in which an output stands."""
        return any(plays(statement.value, self.writer.scope) for statement in self.statements)

    def outputs_of(self, statement: Statement) -> List[Node]:
        """The outputs of a statement; those of an `if` are for the reader to decide."""
        if statement.kind == "def" or statement.value is None:
            return []
        return outputs_in(statement.value)

    def line(self, statement: Statement) -> Line:
        """A statement, of which all behind it were looked at."""
        text = setting(self.writer, statement)
        if text is not None:
            return Line(statement, text or None, True)
        new = self.played(statement)
        if new is None:
            self.dropping.note(statement)
        elif statement.kind == "bind" and "".join(plain(new).split()) == f"{statement.name}={statement.name}":
            self.need.values.add(statement.name)
            new = None
        else:
            new = "\n".join([*self.writer.above, new])
            self.writer.above = []
            self.need.add(new)
        return Line(statement, mark(self.tree.at(statement)) + new if new is not None else None)

    def played(self, statement: Statement) -> Optional[str]:
        """What stands in the place of a statement that is played, or nothing."""
        found = [node for node in self.outputs_of(statement) if node.first not in self.skipped]
        if found or plays(statement.value, self.writer.scope):
            return self.outputs(statement, found)
        if statement.kind == "other" and self.hides_output(statement):
            self.writer.note(YOU, statement, f"`{self.writer.short(statement)}` is left out: an output stands within; "
                             "decide whether it is played")
            return None
        name = statement.name
        if statement.kind == "bind" and name in self.need.values:
            self.need.values.discard(name)
            return self.bound(statement)
        is_called = statement.kind == "def" and (name in self.need.calls or name in self.need.values)
        return self.definition(statement) if is_called else None

    def hides_output(self, statement: Statement) -> bool:
        """Whether an output stands in a statement that is no call."""
        tokens = self.tree.tokens[statement.first:statement.behind]
        return any(token.kind == "name" and token.text.startswith("output.") for token in tokens)

    def outputs(self, statement: Statement, found: List[Node]) -> str:
        """A statement in which outputs stand."""
        value = statement.value
        if value is None:
            return ""
        if not found:
            return self.writer.new(value)
        if value.kind != "call" or value.first != found[0].first:
            self.writer.note(LESS, statement, f"`{value.name or self.tree.word(statement.first)}` is left out, its "
                             "outputs stay")
        return "\n".join(output(self.writer, node) for node in found)

    def bound(self, statement: Statement) -> str:
        """A binding that is played."""
        value = statement.value
        if value is None:
            return self.tree.said(statement)
        new = self.writer.new(value, self.writer.dues.pop(statement.name, "") or due_of_value(value))
        if self.tree.word(statement.first) == "let":
            self.writer.note(SAME, statement, f"`let` is left out before `{statement.name}`")
            return f"{statement.name} = {new}"
        return self.tree.cut_out(self.tree.at(statement), self.tree.at(value)) + new

    # Defs.

    def definition(self, statement: Statement) -> str:
        """A def that is played."""
        tree = self.tree
        writer = Rewriter(tree, self.writer.notes, self.writer.classes, self.writer.table,
                          self.writer.scope.inner(statement, tree))
        writer.names, writer.may_stop = self.writer.names, self.writer.may_stop
        inner = Slicer(writer, statement.body, self.readers)
        body = inner.body(self.writer.dues.get(statement.name, "source"))
        parameters = inner.parameters(statement) if body is not None else None
        if body is None or parameters is None:
            self.writer.note(YOU, statement, f"`def {statement.name}` is played, and its text has no form here: bind each "
                             "step by itself; `fail()` stands there")
            return self.stand_in(statement)
        old_parameters = [tree.raw(one) for one in statement.parameters]
        self.need.calls |= inner.need.calls
        self.need.values |= inner.need.values
        is_same = all(plain(line.new or "") == tree.raw(line.statement) for line in body) \
            and [plain(one) for one in parameters] == old_parameters
        self.writer.note(SAME, statement, f"`def {statement.name}` is played, and stays")
        if is_same and tree.word(statement.first) == "def" and tree.word(statement.first + 1) == statement.name:
            return tree.said(statement)
        steps = "".join("  " + (line.new or "").replace("\n", "\n  ") + "\n" for line in body if line.new is not None)
        return f"def {statement.name}({', '.join(parameters)}) =\n{steps}end"

    def stand_in(self, statement: Statement) -> str:
        """A def with the same parameters that plays nothing."""
        labels = [one.label for one in statement.parameters]
        found = [f"{label}=fail()" if label.startswith("~") else label for label in labels
                 if re.fullmatch(r"~?[A-Za-z_]\w*", label, re.A)]
        return f"def {statement.name}({', '.join(found)}) = fail() end"

    def body(self, due: str) -> Optional[List[Line]]:
        """The steps of a def, the last of which is its value, or nothing where they have no form here."""
        steps = self.statements
        if not steps or steps[-1].value is None or steps[-1].kind == "bind":
            return None
        if any(self.outputs_of(step) for step in steps[:-1]):
            return None
        found = outputs_in(steps[-1].value)
        last = output(self.writer, found[0]) if found and found[0].first == steps[-1].value.first \
            else self.writer.new(steps[-1].value, due)
        last = "\n".join([*self.writer.above, last])
        self.writer.above = []
        self.need.add(last)
        made = [Line(steps[-1], last)]
        for step in reversed(steps[:-1]):
            made.append(self.line(step))
            if step.kind == "def" and made[-1].new is not None:
                return None
        return made[::-1]

    def parameters(self, statement: Statement) -> Optional[List[str]]:
        """The parameters of a def, or nothing where one has no form here."""
        made = []
        for one in statement.parameters:
            label = one.label
            if not re.fullmatch(r"~?[A-Za-z_]\w*", label, re.A) or one.value is not None and label[0] != "~":
                return None
            due = self.writer.dues.get(label.lstrip("~"), "")
            made.append(label + (f" = {self.writer.new(one.value, due)}" if one.value is not None else ""))
        old = [self.tree.raw(one) for one in statement.parameters]
        return [raw if "".join(raw.split()) == "".join(plain(new).split()) else new for raw, new in zip(old, made)]


def due_of_value(value: Node) -> str:
    """The sort that a bound value most likely is of, where nothing tells it."""
    return {"braces": "predicate", "list": "", "text": "text", "format": "format"}.get(value.kind, "source")
