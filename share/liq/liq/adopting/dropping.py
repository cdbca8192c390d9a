"""Why a statement goes: what read it, and what it would have played."""
import bisect
import re
from typing import Dict, Iterator, List, Optional, TYPE_CHECKING, Tuple

from liq.adopting.notes import LESS, SAME, YOU
from liq.adopting.tree import Node, Statement, Tree

if TYPE_CHECKING:
    from liq.adopting.slicing import Slicer

SETTING = re.compile(r"set\(|settings\.|(?:log|init|server|harbor)\.[\w.]*(?:\.set\(|\s*:=)")
KEY = re.compile(r"(?:set\(\s*[\"']|settings\.)?([\w.]+)")
FILES = re.compile(r"\.(wav|mp3|ogg|oga|opus|flac|aac|m4a|aiff?|m3u8?|pls|xspf)$", re.I)
FILLED = re.compile(r"#\{\s*([A-Za-z_][\w.']*)")
MOST = 3               # sounds that a line names


def names_of(tree: Tree, number: int) -> Iterator[str]:
    """The names that a token reads: its own, or those that are filled into a text."""
    token = tree.tokens[number]
    if token.kind == "name":
        yield token.text.split(".")[0]
    elif token.kind == "text":
        for found in FILLED.findall(token.text):
            yield found.split(".")[0]


class Readers:
    """What reads the names of a script: for each name the tokens that read it."""

    def __init__(self, tree: Tree):
        self.tree = tree
        self.found: Dict[str, List[int]] = {}
        bound = {number for statement in every(tree.statements) for number in binding(tree, statement)}
        for number in range(len(tree.tokens)):
            is_label = tree.word(number + 1) == "=" and number not in bound and tree.word(number - 1) in ("(", ",")
            if number not in bound and not is_label:
                for name in names_of(tree, number):
                    self.found.setdefault(name, []).append(number)

    def of(self, statement: Statement, statements: List[Statement]) -> List[int]:
        """The tokens behind a statement that read the name which it binds, up to the one that binds it anew."""
        found = self.found.get(statement.name, [])
        if not found:
            return []
        again = next((one.behind for one in statements if one.first >= statement.behind and one.name == statement.name
                      and one.kind in ("bind", "def")), len(self.tree.tokens))
        return [number for number in found if statement.behind <= number < again]


def every(statements: List[Statement]) -> Iterator[Statement]:
    """Statements, and those within defs."""
    for statement in statements:
        yield statement
        yield from every(statement.body)


def binding(tree: Tree, statement: Statement) -> Iterator[int]:
    """The token of the name that a statement binds."""
    if statement.kind in ("bind", "def"):
        for number in range(statement.first, min(statement.first + 4, statement.behind)):
            if tree.word(number) == statement.name:
                yield number
                return


def parts_of(node: Optional[Node]) -> Iterator[Tuple[Optional[str], object]]:
    """The values and statements right within a value, each with its label or nothing."""
    if node is None:
        return
    for one in node.args:
        yield one.label, one.value
    for part in node.parts:
        for inner in part if isinstance(part, list) else [part]:
            yield None, inner


def around(tree: Tree, statement: Statement, number: int) -> Tuple[str, int]:
    """What a token stands in, as `transitions=` or `on_track(..)`, and where that begins."""
    what = f"`{name_of(tree, statement)}`"
    at, node = tree.at(statement), statement.value
    while node is not None:
        if isinstance(node, Node) and node.kind == "call" and node.first != number:
            what, at = f"`{node.name}(..)`", tree.at(node)
        for label, inner in parts_of(node):
            if isinstance(inner, (Node, Statement)) and inner.first <= number < inner.behind:
                if label is not None:
                    what, at = f"`{label}=`", tree.at(inner)
                node = inner if isinstance(inner, Node) else inner.value
                break
        else:
            return what, at
    return what, at


def name_of(tree: Tree, statement: Statement) -> str:
    """What a statement is called: the name that it binds, or its first word."""
    if statement.kind in ("bind", "def"):
        return statement.name
    return f"{statement.name}(..)" if statement.kind == "call" else tree.word(statement.first) or "the text"


def sounds_in(tree: Tree, statement: Statement) -> List[str]:
    """The files and lists that a statement names, each once."""
    found = [token.text[1:-1] for token in tree.tokens[statement.first:statement.behind]
             if token.kind == "text" and FILES.search(token.text[1:-1])]
    return list(dict.fromkeys(found))


def unplayed(sounds: List[str]) -> str:
    """What is said of sounds that go."""
    if not sounds:
        return ""
    more = f" and {len(sounds) - MOST} more" if len(sounds) > MOST else ""
    return f"; {', '.join(sounds[:MOST])}{more} {'is' if len(sounds) == 1 else 'are'} not played"


class Dropping:
    """Notes why statements go. The last ones are asked first, so that what read a name is known to have gone."""

    def __init__(self, slicer: "Slicer", statements: List[Statement]):
        self.slicer, self.writer, self.tree = slicer, slicer.writer, slicer.tree
        self.readers, self.statements = slicer.readers, statements
        self.firsts = [statement.first for statement in statements]
        self.gone: Dict[int, str] = {}         # the class of each statement that goes, by its first token

    def note(self, statement: Statement) -> None:
        """Notes that a statement goes."""
        sort, what = self.why(statement)
        if what and statement.name not in self.writer.scope.others:
            self.writer.note(sort, statement, what)
        self.gone[statement.first] = sort

    def why(self, statement: Statement) -> Tuple[str, str]:
        """The class, and what is said."""
        writer, text = self.writer, self.writer.short(statement)
        if statement.kind == "directive" or statement.kind == "other" and self.slicer.hides_output(statement):
            return YOU, ""
        if statement.kind in ("bind", "def"):
            return self.why_name(statement)
        if SETTING.match(text):
            key = KEY.match(text)
            row = writer.classes.of(f"settings.{key[1]}" if key else "settings.")
            return (row.sort if row else LESS), f"`{text}` is left out: a setting without effect here"
        sounds = unplayed(sounds_in(self.tree, statement))
        if statement.kind == "call" and statement.name in writer.scope.defs:
            return LESS, f"`{text}` is left out: `{statement.name}` is a def of line " \
                f"{self.line(writer.scope.defs[statement.name].first)} that plays nothing{sounds}"
        row = writer.classes.of(statement.name) if statement.kind == "call" else None
        if row is None and statement.kind == "call" and "." in statement.name:
            row = writer.classes.of(statement.name.rpartition(".")[2])
        if row:
            return (SAME if row.sort == SAME and not sounds else LESS), f"`{text}` is left out{row.why}{sounds}"
        bound = [name for name in self.bound_in(statement) if name in self.slicer.need.values]
        if bound:
            return YOU, f"`{text}` is left out, and `{bound[0]}`, which is played, has its value by it: bind it by itself"
        return LESS, f"`{text}` is left out: nothing that is played depends on it{sounds}"

    def line(self, number: int) -> int:
        """The line of a token."""
        return int(self.writer.notes.line_of(self.tree.tokens[number].at))

    def bound_in(self, statement: Statement) -> Iterator[str]:
        """The names that a statement gives a value, other than by a binding of its own."""
        tokens = self.tree.tokens[statement.first:statement.behind]
        is_let = bool(tokens) and tokens[0].text == "let"
        for token, after in zip(tokens, tokens[1:]):
            if token.kind == "name" and (after.text in (":=", "<-") or is_let and after.text in (",", ")", "]", "}")):
                yield token.text
            if is_let and token.text == "=":
                return

    def why_name(self, statement: Statement) -> Tuple[str, str]:
        """The class of a binding or a def that goes, and what is said."""
        readers, is_said = self.readers.of(statement, self.statements), False
        for number in readers:
            home = self.home(number)
            if home is None or self.gone.get(home.first) == SAME:
                continue
            if home.first not in self.gone and statement.name in self.writer.scope.told:
                is_said = True
                continue
            what, at = around(self.tree, home, number)
            sounds = unplayed(sounds_in(self.tree, statement))
            return LESS, f"`{statement.name}` is left out with {what} of line {self.writer.notes.line_of(at)}{sounds}"
        is_said = is_said or statement.name in self.writer.scope.told
        why = "its value is written where it is read" if is_said else "no output plays it"
        return SAME, f"`{statement.name}` is left out: {why}"

    def home(self, number: int) -> Optional[Statement]:
        """The statement in which a token stands."""
        place = bisect.bisect_right(self.firsts, number) - 1
        home = self.statements[place] if place >= 0 else None
        return home if home is not None and number < home.behind else None
