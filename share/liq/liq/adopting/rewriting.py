"""A value of Liquidsoap as it is said here. Each edit is noted. What has no form here gets a stand-in, and a note of the
class `you`, so that everything behind it can be looked at."""
import re
from typing import Callable, Dict, List, Optional, Tuple, Union

from liq.adopting import calls as of_calls
from liq.adopting import numbers
from liq.adopting.classes import Classes
from liq.adopting.formats import format_of
from liq.adopting.marks import mark
from liq.adopting.notes import LESS, SAME, YOU, Notes
from liq.adopting.scope import Scope, content, is_plain, quoted
from liq.adopting.tree import Argument, Node, Statement, Tree
from liq.advising.tables import Call

FILLED = re.compile(r"#\{\s*([A-Za-z_][\w']*)")
PREDICATE = re.compile(r"-|and|or|not|true|false|&&|\|\||[()]")
WORDS = {"&&": "and", "||": "or"}
UNSAID = {"!", "ref", "??", ":=", "->", "|>", "?", "mod", "**", "::", "<-", "%", "|", "&", "@", "...", "="}
SHOWN = 48             # characters of a value that a note shows
# What stands in the place of a value that has no form here, by the sort of value that is due.
STANDS = {"source": "fail()", "summand": "fail()", "sources": "[fail()]", "summands": "[fail()]",
          "pairs": "[({true}, fail())]", "predicate": "{false}",
          "decimal": "1.", "int": "1", "bool": "false", "text": '""', "format": "%wav"}
# The sort that is due, by the front of the type of a parameter.
DUES = (("source", "source"), ("list of sources", "sources"), ("list of (predicate", "pairs"), ("decimal", "decimal"),
        ("int", "int"), ("bool", "bool"), ("text", "text"), ("a format", "format"))


def due_of(kind: str) -> str:
    """The sort of value that is due for a parameter of a type; "" where none is known."""
    return next((due for front, due in DUES if kind.startswith(front)), "")


class Rewriter:
    """Says the values of a script anew. `table` are the calls of this language, `classes` the words of Liquidsoap."""

    def __init__(self, tree: Tree, notes: Notes, classes: Classes, table: Dict[str, Call], scope: Scope):
        self.tree, self.notes, self.classes, self.table, self.scope = tree, notes, classes, table, scope
        self.names: Dict[int, str] = {}            # the file of each output, by the number of its first token
        self.above: List[str] = []                 # what has to be bound above the statement
        self.dues: Dict[str, str] = {}             # the sort that is due where a name is used
        self.due = ""                              # the sort that is due now
        self.may_stop = False                      # whether what stops there by itself is made to stop here

    # Notes.

    def note(self, sort: str, node: Union[Node, Argument, Statement], what: str, is_edit: bool = True) -> None:
        """Notes something of a part of the script."""
        self.notes.add(sort, self.tree.at(node), what, is_edit)

    def short(self, node: Union[Node, Argument, Statement]) -> str:
        """A value in a few letters, as a note shows it."""
        text = " ".join(self.tree.raw(node).split())
        return text if len(text) <= SHOWN else text[:SHOWN - 2] + ".."

    def left(self, node: Node, why: str) -> str:
        """The stand-in of a value that has no form here: the reader decides."""
        stand = STANDS.get(self.due) or ("{false}" if node.kind == "braces" else "fail()")
        self.note(YOU, node, f"`{self.short(node)}` {why}; `{stand}` stands there")
        return stand

    def lost(self, node: Node, due: str, why: str) -> str:
        """The same for a sort of value that is due."""
        before, self.due = self.due, due
        try:
            return self.left(node, why)
        finally:
            self.due = before

    def file_name(self, call: str, node: Node) -> Optional[str]:
        """The name of the file or the list of a call, as it is written here; nothing where it is not known."""
        name = of_calls.file_name(self, call, node)
        self.notes.differs = self.notes.differs or name is None
        return name

    def bound_above(self, node: Node, front: str) -> str:
        """The name of a source: its own, or a new one that is bound above the statement."""
        text = self.new(node, "source")
        if node.kind == "name" and node.name in self.scope.values:
            return text
        number = 1
        while f"{front}{number}" in self.scope.values or f"{front}{number}" in self.scope.defs:
            number += 1
        self.scope.values.add(f"{front}{number}")
        self.above.append(f"{front}{number} = {text}")
        return f"{front}{number}"

    def stopping(self, node: Node, text: str) -> str:
        """The text of a source that may stop at any time, where a check is to look at it so."""
        return f"sequence([{text}, {self.fail(node)}])" if self.may_stop else text

    def fail(self, node: Node) -> str:
        """What never plays, with the place of what it stands for."""
        return f"{mark(self.tree.at(node))}fail()"

    # Texts.

    def spliced(self, node: Union[Node, Statement], changes: List[Tuple[Union[Argument, Node], str]]) -> str:
        """The text of a value in which parts of it stand anew."""
        tree, found, begin = self.tree, [], self.tree.at(node)
        for part, text in changes:
            found += [tree.cut_out(begin, tree.at(part)), text]
            begin = tree.tokens[part.behind - 1].behind
        return "".join(found) + tree.cut_out(begin, tree.tokens[node.behind - 1].behind)

    def new(self, node: Node, due: str = "") -> str:
        """A value as it is said here, of the sort that is due, where that is known."""
        before, self.due = self.due, due
        try:
            return mark(self.tree.at(node)) + str(getattr(self, f"of_{node.kind}")(node))
        finally:
            self.due = before

    def of_raw(self, node: Node) -> str:
        return self.left(node, "has no form here: write it anew") if node.first < node.behind else "()"

    def of_regexp(self, node: Node) -> str:
        return self.left(node, "is an expression that is searched for, and has no form here")

    def of_bool(self, node: Node) -> str:
        return self.tree.said(node)

    def of_time(self, node: Node) -> str:
        return self.tree.said(node)

    def of_number(self, node: Node) -> str:
        return self.of_numeral(node, numbers.decimal, "a decimal has plain digits, at most six behind its point")

    def of_int(self, node: Node) -> str:
        return self.of_numeral(node, numbers.whole, "an int has plain digits")

    def of_numeral(self, node: Node, form: Callable[[str], Optional[str]], why: str) -> str:
        """A number, of which the last token holds the digits."""
        token = self.tree.tokens[node.behind - 1]
        text = form(token.text)
        if text is None:
            return self.left(node, "is too large a number")
        if text != token.text:
            self.note(SAME, node, f"`{token.text}` is written `{text}`: {why}")
        return self.tree.raw(node)[:token.at - self.tree.at(node)] + text

    def of_text(self, node: Node) -> str:
        """A text: what is filled in there is filled in here where it is known."""
        raw = self.tree.raw(node)
        if is_plain(raw):
            return raw
        text = filled(raw, self.scope.texts)
        if text is None:
            return self.left(node, self.why_untold(node))
        self.scope.told.update(FILLED.findall(raw))
        self.notes.differs = True
        self.note(SAME, node, f"the text {self.short(node)} is filled in: {text}")
        return text

    def why_untold(self, node: Node) -> str:
        """Why a text is not known."""
        if "#{" in self.tree.raw(node):
            return "is filled in there, and taken letter by letter here: write out what it says"
        if node.kind == "text":
            return "has a control byte, a backslash or bytes that no text has here: write out what it says"
        return "is no text that is known: write out what it says"

    def of_name(self, node: Node) -> str:
        head, _, rest = node.name.partition(".")
        if self.due:
            self.dues[head] = self.due if self.due != "summand" else self.dues.get(head, self.due)
        if rest and head in self.scope.values:
            self.note(LESS, node, f"`{node.name}`: methods are left out")
            return head
        if node.name in self.scope.values:
            return node.name
        if node.name in self.scope.defs:
            return self.left(node, "is a function, and stands as a value")
        row = self.classes.of(node.name)
        return self.left(node, f"has no form here: {row.way}" if row else "is bound by nothing in this script")

    def of_list(self, node: Node) -> str:
        due = {"sources": "source", "summands": "summand"}.get(self.due, "")
        return self.ended(node, self.spliced(node, [(item, self.new(item.value, due)) for item in node.args]))

    def ended(self, node: Node, text: str) -> str:
        """A text of items in a bracket without a comma behind the last one."""
        tree, last = self.tree, node.behind - 2
        if tree.word(last) != "," or not node.args:
            return text
        self.note(SAME, node, "the comma behind the last item is left out")
        rest = tree.cut_out(tree.tokens[last].behind, tree.tokens[node.behind - 1].behind)
        return text[:len(text) - len(rest) - 1] + rest

    def of_tuple(self, node: Node) -> str:
        return self.ended(node, self.spliced(node, [(item, self.new(item.value)) for item in node.args]))

    def of_paren(self, node: Node) -> str:
        """One value in brackets; the type behind it goes."""
        value = node.args[0].value
        if value.kind == "op" and len(value.parts) > 1 and self.tree.word(value.parts[0].behind) == ":":
            self.note(SAME, node, f"the type in `{self.short(node)}` is left out")
            return self.new(value.parts[0], self.due)
        return self.spliced(node, [(node.args[0], self.new(value, self.due))])

    def of_format(self, node: Node) -> str:
        return format_of(self, node)

    def of_method(self, node: Node) -> str:
        """A method of a value: the value stays."""
        what = "the record that is put on it" if node.name == "{" else f"the method `.{node.name}`"
        self.note(LESS, node, f"of `{self.short(node)}` {what} is left out")
        return self.new(node.parts[0], self.due)

    def of_braces(self, node: Node) -> str:
        """A predicate of times, or a getter, which stands for a value."""
        tokens = self.tree.tokens[node.first + 1:node.behind - 1]
        if tokens and all(token.kind == "time" or PREDICATE.fullmatch(token.text) for token in tokens):
            text = "".join(WORDS.get(part, part) for part in re.split(r"(&&|\|\|)", self.tree.said(node)))
            if text != self.tree.said(node):
                self.note(SAME, node, f"`{self.short(node)}` is written with `and` and `or`")
            return text
        if len(tokens) > 1 and tokens[0].kind == "name" and tokens[1].text == "=":
            return self.left(node, "is a record: bind each part of it by itself")
        if self.due in ("decimal", "int", "text"):
            return self.left(node, "changes while it plays, and has one value here: write it out")
        return self.left(node, "is no predicate of times: a function stands there")

    def of_op(self, node: Node) -> str:
        """Values with signs between them."""
        joined = self.joined(node)
        if joined is not None:
            return joined
        inner = {self.tree.word(k) for k in self.between(node)}
        if inner & UNSAID:
            return self.left(node, "has no form here: write its value out")
        if "^" in inner:
            return self.left(node, "joins texts: write the whole text")
        due = self.due if self.due in ("decimal", "int") else ""
        made = self.spliced(node, [(part, self.new(part, due)) for part in node.parts])
        text = "".join(WORDS.get(part, part) for part in re.split(r"(&&|\|\|)", made)) if '"' not in made else made
        if text != made:
            self.note(SAME, node, f"`{self.short(node)}` is written with `and` and `or`")
        return text

    def between(self, node: Node) -> List[int]:
        """The numbers of the tokens that join the parts of a value."""
        within = {k for part in node.parts for k in range(part.first, part.behind)}
        return [k for k in range(node.first, node.behind) if k not in within]

    def joined(self, node: Node) -> Optional[str]:
        """Texts that are joined to one, where all of them are known, or nothing."""
        known = self.known_text(node) if node.kind == "op" else None
        if known is None:
            return None
        text = quoted(known)
        self.scope.told.update(token.text for token in self.tree.tokens[node.first:node.behind] if token.kind == "name")
        self.note(SAME, node, f"`{self.short(node)}` is written as one text: {text}")
        return text

    def known_text(self, node: Node) -> Optional[str]:
        """The text that a value is, as far as it is known, or nothing."""
        if node.kind == "name":
            return self.scope.texts.get(node.name)
        if node.kind == "op" and {self.tree.word(k) for k in self.between(node)} == {"^"}:
            found = [self.known_text(part) for part in node.parts]
            return None if None in found else "".join(filter(None, found))
        text = filled(self.tree.raw(node), self.scope.texts) if node.kind == "text" else None
        return content(text) if text is not None else None

    def of_if(self, node: Node) -> str:
        values = [part[0].value for part in node.parts if len(part) == 1 and part[0].value is not None]
        if len(node.parts) != 3 or len(values) != 3:
            return self.left(node, "has no form here: an `if` has both parts, each of one value, and no `elsif`")
        dues = ("bool", self.due, self.due)
        return self.spliced(node, [(value, self.new(value, due)) for value, due in zip(values, dues)])

    def of_block(self, node: Node) -> str:
        """`begin .. end`, or what is tried: its value, where it has one alone."""
        if len(node.parts) != 1 or node.parts[0].value is None:
            return self.left(node, "has no form here: bind each step by itself")
        sort = SAME if node.name == "begin" else LESS
        self.note(sort, node, f"of `{node.name} .. end` the value stays")
        return self.new(node.parts[0].value, self.due)

    def of_fun(self, node: Node) -> str:
        return self.left(node, "is a function without a name, and has no form here")

    def of_call(self, node: Node) -> str:
        return of_calls.call(self, node)

    # Values of a sort that is due.

    def decimal(self, node: Node) -> str:
        """A value where a decimal is due."""
        text = numbers.as_decimal(self.tree.raw(node)) if node.kind == "int" else None
        if text is None:
            return self.new(self.constant(node), "decimal")
        self.note(SAME, node, f"`{self.tree.raw(node)}` is a decimal here: `{text}`")
        return text

    def constant(self, node: Node) -> Node:
        """A value that stands in braces by itself, where none that changes can stand."""
        if node.kind != "braces" or len(node.parts) != 1 or node.parts[0].value is None:
            return node
        value: Node = node.parts[0].value
        if value.kind in ("bool", "number", "int", "text"):
            self.note(SAME, node, f"`{self.short(node)}` never changes: it is written without braces")
            return value
        return node


def filled(raw: str, texts: Dict[str, str]) -> Optional[str]:
    """A text with its quotes in which names of known texts are filled in, or nothing where anything else is."""
    if "\\" in raw.replace("\\\\", "").replace('\\"', "").replace("\\'", ""):
        return None
    found = []
    for part in re.split(r"(#\{[^{}\"']*\})", raw[1:-1]):
        name = re.fullmatch(r"#\{\s*(.*?)\s*\}", part)
        if name and name[1] not in texts or not name and "#{" in part:
            return None
        found.append(texts[name[1]] if name else re.sub(r"\\(.)", r"\1", part))
    text = quoted("".join(found))
    return text if is_plain(text) else None
