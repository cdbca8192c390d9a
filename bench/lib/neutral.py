"""The text of a script of Liquidsoap, and of what liq-adopt makes of it, without what liq-adopt says is lost: so both can
be rendered, and each difference that is heard then is one of what it says is the same.

Of the old text: an output is `liq_out(SOURCE)`, which writes the next file; a list is played in its order; what is left out
gives way to its source; live inputs never play; arguments and statements that are left out as `less` are not there, and
neither are settings. Of both: `crossfade` gives way to its source, and `random` is `rotate`."""
import os
import re
import sys

TOP = os.path.dirname(os.path.dirname(os.path.dirname(os.path.abspath(__file__))))
sys.path.insert(0, os.path.join(TOP, "share", "liq"))
from liq.adopting.classes import MAY_STOP, SOURCE, classes  # noqa: E402  (the modules of liq-adopt)
from liq.adopting.dropping import SETTING  # noqa: E402
from liq.adopting.outputs import is_output  # noqa: E402
from liq.adopting.tree import DIRECTIVES, Tree  # noqa: E402
from liq.advising import tables  # noqa: E402

NO_SOURCE = ("braces", "fun", "text", "number", "int", "bool", "format", "regexp", "list")
MIXES = ("crossfade", "cross", "cross.smart", "cross.simple", "smart_cross", "smart_crossfade", "crossfade.smart",
         "crossfade.simple")
READ_AS_FALSE = re.compile(r"`!(\w+)` changes while it plays, and is read as `false`")
LEFT_OUT = re.compile(r"`.*` is left out")
TIMES = re.compile(r"\{\s*!\w+\s*\}|\{[\s\dwhms()-]*(?:(?:and|or|not|true|false|&&|\|\|)[\s\dwhms()-]*)*\}")
PREFETCHED = 12


class Neutral:
    """The neutral text of a script; `notes` are those of liq-adopt, or nothing where it is the new text."""

    def __init__(self, text, notes=None):
        self.tree, self.is_old = Tree(text), notes is not None
        self.rows, self.table = classes(), tables.calls()
        told = list(notes.found) if notes is not None else []
        self.gone = {note.at for note in told if note.sort == "less" and LEFT_OUT.match(note.what)}
        self.false = {name for note in told for name in READ_AS_FALSE.findall(note.what)}
        self.own = {self.tree.word(k + 1) for k in range(len(self.tree.tokens)) if self.tree.word(k) == "def"}

    def text(self):
        """The whole text."""
        staying = [one for one in self.tree.statements if self.stays(one)]
        read = self.read_by(staying)
        staying = [one for one in self.tree.statements if one in staying or one.kind == "bind" and one.name in read]
        bound = {one.name for one in staying if one.kind in ("bind", "def")}
        return "".join(self.said(one.first, one.behind) + "\n" for one in staying
                       if one.name != "ignore" or one.value.args[:1] and self.tree.raw(one.value.args[0]) in bound)

    def read_by(self, statements):
        """The names that the texts of these statements read."""
        texts = " ".join(self.said(one.value.first, one.value.behind) if one.kind == "bind" and one.value is not None
                         else self.said(one.first, one.behind) for one in statements if one.name != "ignore")
        return set(re.findall(r"[A-Za-z_][\w']*", texts))

    def stays(self, statement):
        """Whether a statement is rendered."""
        raw = self.tree.raw(statement)
        if SETTING.match(raw) or statement.kind == "directive" and statement.name.startswith("%include"):
            return False
        return self.tree.at(statement) not in self.gone or is_output(statement.name) or statement.name in DIRECTIVES

    def said(self, first, behind):
        """What stands between two tokens."""
        tree, parts, number = self.tree, [], first
        if first >= behind:
            return ""
        place = tree.tokens[first].at
        while number < behind:
            made, last = self.made(number, behind)
            if made is not None:
                parts += [tree.text[place:tree.tokens[number].at], made]
                place, number = tree.tokens[last - 1].behind, last
            else:
                number += 1
        return "".join(parts) + tree.text[place:tree.tokens[behind - 1].behind]

    def made(self, number, behind):
        """What stands for the call that begins at a token, and the token behind it; or nothing."""
        tree = self.tree
        if tree.word(number) == "!" and tree.word(number + 1) in self.false:
            return "false", number + 2
        is_call = tree.tokens[number].kind == "name" and number + 1 < behind and tree.word(number + 1) == "(" \
            and tree.is_close(number + 1) and tree.word(number - 1) not in ("def", "rec", "replaces")
        if not is_call or tree.word(number) in self.own:
            return None, number
        last = tree.mates[number + 1] + 1
        return self.call(tree.value(number, last)), last

    def of(self, value):
        """The text of a value."""
        return self.said(value.first, value.behind)

    def source(self, node):
        """The text of the source among the arguments of a call, or nothing."""
        bare = [one.value for one in node.args if one.label is None and one.value.kind not in NO_SOURCE
                and not (one.value.kind == "name" and one.value.name in self.own)]
        named = [one.value for one in node.args if one.label in ("s", "source", "normal")]
        found = bare[-1:] or named[-1:]
        return self.of(found[0]) if found else None

    def call(self, node):
        """What stands for a call, or nothing where it stays, but for what stands in it."""
        if node.name in MIXES:
            return self.source(node)
        if node.name == "random":
            return "rotate(" + ", ".join(self.argument(one) for one in node.args if one.label in (None, "weights")) + ")"
        if not self.is_old:
            return None
        if is_output(node.name):
            bare = [one.value for one in node.args if one.label is None]
            return f"liq_out({self.of(bare[-1])})" if bare and node.name != "output.dummy" else None
        found = getattr(self, "of_" + node.name.replace(".", "_"), None)
        return found(node) if found else self.by_row(node)

    def by_row(self, node):
        """What stands for a call by the tables of liq-adopt."""
        if node.name in self.table:
            return self.without_lost(node)
        row = self.rows.of(node.name)
        if node.name.startswith("predicate."):
            bare = [one.value for one in node.args if one.label is None]
            return self.of(bare[-1]) if bare else None
        if row and row.sort != "same" and row.edit in ("fail()", "blank()"):
            return "source.fail()" if row.edit == "fail()" else "blank()"
        return self.source(node) if row and row.edit in (SOURCE, MAY_STOP) else None

    def argument(self, one):
        """An argument with its label."""
        return (f"{one.label}=" if one.label is not None else "") + self.of(one.value)

    def without_lost(self, node, name=None, front=""):
        """A call without the arguments that are lost."""
        name, kept = name or node.name, []
        for one in node.args:
            row = self.rows.of_argument(name, one.label, self.tree.raw(one.value).strip("\"'"))
            is_known = one.label is None or one.label == "id" or self.table[name].parameter(one.label) is not None
            if (row is None and is_known or row is not None and row.sort == "same" or one.label == "weights") \
                    and one.label not in ("mode", "prefetch"):
                kept.append(self.argument(one))
        return f"{node.name}({front}{', '.join(kept)})"

    def of_playlist(self, node):
        return self.without_lost(node, front=f'mode="normal", prefetch={PREFETCHED}, ')

    def of_playlist_safe(self, node):
        return self.without_lost(node, "playlist", front='mode="normal", ')

    def of_playlist_once(self, node):
        return f"playlist.once({', '.join(self.argument(one) for one in node.args if one.label in (None, 'id'))})"

    def of_smooth_add(self, node):
        given = {one.label: self.of(one.value) for one in node.args}
        return f"add(normalize=false, [{given.get('normal')}, {given.get('special')}])"

    def of_delay(self, node):
        bare = [self.of(one.value) for one in node.args if one.label is None]
        return f"rotate([{bare[1]}, blank(duration={bare[0]})])" if len(bare) == 2 else None

    def of_fallback_skip(self, node):
        given = {one.label: self.of(one.value) for one in node.args}
        return f"fallback(track_sensitive=false, [{given.get(None)}, {given.get('fallback')}])"

    def of_buffer_adaptative(self, node):
        return f"buffer({self.source(node)})"

    def of_at(self, node):
        """A source at some times, or never where its predicate is none of times."""
        texts = [self.of(one.value) for one in node.args if one.label in (None, "available")]
        if any(TIMES.fullmatch(text) for text in texts):
            return None
        return "source.fail()"

    of_source_available = of_mkavailable = of_at


def neutral(text, notes=None):
    """The neutral text of a script."""
    return Neutral(text, notes).text()
