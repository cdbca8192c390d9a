"""A call of Liquidsoap as it is said here: a call of this language with the arguments that it takes, one that gives
way to the source that it is round, or one of `special`."""
import os
import re
from typing import TYPE_CHECKING, Iterator, List, Optional, Tuple

from liq.adopting.classes import MAY_STOP, SOURCE, Row
from liq.adopting.notes import LESS, SAME
from liq.adopting.outputs import file_of, naming
from liq.adopting.scope import content, quoted
from liq.adopting.special import left_labels, special
from liq.adopting.tree import Argument, Node, Statement
from liq.advising.tables import Parameter

if TYPE_CHECKING:
    from liq.adopting.rewriting import Rewriter

NO_SOURCE = ("braces", "fun", "text", "number", "int", "bool", "format", "regexp", "list")
INSTEAD = ("fail()", "blank()")
# Lists that are none here.
OTHER_LISTS = (".pls", ".xspf", ".asx", ".cue", ".smil", ".xml")
ADDRESS = re.compile(r"[a-z][a-z0-9+.-]+:(?!\\)")


def call(writer: "Rewriter", node: Node) -> str:
    """A call."""
    name = node.name
    if name in writer.scope.defs:
        if writer.due:
            writer.dues[name] = writer.due
        return writer.ended(node, writer.spliced(node, list(of_def(writer, node, writer.scope.defs[name]))))
    text = special(writer, node)
    if text is not None:
        return text
    if name in writer.table:
        return known(writer, node)
    row = writer.classes.of(name)
    if row and row.edit in INSTEAD:
        way = row.way if row.way.startswith("write ") else f"write {row.way}"
        is_lost = row.sort == SAME and left_labels(writer, node, ())
        writer.note(LESS if is_lost else row.sort, node, f"`{name}(..)` becomes `{row.edit}`; or {way}")
        return row.edit
    around = within(writer, node, row) if row else None
    if around is not None:
        return around
    head = name.split(".")[0]
    if row:
        return writer.left(node, f"has no form here: {row.way}")
    if head != name and head in writer.scope.values:
        return writer.left(node, "is a method, and has no form here")
    return writer.left(node, "is no call of this language")


def within(writer: "Rewriter", node: Node, row: Row) -> Optional[str]:
    """What stays of a call that is left out: its source, or its default; or nothing where none is known."""
    if row.edit not in (SOURCE, MAY_STOP, "its default"):
        return None
    is_source = row.edit != "its default"
    source = source_of(writer, node) if is_source else default_of(node)
    if source is None:
        return None
    what = f"`{node.name}(..)` is left out, {'its source' if is_source else 'its default'} stays"
    writer.note(row.sort, node, f"{what}{row.why}")
    text = writer.new(source, writer.due or "source" if is_source else writer.due)
    return writer.stopping(node, text) if row.edit == MAY_STOP else text


def of_def(writer: "Rewriter", node: Node, statement: Statement) -> Iterator[Tuple[Node, str]]:
    """The arguments of a call of a def, each with its new text; what names the file of an output names one here."""
    names = naming(statement)
    bare = iter([one.label for one in statement.parameters if one.label[:1] not in ("~", "?")])
    for one in node.args:
        label = f"~{one.label}" if one.label is not None else next(bare, "")
        known_name = writer.known_text(one.value) if label in names else None
        name = file_of(known_name, 1, False) if known_name is not None else None
        if name is not None and name != known_name:
            writer.note(LESS, one, f"`{node.name}` writes the file {name}")
        yield one.value, quoted(name) if name is not None and name != known_name else writer.new(one.value)


def source_of(writer: "Rewriter", node: Node) -> Optional[Node]:
    """The source among the arguments: the one that is given by its label, or the last that may be one."""
    bare = [one.value for one in node.args if one.label is None and one.value.kind not in NO_SOURCE
            and not (one.value.kind == "name" and one.value.name in writer.scope.defs
                     and one.value.name not in writer.scope.values)]
    named = [one.value for one in node.args if one.label in ("s", "source", "normal")]
    found = bare[-1:] or named[-1:]
    return found[0] if found else None


def default_of(node: Node) -> Optional[Node]:
    """The value that stands for what is asked for while it plays."""
    found = [one.value for one in node.args if one.label == "default"]
    found += [one.value for one in node.args if one.label is None][1:]
    return found[0] if found and found[0].kind in ("number", "int", "text", "bool") else None


# Calls of this language.

def known(writer: "Rewriter", node: Node) -> str:
    """A call of this language: what it does not take is left out."""
    form, is_whole = writer.table[node.name], True
    kept: List[Tuple[Argument, str]] = []
    bare = [one for one in node.args if one.label is None]
    for one in node.args:
        parameter = form.parameter(one.label) if one.label else dict(zip(map(id, bare), form.bare)).get(id(one))
        if one.label is not None and parameter is None and not is_id(writer, node, one):
            leave_out(writer, node, one)
            is_whole = False
        elif one.label == "mode" and node.name == "playlist" and mode(writer, one):
            is_whole = False
        else:
            text = argument(writer, node, one, parameter)
            if text is None:
                return "fail()"
            kept.append((one, text))
    means(writer, node)
    text = written(writer, node, kept, is_whole)
    return writer.stopping(node, text) if stops(writer, node) else text


def stops(writer: "Rewriter", node: Node) -> bool:
    """Whether a call that stays may stop there by itself, though its sources do not."""
    name = next((writer.known_text(one.value) for one in node.args if one.label is None), None)
    return node.name == "crossfade" or node.name == "single" and (name or "").startswith("annotate:")


def written(writer: "Rewriter", node: Node, kept: List[Tuple[Argument, str]], is_whole: bool) -> str:
    """A call with those of its arguments that are kept."""
    if is_whole and node.name == writer.tree.word(node.first):
        return writer.ended(node, writer.spliced(node, [(one.value, text) for one, text in kept]))
    return joined(writer, node, [text if one.label is None else f"{one.label}={text}" for one, text in kept])


def joined(writer: "Rewriter", node: Node, texts: List[str]) -> str:
    """A call with these arguments, on lines of their own where those of the old one stand so."""
    is_apart = len(node.args) > 1 and all(writer.tree.is_apart(one.first) for one in node.args)
    if not is_apart or not texts:
        return f"{node.name}({', '.join(texts)})"
    text, at = writer.tree.text, writer.tree.at(node.args[0])
    indent = text[len(text[:at].rstrip(" \t")):at]
    before = text[text.rfind("\n", 0, writer.tree.at(node)) + 1:]
    line = before[:len(before) - len(before.lstrip(" \t"))]
    return f"{node.name}(\n{indent}" + f",\n{indent}".join(texts) + f"\n{line})"


def is_id(writer: "Rewriter", node: Node, one: Argument) -> bool:
    """Whether an argument is the id of a source, which each call that makes one takes."""
    if one.label != "id" or node.name in ("set", "output.file"):
        return False
    return one.value.kind == "text" or one.value.kind == "name" and one.value.name in writer.scope.values


def leave_out(writer: "Rewriter", node: Node, one: Argument) -> None:
    """Notes that an argument is left out."""
    value = writer.tree.raw(one.value).strip("\"'")
    row = writer.classes.of_argument(node.name, one.label, value)
    sort = row.sort if row else SAME if one.label == "id" else LESS
    writer.note(sort, one, f"`{one.label}=` of `{node.name}` is left out" + (row.why if row else ""))


def mode(writer: "Rewriter", one: Argument) -> bool:
    """Whether the mode of a playlist is another one than its order."""
    if one.value.kind != "text" or content(writer.tree.raw(one.value)) == "normal":
        return False
    row = writer.classes.of_argument("playlist", "mode", content(writer.tree.raw(one.value)))
    writer.note(LESS, one, f"`{writer.short(one)}`: the list is played in its order{row.why if row else ''}")
    return True


def argument(writer: "Rewriter", node: Node, one: Argument, parameter: Optional[Parameter]) -> Optional[str]:
    """The value of an argument of this language; nothing where the file that it names is not known."""
    from liq.adopting.rewriting import due_of
    kind, value = parameter.type if parameter else "", writer.constant(one.value)
    if kind.startswith("list of (predicate") and value.kind == "list":
        return writer.ended(value, writer.spliced(value, [(item, pair(writer, item.value)) for item in value.args]))
    if kind.startswith("decimal"):
        return writer.decimal(value)
    if node.name in ("single", "playlist") and kind.startswith("text") and one.label is None:
        name: Optional[str] = writer.file_name(node.name, value)
        return name
    return writer.new(value, "summands" if node.name == "add" and due_of(kind) == "sources" else due_of(kind))


def pair(writer: "Rewriter", node: Node) -> str:
    """A pair of a predicate and a source."""
    if node.kind != "tuple" or len(node.args) != 2:
        return writer.new(node)
    first, second = (one.value for one in node.args)
    if first.kind in ("braces", "bool"):
        return writer.spliced(node, [(first, writer.new(first, "predicate")), (second, writer.new(second, "source"))])
    why = "is a function, and no predicate of times: write when it holds, as `{6h-22h}`"
    stand = writer.lost(first, "predicate", why)
    return writer.spliced(node, [(first, stand), (second, writer.new(second, "source"))])


def file_name(writer: "Rewriter", call_name: str, value: Node) -> Optional[str]:
    """The name of a file or a list; nothing where it is not known."""
    name = writer.known_text(value)
    if name is None:
        if value.kind == "if" or value.kind == "name" and may_be_text(writer, value.name):
            return writer.new(value, "text")
        writer.lost(value, "source", writer.why_untold(value))
        return None
    if ADDRESS.match(name) and not name.startswith("annotate:"):
        writer.lost(value, "source", "is asked for there, and a name of a file here: save it before")
        return None
    made: Optional[str] = written_out(writer, value, name)
    made = listed(writer, value, made or "") if call_name == "playlist" else made
    if made == name:
        return writer.new(value, "text")
    writer.notes.differs = writer.notes.differs or made is None or not made.startswith(name) or os.path.isdir(name)
    return None if made is None else quoted(made)


def may_be_text(writer: "Rewriter", name: str) -> bool:
    """Whether a name stands for a text that is known where it is bound: that of a parameter, or a choice of two."""
    node = writer.scope.nodes.get(name)
    return name in writer.scope.values and (node is None or node.kind in ("if", "text") or writer.known_text(node) is not None)


def written_out(writer: "Rewriter", value: Node, name: str) -> str:
    """A name without the metadata in front of it, and with the folder of the user in place of `~`."""
    found = re.fullmatch(r"annotate:(?:[^:\"]|\"[^\"]*\")*:(.*)", name, re.S)
    if found:
        writer.note(LESS, value, f"the metadata of `{name}` are left out")
        name = found[1]
    if name == "~" or name.startswith("~/"):
        made = os.path.expanduser(name)
        if made != name:
            writer.note(SAME, value, f"`{name}` is `{made}`: `~` is the folder of a user")
        return made
    return name


def listed(writer: "Rewriter", value: Node, name: str) -> Optional[str]:
    """The name of a list; nothing where it is none that is read here."""
    if name.lower().endswith(OTHER_LISTS):
        way = f"`liq prepare {name} OUT` makes WAV files of its sounds, and the list `OUT/all.m3u`" \
            if name.lower().endswith(".pls") else "write the names of its files into a list `NAME.m3u`, a line each"
        writer.lost(value, "source", f"is a list of another form: {way}")
        return None
    if re.search(r"\.\w+$", name) and not os.path.isdir(name):
        return name
    made = f"{name.rstrip('/')}/all.m3u"
    writer.note(LESS, value, f"`{name}` is a folder there, and here the list `{made}` is played: `liq prepare FOLDER OUT` "
                "makes WAV files of its sounds, and a list of them")
    return made


def means(writer: "Rewriter", node: Node) -> None:
    """Notes what a call that stays means, where that differs."""
    labels = [one.label for one in node.args]
    if node.name == "playlist" and "mode" not in labels:
        writer.note(LESS, node, "a playlist without `mode=` is played by chance there, and in its order here", False)
    if node.name == "crossfade" and "duration" not in labels:
        writer.note(LESS, node, "`crossfade(s)` is a linear mix of 5 seconds here", False)
    if node.name == "random" and "seed" not in labels:
        writer.note(LESS, node, "`random` takes other tracks at each run there, and here the same ones, by its `seed`",
                    False)
    if node.name == "random" and "seed" in labels:
        writer.note(LESS, node, "`random` takes the tracks of its own numbers: other ones than there", False)
