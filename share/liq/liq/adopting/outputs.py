"""The outputs of a script of Liquidsoap, each as one that writes a file."""
import re
from typing import TYPE_CHECKING, Iterator, List, Optional, Sequence, Set, Tuple

from liq.adopting.marks import mark, plain
from liq.adopting.notes import LESS, SAME
from liq.adopting.scope import Scope, content
from liq.adopting.tree import Argument, Node, Statement

if TYPE_CHECKING:
    from liq.adopting.rewriting import Rewriter

ENDS = r"\.(mp3|ogg|oga|opus|aac|m4a|flac|wav|m3u8|webm|ts|mp4)$"
FILLED = r"%[A-Za-z]|#\{.*?\}|\$\(.*?\)"
DATE = re.compile(r"%[A-Za-z]|\$\(.*?\)")
# Labels of which nothing is said: they tell where a stream goes, and what it is called.
PLACES = ("id", "host", "port", "mount", "password", "user", "name", "description", "genre", "url", "public",
          "encoding", "icy_metadata", "icy_id", "protocol", "device", "fallible", "send_icy_metadata", "headers", "format",
          "method", "connection_timeout", "timeout", "transport", "bufferize", "clock_safe", "infallible",
          "registry", "aim", "icq", "irc", "segment_duration", "segments", "segments_overhead", "playlist", "extra_tags",
          "ipv6", "restart", "restart_delay", "verbose", "content_type")
CALLED = ("on_start", "on_stop", "on_connect", "on_disconnect", "on_error")


def is_output(name: str) -> bool:
    """Whether a name is that of an output."""
    return name.startswith("output.") or name == "output"


def outputs_in(node: Optional[Node]) -> List[Node]:
    """The calls of outputs in a value, but those in functions."""
    if node is None:
        return []
    if node.kind == "call" and is_output(node.name):
        return [node]
    if node.kind == "method":
        return [found for part in node.parts for found in outputs_in(part)]
    if node.kind in ("call", "list", "tuple", "paren"):
        return [found for one in node.args for found in outputs_in(one.value)]
    if node.kind == "block":
        return [found for statement in node.parts for found in outputs_in(statement.value)]
    return []


def plays(node: Optional[Node], scope: Scope, seen: Tuple[str, ...] = ()) -> bool:
    """Whether a value is a call of a def in which an output stands."""
    if node is None or node.kind != "call" or node.name not in scope.defs or node.name in seen:
        return False
    return any(outputs_in(inner.value) or plays(inner.value, scope, (*seen, node.name))
               for inner in scope.defs[node.name].body)


def bare_of(node: Node) -> List[Node]:
    """The arguments without labels."""
    return [one.value for one in node.args if one.label is None and one.value is not None]


def given_name(node: Node) -> Optional[Node]:
    """The value that names what an output writes, or nothing."""
    bare = bare_of(node)
    text = next((value for value in bare[:-1] if value.kind in ("text", "op")), None)
    if text is None and node.name == "output.file" and len(bare) == 3 and bare[1].kind == "name":
        text = bare[1]
    return text or next((one.value for one in node.args if one.label in ("mount", "playlist", "name")), None)


def base_of(writer: "Rewriter", node: Node, number: int) -> str:
    """The name of the file that an output writes: that of its mount, or of its file."""
    value = given_name(node)
    known = writer.known_text(value) if value is not None else None
    if known is None and value is not None and value.kind == "text":
        known = writer.tree.raw(value)[1:-1]
    return file_of(known or "", number, node.name == "output.file")


def file_of(old: str, number: int, is_file: bool) -> str:
    """The name of a WAV file for a mount, or for a file."""
    if is_file and old.endswith(".wav") and not re.search(FILLED + r"|[\\\x00-\x1f]", old):
        return old
    parts = re.sub(ENDS, "", re.sub(FILLED, "", old)).split("/")
    fronts = [re.sub(r"[^\w .-]", "", part).strip("-_ .") for part in parts]
    return f"{([front for front in fronts if front] or [f'out{number}'])[-1]}.wav"


def naming(statement: Statement) -> List[Optional[str]]:
    """The parameters of a def that name what an output in it writes."""
    found = {value.name for step in statement.body for node in outputs_in(step.value)
             if (value := given_name(node)) is not None and value.kind == "name"}
    return [one.label for one in statement.parameters if one.label is not None and one.label.lstrip("~") in found]


def name_all(writer: "Rewriter", nodes: Sequence[Node]) -> None:
    """Gives each output the name of a file, each once: those that write files there have theirs first."""
    used: Set[str] = set()
    bases = {node.first: base_of(writer, node, number) for number, node in enumerate(nodes, 1)}
    for node in sorted(nodes, key=lambda node: node.name != "output.file"):
        name = bases[node.first]
        front, again = name[:-len(".wav")], 1
        while name in used:
            again += 1
            name = f"{front}-{again}.wav"
        used.add(name)
        writer.names[node.first] = name


def format_of(writer: "Rewriter", node: Node, bare: List[Node]) -> str:
    """The format of an output."""
    first = bare[0] if len(bare) > 1 and not node.name.endswith("hls") else None
    if first is None or first.kind not in ("format", "name", "op", "method"):
        return "%wav"
    if first.kind == "name":
        found = writer.scope.nodes.get(first.name)
        is_format = first.name in writer.scope.values and (found is None or found.kind == "format")
        return str(writer.new(first, "format")) if is_format else "%wav"
    if first.kind == "format":
        return writer.new(first, "format")
    writer.note(LESS, first, f"`{writer.short(first)}` becomes `%wav`: encode the file or the pipe with another program")
    return "%wav"


def shown_name(writer: "Rewriter", node: Node) -> str:
    """What names the file of an output: its text in quotes, or the parameter of a def."""
    name, value = writer.names.get(node.first), given_name(node)
    if value is not None and value.kind == "name" and value.name not in writer.scope.texts and name is None:
        return mark(writer.tree.at(value)) + value.name
    at = mark(writer.tree.at(value)) if value is not None else ""
    return f'{at}"{name}"' if name is not None else f'{at}"out.wav"'


def output(writer: "Rewriter", node: Node) -> str:
    """An output as one that writes a file."""
    bare = bare_of(node)
    if not bare:
        return writer.left(node, "plays no source that is known")
    shown, value = shown_name(writer, node), given_name(node)
    if node.name == "output.file" and value is not None and DATE.search(writer.tree.raw(value)):
        writer.note(LESS, value, "`%Y` and the like are dates in a name there, and none here: write the date out", False)
    flag = next((one.value for one in node.args if one.label == "fallible"), None)
    falls = "fallible=true, " if flag is not None and writer.tree.raw(flag).strip("{} \t") == "true" else ""
    form, source = format_of(writer, node, bare), writer.new(bare[-1], "source")
    if node.name == "output.file" and len(bare) == 3 and writer.tree.raw(bare[1]) == plain(shown) \
            and all(one.label is None or one.label == "fallible" and one.value.kind == "bool" for one in node.args):
        return writer.spliced(node, [(bare[0], form), (bare[-1], source)])
    told(writer, node, value, plain(shown))
    return str(mark(writer.tree.at(node))) + f"output.file({form}, {falls}{shown}, {source})"


def told(writer: "Rewriter", node: Node, value: Optional[Node], shown: str) -> None:
    """Notes what becomes of an output: the name of its file, and what is left out."""
    where = writer.tree.raw(value) if value is not None else "no name"
    if node.name == "output.file" and value is not None and value.kind == "op" \
            and writer.known_text(value) == content(shown):
        writer.note(SAME, value, f"`{where}` is written as one text: {shown}")
    elif node.name != "output.file" or where.strip("'\"") != shown.strip('"'):
        writer.note(LESS, node, f"`{node.name}` of {where} writes the file {shown}")
    for one, why in left(writer, node, [one for one in node.args if one.label not in (None, "fallible")]):
        writer.note(LESS, one, f"`{one.label}=` of `{node.name}` is left out{why}")


def left(writer: "Rewriter", node: Node, dropped: List[Argument]) -> Iterator[Tuple[Argument, str]]:
    """The arguments of an output of which it is said that they are left out, and why."""
    for one in dropped:
        row = writer.classes.of_argument(node.name, one.label)
        if row and row.sort == "same":
            writer.note(row.sort, one, f"`{one.label}=` of `{node.name}` is left out{row.why}")
        elif row:
            yield one, row.why
        elif one.label == "start":
            yield one, ": an output begins with the rendering"
        elif one.label in CALLED or one.label == "dumpfile":
            yield one, ": no function is called" if one.label in CALLED else ": one file is written"
        elif one.label not in PLACES:
            yield one, ": nothing is sent"
