"""The format of an output, as it is said here."""
import re
from typing import TYPE_CHECKING, List

from liq.adopting.notes import LESS, SAME
from liq.adopting.tree import Node

if TYPE_CHECKING:
    from liq.adopting.rewriting import Rewriter

# What an option of `%wav` may be without a loss: what is so here as well.
KEPT = re.compile(r"stereo|stereo=true|channels=2|samplesize=(16|24)|header=true")
SIDES = re.compile(r"mono|stereo=false|mono=true|channels=1")
RATE = re.compile(r"samplerate=(.*)")
SET = re.compile(r"samplerate(?:[\"']\s*,|\.set\(|\s*:=)\s*(\d+)")
USUAL = "44100"


def options(writer: "Rewriter", node: Node) -> List[str]:
    """The options of a format, without blanks."""
    return ["".join(writer.tree.raw(one).split()) for one in node.args]


def lost_of(writer: "Rewriter", node: Node) -> str:
    """What is said of the sides and the rate that an encoder was to write: they are others here."""
    given = options(writer, node)
    found = [text for text in given if SIDES.fullmatch(text)]
    if found:
        return f"; `{found[0]}` is lost: a file has the sides of its source, and `mean(s)` is mono"
    found = [text for text in given if is_other_rate(writer, text)]
    return f"; `{found[0]}` is lost: a file has the rate of the script" if found else ""


def is_other_rate(writer: "Rewriter", text: str) -> bool:
    """Whether an option asks for another rate than that of the script."""
    match, own = RATE.fullmatch(text), SET.search(writer.tree.text)
    return match is not None and match[1] != (own[1] if own else USUAL)


def format_of(writer: "Rewriter", node: Node) -> str:
    """A format: `%wav`, or that of another size of its samples."""
    if node.name != "%wav":
        writer.note(LESS, node, f"`{node.name}` becomes `%wav`: encode the file or the pipe with another program"
                    + lost_of(writer, node))
        return "%wav"
    size = next((writer.tree.raw(one.value) for one in node.args if one.label == "samplesize"), "")
    text = f"%wav(samplesize={size})" if size in ("16", "24") else "%wav"
    raw: str = writer.tree.raw(node)
    if "".join(raw.split()) == text:
        return raw
    lost = [text for text in options(writer, node) if not KEPT.fullmatch(text)
            and (not RATE.fullmatch(text) or is_other_rate(writer, text))]
    why = f": `{', '.join(lost)}` is lost, as a file has the sides of its source, the rate of the script, and 16 bits " \
        "or 24" if lost else ": the kind of a file is that of its source"
    writer.note(LESS if lost else SAME, node, f"`{writer.short(node)}` is written `{text}`{why}")
    return text
