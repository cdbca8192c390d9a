"""Calls of Liquidsoap that are said here by other ones. Each function returns the text, or nothing where the arguments
are not those that it knows. `SPECIAL` has the labels that each of them speaks for: all others are told as lost, and a
call of which one is lost is never of the class `same`."""
import re
from typing import TYPE_CHECKING, Callable, Dict, List, NamedTuple, Optional, Tuple

from liq.adopting import numbers
from liq.adopting.notes import LESS, SAME
from liq.adopting.tree import Node

if TYPE_CHECKING:
    from liq.adopting.rewriting import Rewriter

MOST = 50              # times that a source stands for its weight


class Made(NamedTuple):
    """A text in the place of a call, the class of the edit as far as no label is lost, and what is said of it."""
    text: str
    sort: str
    what: str


def bare(node: Node) -> List[Node]:
    """The arguments without labels."""
    return [one.value for one in node.args if one.label is None and one.value is not None]


def labelled(node: Node, label: str) -> Optional[Node]:
    """The value of an argument with a label, or nothing."""
    return next((one.value for one in node.args if one.label == label), None)


def is_flag(writer: "Rewriter", node: Node, label: str, due: str) -> bool:
    """Whether a label has this value, as `true`, also in braces."""
    value = labelled(node, label)
    return value is not None and writer.tree.raw(value).strip("{} \t") == due


def weights_of(writer: "Rewriter", node: Node) -> Optional[Tuple[List[str], List[Node], Node]]:
    """The weights of a call and the items of its list, or nothing where they are not written out, one for one."""
    weights, sources = labelled(node, "weights"), bare(node)
    if weights is None or weights.kind != "list" or len(sources) != 1 or sources[0].kind != "list":
        return None
    items = [one.value for one in sources[0].args]
    texts = [writer.tree.raw(one.value) for one in weights.args]
    return (texts, items, weights) if len(texts) == len(items) else None


def turns(writer: "Rewriter", node: Node) -> Optional[Made]:
    """`rotate` and `random` with weights: sources that stand several times, each bound to a name before, since a call
    that stands twice is two sources."""
    found = weights_of(writer, node)
    if not found or not all(re.fullmatch(r"\d+", text) and 0 < int(text) < MOST for text in found[0]):
        return None
    texts, items, weights = found
    made = [", ".join([writer.bound_above(item, "turn") if int(text) > 1 else writer.new(item, "source")] * int(text))
            for text, item in zip(texts, items)]
    is_ring = node.name == "rotate"
    seed = labelled(node, "seed")
    front = f"seed={writer.tree.raw(seed)}, " if seed is not None and not is_ring else ""
    return Made(f"{node.name}({front}[{', '.join(made)}])", SAME if is_ring else LESS,
                f"`weights={writer.short(weights)}` is written as sources that stand several times"
                + ("" if is_ring else ", a share that is chosen by `seed`"))


def mixed(writer: "Rewriter", node: Node) -> Optional[Made]:
    """`add` with weights: each source amplified by its own."""
    found = weights_of(writer, node)
    if not found or not all(re.fullmatch(r"\d+\.?\d*|\.\d+", text) for text in found[0]):
        return None
    texts, items, weights = found
    values = [float(text) for text in texts]
    is_sum = is_flag(writer, node, "normalize", "false")
    if not is_sum and (labelled(node, "normalize") is not None and not is_flag(writer, node, "normalize", "true")
                       or not sum(values)):
        return None
    shares = [value if is_sum else value / sum(values) for value in values]
    made = [writer.new(item, "summand") if share == 1 else f"amplify({numbers.shown(share)}, {writer.new(item, 'summand')})"
            for share, item in zip(shares, items)]
    return Made(f"add(normalize=false, [{', '.join(made)}])", SAME if is_sum else LESS,
                f"`weights={writer.short(weights)}` is written as sources that are amplified"
                + ("" if is_sum else "; where one of them stops, the others grow no louder"))


def factor(writer: "Rewriter", node: Node) -> Optional[Made]:
    """`lin_of_dB` or `dB_of_lin` of a number."""
    given, form = bare(node), numbers.factor if node.name == "lin_of_dB" else numbers.decibels
    text = form(writer.tree.raw(given[0])) if len(given) == 1 and given[0].kind in ("number", "int") else None
    what = "the factor" if node.name == "lin_of_dB" else "in decibels"
    return Made(text, SAME, f"`{writer.short(node)}` is {what} {text}") if text is not None else None


def safe(writer: "Rewriter", node: Node) -> Made:
    """`playlist.safe`, of which the labels are those of a playlist."""
    return Made(f"mksafe({renamed(writer, node, 'playlist')})", SAME, "`playlist.safe(..)` is `mksafe(playlist(..))`")


def renamed(writer: "Rewriter", node: Node, name: str) -> str:
    """A call as if it had another name."""
    before, node.name = node.name, name
    try:
        return writer.of_call(node)
    finally:
        node.name = before


def once_through(writer: "Rewriter", node: Node) -> Optional[Made]:
    """`playlist.once`."""
    given = bare(node)
    if len(given) != 1:
        return None
    name = writer.file_name("playlist", given[0])
    if name is None:
        return Made("fail()", LESS, "`playlist.once(..)` becomes `fail()`")
    if is_flag(writer, node, "random", "true"):
        writer.note(LESS, node, "`random=true`: the list is played in its order: mix the lines of the list before, as "
                    "`liq prepare --shuffle=SEED` or `shuf` does")
    return Made(f"playlist(loop=false, {name})", SAME, "`playlist.once(..)` is `playlist(loop=false, ..)`")


def is_times(writer: "Rewriter", node: Node) -> bool:
    """Whether braces hold times alone."""
    tokens = writer.tree.tokens[node.first + 1:node.behind - 1]
    return bool(tokens) and all(one.kind == "time" or one.text in ("-", "(", ")", "&&", "||", "and", "or", "not", "true",
                                                                  "false") for one in tokens)


def at(writer: "Rewriter", node: Node) -> Optional[Made]:
    """`at`, `mkavailable` and `source.available`: a source at some times."""
    given = bare(node)
    named = labelled(node, "available")
    if len(given) == 1 and named is not None:
        given = [named, *given]
    when = next((one for one in given if one.kind == "braces"), None)
    sources = [one for one in given if one is not when]
    if when is None and len(given) == 2 or when is not None and not is_times(writer, when):
        return Made("fail()", LESS, f"`{node.name}(..)` becomes `fail()`, as if its predicate, which is none of times, "
                    "never held")
    if when is None or len(sources) != 1:
        return None
    flag = "track_sensitive=false, " if node.name == "source.available" and not is_flag(
        writer, node, "track_sensitive", "true") or is_flag(writer, node, "track_sensitive", "false") else ""
    return Made(f"switch({flag}[({writer.new(when, 'predicate')}, {writer.new(sources[0], 'source')})])", SAME,
                f"`{node.name}(..)` is a `switch` of one pair")


def once(writer: "Rewriter", node: Node) -> Optional[Made]:
    """`once`: a source for one track."""
    given = bare(node)
    if len(given) != 1:
        return None
    return Made(f"sequence([{writer.new(given[0], 'source')}, {writer.fail(node)}])", SAME, "`once(s)` is `sequence([s, fail()])`")


def skipping(writer: "Rewriter", node: Node) -> Optional[Made]:
    """`fallback.skip`."""
    given, second = bare(node), labelled(node, "fallback")
    if len(given) != 1 or second is None:
        return None
    return Made(f"fallback(track_sensitive=false, [{writer.new(given[0], 'source')}, {writer.new(second, 'source')}])",
                LESS, "`fallback.skip` is a `fallback` that waits for no track; nothing is skipped")


def mixed_over(writer: "Rewriter", node: Node) -> Optional[Made]:
    """`smooth_add`: both at once."""
    normal, special = labelled(node, "normal"), labelled(node, "special")
    if normal is None or special is None:
        return None
    return Made(f"add(normalize=false, [{writer.new(normal, 'summand')}, {writer.new(special, 'summand')}])", LESS,
                "`smooth_add` is the sum of both: the music is not lowered while the other one plays")


def mixing(writer: "Rewriter", node: Node) -> Optional[Made]:
    """All sorts of `crossfade`: a linear mix."""
    given = [one for one in bare(node) if one.kind != "fun"
             and not (one.kind == "name" and one.name in writer.scope.defs)]
    labels = {one.label for one in node.args} - {None, "id", "duration"}
    if node.name == "crossfade" and not labels and len(bare(node)) == 1 or not given:
        return None
    duration = labelled(node, "duration") or labelled(node, "start_next")
    length = writer.decimal(duration) if duration is not None else None
    made = f"crossfade({f'duration={length}, ' if length else ''}{writer.new(given[-1], 'source')})"
    return Made(writer.stopping(node, made), LESS,
                f"`{node.name}(..)` is a linear mix of {writer.tree.raw(duration) if duration else '5.'} seconds at each "
                "change of track; its functions and its rules by loudness are left out")


def queued(writer: "Rewriter", node: Node) -> Optional[Made]:
    """`buffer` under its other names."""
    given = bare(node)
    kept = "".join(f"{label}={writer.decimal(value)}, " for label in ("buffer", "max")
                   if (value := labelled(node, label)) is not None)
    return Made(f"buffer({kept}{writer.new(given[-1], 'source')})", LESS,
                f"`{node.name}(..)` is a plain `buffer(..)`") if given else None


def both_sides(writer: "Rewriter", node: Node) -> Optional[Made]:
    """`audio_to_stereo`: of what is mono by `mean` it makes stereo; all else is stereo already."""
    given = bare(node)
    if len(given) != 1:
        return None
    source, text = given[0], writer.new(given[0], "source")
    if source.kind == "name":
        source = writer.scope.nodes.get(source.name, source)
    if source.kind == "call" and source.name == "mean":
        return Made(f"stereo({text})", SAME, f"`{node.name}(..)` is `stereo(..)`")
    if any(token.kind == "name" and token.text == "mean" for token in writer.tree.tokens):
        return Made(text, LESS, f"`{node.name}(..)` is left out, its source stays: write `stereo(..)` round it if it is "
                    "mono")
    return Made(text, SAME, f"`{node.name}(..)` is left out, its source stays: what is not made by `mean` is stereo")


def always(writer: "Rewriter", node: Node) -> Optional[Made]:
    """`source.mksafe`."""
    given = bare(node)
    if len(given) != 1:
        return None
    return Made(f"mksafe({writer.new(given[0], 'source')})", SAME, f"`{node.name}(..)` is `mksafe(..)`")


def spaced(writer: "Rewriter", node: Node) -> Optional[Made]:
    """`delay`: in a sum, silence between the tracks."""
    given = bare(node)
    if len(given) != 2:
        return None
    if writer.due != "summand":
        return Made(writer.left(node, "has no form here but in a sum: `switch` by the clock"), "", "")
    text = writer.new(given[1], "source")
    return Made(writer.stopping(node, f"rotate([{text}, blank(duration={writer.decimal(given[0])})])"), LESS,
                f"`delay(..)` is silence of {writer.tree.raw(given[0])} seconds behind each track")


def unset(writer: "Rewriter", node: Node) -> Made:
    """`getenv` and its like have no answer here."""
    return Made(writer.left(node, "asks the system: write the answer into the script"), "", "")


Maker = Callable[..., Optional[Made]]
WEIGHED: Tuple[str, ...] = ("weights", "seed")
MIXING: Tuple[str, ...] = ("duration", "start_next")
SPECIAL: Dict[str, Tuple[Maker, Tuple[str, ...]]] = {
    "rotate": (turns, ("weights",)), "random": (turns, WEIGHED), "add": (mixed, ("weights", "normalize")),
    "lin_of_dB": (factor, ()), "dB_of_lin": (factor, ()), "playlist.once": (once_through, ("random",)), "at": (at, ()),
    "mkavailable": (at, ("available", "track_sensitive")), "source.available": (at, ("track_sensitive",)),
    "once": (once, ()), "fallback.skip": (skipping, ("fallback",)), "smooth_add": (mixed_over, ("normal", "special")),
    "buffer.adaptative": (queued, ("buffer", "max")), "buffer.adaptive": (queued, ("buffer", "max")),
    "cross": (mixing, MIXING), "cross.smart": (mixing, MIXING), "cross.simple": (mixing, MIXING),
    "smart_cross": (mixing, MIXING), "smart_crossfade": (mixing, MIXING), "crossfade": (mixing, MIXING),
    "crossfade.smart": (mixing, MIXING), "crossfade.simple": (mixing, MIXING), "getenv": (unset, ()),
    "environment.get": (unset, ()), "audio_to_stereo": (both_sides, ()), "to_stereo": (both_sides, ()),
    "playlist.safe": (safe, ()), "source.mksafe": (always, ()), "delay": (spaced, ())}
# Those whose labels another call speaks for.
HANDED_ON = {"playlist.safe": "playlist"}


def left_labels(writer: "Rewriter", node: Node, spoken: Tuple[str, ...]) -> bool:
    """Notes each argument with a label that nothing speaks for; whether one is lost."""
    is_lost = False
    for one in node.args:
        if one.label is not None and one.label not in (*spoken, "id"):
            row = writer.classes.of_argument(node.name, one.label, writer.tree.raw(one.value).strip("\"'"))
            sort = row.sort if row else LESS
            writer.note(sort, one, f"`{one.label}=` of `{node.name}` is left out{row.why if row else ''}")
            is_lost = is_lost or sort != SAME
    return is_lost


def special(writer: "Rewriter", node: Node) -> Optional[str]:
    """What a call is said by, or nothing where it is none of these, or its arguments are not known."""
    if node.name not in SPECIAL:
        return None
    maker, spoken = SPECIAL[node.name]
    made = maker(writer, node)
    if made is None:
        return None
    if made.what:
        handed_on = HANDED_ON.get(node.name)
        is_lost = loses(writer, node, handed_on) if handed_on else left_labels(writer, node, spoken)
        writer.note(LESS if is_lost else made.sort, node, made.what)
    return made.text


def loses(writer: "Rewriter", node: Node, name: str) -> bool:
    """Whether a label is lost of a call that is said as another one, which notes its own labels."""
    rows = [writer.classes.of_argument(name, one.label, writer.tree.raw(one.value).strip("\"'")) for one in node.args
            if one.label not in (None, "id") and writer.table[name].parameter(one.label) is None]
    return any(row is None or row.sort != SAME for row in rows)
