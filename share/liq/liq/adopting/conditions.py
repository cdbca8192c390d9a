"""The branches of `%ifdef` and its like, by what Liquidsoap 2.x of Debian has."""
import re
from typing import Iterator, List, Optional, Tuple

from liq.adopting.tree import Statement, Tree

# The version for which a script is read, and the formats that it can encode.
VERSION = (2, 1, 3)
ENCODERS = ("%mp3", "%vorbis", "%flac", "%wav", "%opus", "%speex", "%theora", "%ogg", "%ffmpeg", "%fdkaac", "%external",
            "%shine", "%avi")
# Words that it lacks, by their fronts.
LACKING = ("output.ndi", "input.ndi", "input.v4l2", "output.aplay", "input.gstreamer", "output.gstreamer", "dssi.", "lilv.")


def holds(tree: Tree, statement: Statement) -> Optional[bool]:
    """Whether the condition of a directive holds, or nothing where it has none."""
    words = tree.raw(statement).split(None, 1)
    rest = words[1].strip() if len(words) > 1 else ""
    if statement.name in ("%ifdef", "%ifndef"):
        return (not rest.startswith(LACKING)) == (statement.name == "%ifdef")
    if statement.name in ("%ifencoder", "%ifnencoder"):
        return (rest.split("(")[0] in ENCODERS) == (statement.name == "%ifencoder")
    if statement.name == "%ifversion":
        match = re.match(r"(>=|<=|==|>|<)?\s*([\d.]+)", rest)
        if not match:
            return None
        other = tuple(int(part) for part in match[2].split(".") if part)
        own = VERSION[:len(other)]
        return {"<": own < other, "<=": own <= other, ">": own > other, ">=": own >= other}.get(match[1] or "==", own == other)
    return None


def branches(tree: Tree, statements: List[Statement]) -> Iterator[Tuple[Statement, bool]]:
    """Each statement, and whether it is taken. A directive whose branch is known is not."""
    opened: List[Optional[bool]] = []
    for statement in statements:
        name = statement.name if statement.kind == "directive" else ""
        if name.startswith("%if"):
            opened.append(holds(tree, statement))
            yield statement, opened[-1] is None
        elif name == "%else" and opened:
            yield statement, opened[-1] is None
            opened[-1] = None if opened[-1] is None else not opened[-1]
        elif name == "%endif" and opened:
            yield statement, opened.pop() is None
        else:
            yield statement, False not in opened
