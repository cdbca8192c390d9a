"""What is told of the week of the switches, as notes in the text of a picture."""
import functools
import textwrap
from typing import Iterator, Tuple

from liq.weeks.told import Week

WIDTH = 38
MOST = 20                  # lines of `week` in a note: more than that nobody reads in a picture
COLOUR = "#8a5a00"
NOTE = f'shape=note, style=filled, fillcolor="#fff6dd", color="{COLOUR}", fontcolor="{COLOUR}", fontsize=9'
LINE = f'style=dotted, color="{COLOUR}", arrowhead=none'
END = "}\n"                # of the text of a picture


@functools.lru_cache(maxsize=256)
def label(texts: Tuple[str, ...]) -> str:
    """The lines of a note; no text of `week` has a sign that graphviz takes for its own."""
    more = [f"and {len(texts) - MOST} more"] if len(texts) > MOST else []
    return "\\n".join(line for text in [*texts[:MOST], *more] for line in textwrap.wrap(text, WIDTH))


def notes(week: Week) -> Iterator[str]:
    """The note at each switch of which something is told."""
    for number, _, texts in week.switches:
        yield f'w{number} [label="{label(texts)}", {NOTE}];\nw{number} -> n{number} [{LINE}];\n'


def noted(picture: str, week: Week) -> str:
    """The text of a picture with its notes."""
    return picture.removesuffix(END) + "".join(notes(week)) + END if picture.endswith(END) else picture
