"""The picture of a script for the page: an SVG, and where in it the sources stand."""
import re
import shutil
import subprocess
from typing import Dict, List, NamedTuple, Optional

from liq.reading.companion import Companion, NoAnswer
from liq.weeks.notes import noted
from liq.weeks.told import Week

SECONDS = 10               # for which graphviz may draw
MOST = 1 << 20             # bytes of a picture's text that graphviz is given
BOXES = 600                # sources that can be clicked
PAD = 4.0                  # points round a picture
TOO_LARGE = "the picture is too large to be drawn here; liq picture prints it"
MISSING = "graphviz is missing: install the package graphviz, and the picture of the station stands here"
NODE = re.compile(r"node n(\d+) ([\d.]+) ([\d.]+) ([\d.]+) ([\d.]+) ")


class Picture(NamedTuple):
    """A picture: its SVG, and of each source that can be clicked its number, and its left, top, width and height as
    shares of the picture."""
    svg: bytes
    boxes: "List[Dict[str, object]]"


def picture_of(companion: Companion, file: str, week: Week) -> "tuple[Optional[Picture], str]":
    """The picture of a script; or nothing, and why."""
    if not shutil.which("dot"):
        return None, MISSING
    try:
        picture = companion.picture(file)
    except NoAnswer as error:
        return None, str(error)
    if len(picture) > MOST:
        return None, TOO_LARGE
    text = noted(picture.decode(errors="surrogateescape"), week).encode(errors="surrogateescape")
    if len(text) > MOST:
        return None, TOO_LARGE
    try:
        done = subprocess.run(["dot", "-Tsvg", "-Tplain"], input=text, capture_output=True, check=False, timeout=SECONDS)
    except subprocess.TimeoutExpired:
        return None, f"graphviz takes more than {SECONDS} seconds for this picture; liq picture prints its text"
    except OSError as error:
        return None, f"dot: {error.strerror}"
    return drawn(done.stdout) if done.returncode == 0 else (None, f"graphviz ends with status {done.returncode}")


def drawn(printed: bytes) -> "tuple[Optional[Picture], str]":
    """The picture of what graphviz printed: the SVG, then the places in inches from below."""
    svg, end, plain = printed.partition(b"</svg>\n")
    head = re.search(rb"graph [\d.]+ ([\d.]+) ([\d.]+)", plain)
    if not end or head is None:
        return None, "graphviz prints something else than a picture"
    across, high = float(head[1]) * 72 + 2 * PAD, float(head[2]) * 72 + 2 * PAD
    boxes: List[Dict[str, object]] = []
    for match in NODE.finditer(plain.decode(errors="replace")):
        x, y, width, height = (72 * float(number) for number in match.groups()[1:])
        boxes.append({"source": int(match[1]), "left": (x - width / 2 + PAD) / across,
                      "top": 1 - (y + height / 2 + PAD) / high, "width": width / across, "height": height / high})
    return Picture(svg + end, boxes[:BOXES]), ""
