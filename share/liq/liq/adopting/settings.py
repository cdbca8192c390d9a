"""The two settings that have an effect."""
import re
from typing import Optional, TYPE_CHECKING

from liq.adopting import numbers
from liq.adopting.notes import SAME, YOU
from liq.adopting.tree import Statement

if TYPE_CHECKING:
    from liq.adopting.rewriting import Rewriter

KEYS = {"frame.audio.samplerate": "frame.audio.samplerate", "audio.samplerate": "frame.audio.samplerate",
        "frame.duration": "frame.duration"}
SETTING = re.compile(r"""(?:settings\.(?P<dotted>[a-z_.]+?)(?:\.set\(|\s*:=\s*)\s*
                         |set\(\s*["'](?P<key>[a-z_.]+)["']\s*,\s*)
                         (?P<value>[\d._]+)\s*\)?""", re.X)


def setting(writer: "Rewriter", statement: Statement) -> Optional[str]:
    """One of the two settings as it is written here, or nothing where it is none of them."""
    raw = writer.tree.raw(statement)
    match = SETTING.fullmatch(raw)
    key = KEYS.get(match["dotted"] or match["key"]) if match else None
    if match is None or key is None:
        return None
    form = numbers.whole if key != "frame.duration" else numbers.decimal
    value = form(match["value"]) if "." not in match["value"] or key == "frame.duration" else None
    if value is None:
        writer.note(YOU, statement, f"`{key}` has no value that it takes here: it is left out")
        return ""
    new = f'set("{key}", {value})'
    if new != raw:
        writer.note(SAME, statement, f"the setting is written `{new}`")
    return new
