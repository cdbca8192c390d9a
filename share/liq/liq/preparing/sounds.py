"""One sound: what ffprobe tells of its file."""
import json
import math
import os
import re
from dataclasses import dataclass
from typing import Dict, List

from liq.preparing.programs import Broken, Programs

DAY = 86400            # seconds of the longest sound that is taken
WORDS = ["ffprobe", "-v", "level+warning", "-print_format", "json=string_validation=ignore", "-show_format", "-show_streams",
         "-select_streams", "a"]
ESTIMATE = "Estimating duration from bitrate"      # what ffprobe says where no length is told, as in a VBR file without a head
WARNING = "[warning] "
PLAIN = ("Invalid argument", "End of file", "Invalid data found when processing input", "Operation not permitted")
# The tags that tell a text, the first that is there.
TAGS = {"artist": ("artist",), "title": ("title",), "album": ("album",), "isrc": ("isrc", "tsrc"),
        "label": ("label", "publisher", "organization")}


@dataclass
class Told:
    """What is told of a sound: its length in seconds, 0 where it is not known, its sides, 1 or 2, its texts, and whether
    the length is an estimate, which may be far too long."""
    seconds: float
    sides: int
    artist: str = ""
    title: str = ""
    album: str = ""
    isrc: str = ""
    label: str = ""
    is_estimate: bool = False

    def texts(self) -> Dict[str, str]:
        """The texts by their names."""
        return {name: getattr(self, name) for name in TAGS}


def state_of(path: str) -> List[int]:
    """What tells that a file is the same as before: its bytes and its time."""
    there = os.stat(path)
    return [there.st_size, there.st_mtime_ns]


def last_line(text: str, path: str) -> str:
    """The last line that ffmpeg says and that is no warning, without its own name and that of the file."""
    lines = [re.sub(r"^(\[[^\]]*\] )+", "", line).replace(f"file:{path}: ", "") for line in text.strip().split("\n")
             if WARNING not in line]
    last = clean(lines[-1].strip()) if lines else ""
    return f"ffmpeg cannot read it: {last}" if last in PLAIN else last or "ffmpeg cannot read it"


def clean(text: str) -> str:
    """A text with a mark in place of each byte that is no UTF-8."""
    return text.encode("utf-8", "surrogateescape").decode("utf-8", "replace")


def text_of(tag: str) -> str:
    """The text of a tag. One that is no UTF-8, as in old MP3 files, is taken for Windows-1252, which holds Latin-1."""
    data = tag.encode("utf-8", "surrogateescape")
    try:
        return data.decode()
    except UnicodeDecodeError:
        return data.decode("cp1252", "replace")


def number_of(text: object) -> float:
    """A number of ffprobe; 0 where it tells none."""
    try:
        number = float(str(text))
    except ValueError:
        return 0.0
    return number if math.isfinite(number) and number > 0 else 0.0


def looked_at(programs: Programs, path: str) -> Told:
    """The sound in a file; Broken where there is none that can be made."""
    printed, said, status = programs.call([*WORDS, f"file:{path}"], programs.look)
    try:
        told = json.loads(printed or "{}")
    except ValueError:
        told = {}
    if status != 0 or not told.get("streams"):
        raise Broken(last_line(said, path) if status != 0 and said.strip() else "there is no sound in it")
    stream, whole = told["streams"][0], told.get("format", {})
    tags = {key.lower(): value for part in (whole, stream) for key, value in part.get("tags", {}).items()}
    texts = {name: next((text_of(tags[key]) for key in keys if tags.get(key)), "") for name, keys in TAGS.items()}
    seconds = number_of(stream.get("duration")) or number_of(whole.get("duration"))
    if seconds > DAY:
        raise Broken(f"it tells {seconds / 3600:.0f} hours, and a sound may last {DAY // 3600}")
    return Told(seconds, min(2, int(number_of(stream.get("channels"))) or 2), is_estimate=ESTIMATE in said, **texts)
