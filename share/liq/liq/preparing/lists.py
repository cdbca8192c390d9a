"""The lists of what was made, and the table of titles."""
import os
import re
from typing import Callable, Dict, List, Mapping, NamedTuple, Tuple

from liq.preparing import names
from liq.preparing.sounds import TAGS
from liq.reading.facts import Facts
from liq.watching.names import shown

TITLES = "titles.tsv"


class Size(NamedTuple):
    """How large and how long a WAV file is."""
    bytes: int
    seconds: float


def lists_of(sources: List[Tuple[str, str]], whole: str, has_folders: bool,
             mixed: Callable[[List[str]], List[str]]) -> Dict[str, List[str]]:
    """The lists, by their names the sources in each, in an order: one of all, and where that is wanted one for each
    folder."""
    order = [source for source, _ in sources]
    lists, named = {whole: order}, {}
    for source in order if has_folders else []:
        folder = os.path.dirname(source)
        while folder:
            if folder not in named:
                named[folder] = name_of(folder, lists)
                lists[named[folder]] = []
            lists[named[folder]].append(source)
            folder = os.path.dirname(folder)
    return {name: mixed(members) for name, members in lists.items()}


def name_of(folder: str, lists: Dict[str, List[str]]) -> str:
    """How the list of a folder is called: as the folder, or with a number where another list has that name."""
    front = "/".join(names.plain(part) for part in folder.split("/"))
    if f"{front}.m3u" not in lists:
        return f"{front}.m3u"
    return next(name for k in range(2, len(lists) + 3) if (name := f"{front} ({k}).m3u") not in lists)


def line_of(name: str, entries: List[str], sizes: Mapping[str, Size], rate: int, limits: Facts) -> str:
    """What is told of a list, by the limits of liq."""
    size = sum(sizes[entry].bytes for entry in set(entries))
    hours = sum(sizes[entry].seconds for entry in entries) / 3600
    text = f"list {shown(name)}: {len(entries)} file{'s' * (len(entries) != 1)}, {hours:.1f} h"
    if size > limits.most:
        text += (f"; more than one script may play ({limits.most} bytes, {limits.most / 4 / rate / 3600:.1f} h of stereo): "
                 "use lists of folders, or liq night")
    if sum(len(entry.encode()) + 1 for entry in entries) > limits.list_most:
        text += f"; longer than liq reads ({limits.list_most} bytes)"
    return text


def titles_of(told: Mapping[str, str], entries: List[str]) -> List[str]:
    """The lines of the table for a source that was made into these files."""
    return [line for entry in entries if (line := line_of_titles(entry, told))]


def line_of_titles(name: str, told: Mapping[str, str]) -> str:
    """A line of the table: file, artist, title, album, ISRC and label, with TABs between; none for a file whose name no
    line can hold."""
    def cell(text: str) -> str:
        return " ".join(re.split(r"[\t\r\n\0]+", text))
    return "" if re.search(r"[\t\r\n\0]", name) else "\t".join([name, *(cell(told.get(tag, "")) for tag in TAGS)])
