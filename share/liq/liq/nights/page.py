"""The page of a night: the words of liq-page for it, and its place."""
import os
import subprocess
import sys
from typing import List, Optional, Tuple

from liq.nights import parts, putting
from liq.nights.work import WEEK, Night, time_text
from liq.pages.times import week_text
from liq.reading.programs import FOLDER, TOP
from liq.watching.names import shown

SHOWN = 8               # findings on the page


def notes_of(work: Night, told: List[str]) -> List[str]:
    """What the page says of the borders, and of what was found."""
    more = f"; and {len(told) - SHOWN} more" if len(told) > SHOWN else ""
    notes = [f"Found before: {'; '.join(told[:SHOWN])}{more}."] if told else []
    if work.borders:
        seconds = [(work.start + border // work.station.rate) % WEEK for border in work.borders]
        times = ", ".join(map(week_text, seconds))
        lost = "; ".join(work.station.lost or ["nothing"])
        notes.insert(0, f"Rendered in {len(work.borders) + 1} parts; the later ones begin at {times}. "
                        f"At such a border is lost: {lost}.")
    return notes


def words_of(work: Night, groups: List[List[str]], told: List[str]) -> Tuple[List[str], bytes]:
    """The words of the page, and the report that it reads where there is one file for each output."""
    groups = [[plain(name) for name in group] for group in groups]
    words = [f"--note={text}" for text in notes_of(work, told)] + [f"--week={work.station.file}"]
    if len(groups) == 1 and len(groups[0]) == 1:
        frames = parts.Wave(groups[0][0]).frames
        return words, f"output {groups[0][0]} samples {frames} gaps {work.gaps}\n".encode(errors="surrogateescape")
    firsts = [f"./{group[0]}" if group[0].startswith("-") else group[0] for group in groups]     # a name, and no option
    return words + [word for first, group in zip(firsts, groups)
                    for word in [first] + [f"--then={other}" for other in group[1:]]], b""


def plain(name: str) -> str:
    """A name that no option begins with."""
    return f"./{name}" if name.startswith("-") else name


def page_of(work: Night, groups: List[List[str]], told: List[str]) -> Optional[str]:
    """Makes the page of the night and puts it in its place; its name, or nothing."""
    name = work.station.outputs[0] + ".html"
    words, report = words_of(work, groups, told)
    command = [sys.executable, os.path.join(TOP, "bin", "liq-page"), f"--sound={os.path.dirname(name) or '.'}",
               f"--start={time_text(work.start)}"]
    programs = os.path.dirname(os.path.abspath(work.station.companion.path))
    done = subprocess.run(command + words, input=report, stdout=subprocess.PIPE, check=False,
                          env={**os.environ, FOLDER: programs})
    if done.returncode:
        return None
    work.rooms.first.write("page", done.stdout)
    putting.put(work.rooms, [(work.rooms.first, "page", name)])
    return name


def last_words(name: Optional[str], page: str) -> str:
    """What the last line says of the page."""
    if name:
        return f"page {shown(name)}"
    return "no page" + (f", and {shown(page)} is that of an earlier night" if os.path.exists(page) else "")
