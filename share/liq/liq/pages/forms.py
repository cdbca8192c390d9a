"""What was played, in the forms that other programs read."""
import csv
import io
from datetime import datetime, timedelta
from typing import Callable, Dict, Iterable, List

from liq.pages.outputs import Output
from liq.pages.plays import Play
from liq.pages.titles import Titles

TRACKS = 99            # of a cue sheet
HEAD = ["date", "time", "seconds", "artist", "title", "album", "isrc", "label", "file"]


def shown_name(play: Play, titles: Titles) -> str:
    return titles.of(play.name) if play.name is not None else "(no title)"


def one_line(text: str) -> str:
    """A text with blanks in place of what would end a line or cannot be printed."""
    return "".join(" " if ord(c) < 32 or c in "\x7f\x85\u2028\u2029" else c for c in text)


def labels(output: Output, titles: Titles) -> str:
    """A label track of Audacity: seconds from, seconds to, name, with TABs between."""
    return "".join(f"{p.start / output.rate:.6f}\t{p.end / output.rate:.6f}\t{one_line(shown_name(p, titles))}\n"
                   for p in output.plays)


def sheet(output: Output, titles: Titles) -> str:
    """A cue sheet of players and disc writers, with 75 frames a second. A name in it has no double quote. A sheet ends
    at 99 tracks, so more of them are several sheets, each behind a remark with its number."""
    def quoted(text: str) -> str:
        return one_line(text).replace('"', "''")
    entries = [(name, first, play) for name, (first, sound) in zip(output.names, output.parts)
               for play in output.plays if first <= play.start < first + sound.frames]
    lines: List[str] = []
    sheets = -(-len(entries) // TRACKS)
    for k, (name, first, play) in enumerate(entries):
        if sheets > 1 and k % TRACKS == 0:
            lines.append(f"REM SHEET {k // TRACKS + 1} OF {sheets}\n")
        if k % TRACKS == 0 or name != entries[k - 1][0]:
            lines.append(f'FILE "{quoted(name)}" WAVE\n')
        frames = (play.start - first) * 75 // output.rate
        lines.append(f'  TRACK {k % TRACKS + 1:02} AUDIO\n    TITLE "{quoted(shown_name(play, titles))}"\n'
                     f'    INDEX 01 {frames // 4500:02}:{frames // 75 % 60:02}:{frames % 75:02}\n')
    return "".join(lines)


def chapters(output: Output, titles: Titles) -> str:
    """Chapters in the form of ffmpeg's metadata, to the sample."""
    lines = [";FFMETADATA1\n"]
    for p in output.plays:
        title = "".join("\\" + c if c in "=;#\\" else c for c in one_line(shown_name(p, titles)))
        # ffmpeg takes a backslash before the end of a line for a longer line
        title += " " if title.endswith("\\") else ""
        lines.append(f"[CHAPTER]\nTIMEBASE=1/{output.rate}\nSTART={p.start}\nEND={p.end}\ntitle={title}\n")
    return "".join(lines)


def vtt(output: Output, titles: Titles) -> str:
    """Chapters for the track element of a web page, in milliseconds."""
    def time(frame: int) -> str:
        unit = frame * 1000 // output.rate
        return f"{unit // 3600000:02}:{unit // 60000 % 60:02}:{unit // 1000 % 60:02}.{unit % 1000:03}"
    lines = ["WEBVTT\n"]
    for p in output.plays:
        if time(p.start) < time(p.end):
            text = one_line(shown_name(p, titles)).replace("&", "&amp;").replace("<", "&lt;").replace(">", "&gt;")
            lines.append(f"\n{time(p.start)} --> {time(p.end)}\n{text}\n")
    return "".join(lines)


def tsv(output: Output, titles: Titles) -> str:
    """All that is known of each play, in instants: for a spreadsheet, or a script."""
    lines = ["start\tend\tname\tfrom\tleft\tending\toverlap\n"]
    for p in output.plays:
        left = "" if p.left is None else p.left
        lines.append(f"{p.start}\t{p.end}\t{one_line(p.name or '')}\t{p.at}\t{left}\t{p.ending}\t{p.overlap}\n")
    return "".join(lines)


def cell(text: str) -> str:
    """A text as a cell that a program for tables takes for a text, and for no formula."""
    return "'" + text if text[:1] in ("=", "+", "-", "@") else text


def log(outputs: Iterable[Output], titles: Titles, begin: datetime) -> str:
    """A table of all that was played, by the clock of the wall: CSV with a head. A play that goes on where its file was
    left has a line of its own. The seconds of a track that is faded into the next one are all in which it is heard."""
    text = io.StringIO()
    table = csv.writer(text, lineterminator="\n")
    table.writerow(HEAD)
    for output in outputs:
        for play in output.plays:
            if play.name is not None:
                at = begin + timedelta(seconds=play.start // output.rate)
                told = titles.all_of(play.name)
                faded = min(play.left or 0, output.length - play.end) if play.ending == "faded" else 0
                seconds = f"{(play.end - play.start + faded) / output.rate:.1f}"
                texts = told.artist, told.title, told.album, told.isrc, told.label, one_line(play.name)
                table.writerow([f"{at:%Y-%m-%d}", f"{at:%H:%M:%S}", seconds, *map(cell, texts)])
    return text.getvalue()


FORMS: Dict[str, Callable[[Output, Titles], str]] = {"labels": labels, "sheet": sheet, "chapters": chapters, "vtt": vtt, "tsv": tsv}
