"""The page of a rendering, as one HTML document that loads nothing."""
import json
import os
from typing import Any, Dict, Sequence
from urllib.parse import quote

from liq.pages.hours import Hours
from liq.pages.marks import isolated, places, shown
from liq.pages.outputs import Output
from liq.pages.story import Story
from liq.pages.tables import by_file, by_time, of_buffers, within
from liq.pages.timeline import QUIETEST, Timeline
from liq.pages.titles import Titles

FINDABLE = 20  # lines above which a field to find some is there
HERE = os.path.dirname(os.path.abspath(__file__))


def facts(story: Story) -> str:
    """What a glance should give. What somebody should see has a triangle and is bold."""
    output, clock = story.output, story.clock
    told = [("length", clock.length(output.length), False)]
    if output.has_cues:
        begun = sum(not p.resumed and p.name is not None for p in output.plays)
        told += [("tracks begun", str(begun), False), ("files", str(len(story.files)), False)]
    bare = [s.end - s.start for s in output.silences if not s.within]
    inner = [s.end - s.start for s in output.silences if s.within]
    told.append(("silence", f"{clock.length(sum(bare))} in {places(len(bare))}" if bare else "none", bool(bare)))
    if inner:
        told.append(("silence within plays", f"{clock.length(sum(inner))} in {places(len(inner))}", False))
    if output.gaps is not None:
        told.append(("nothing to play (gaps)", clock.length(output.gaps) if output.gaps else "never", output.gaps > 0))
    told.append(("sound", f"{output.rate} Hz, {'stereo' if output.channels == 2 else 'mono'}", False))
    items = (f"<div><dt>{name}</dt><dd{' class=warn' if warns else ''}>{text}</dd></div>" for name, text, warns in told)
    return f"<dl>{''.join(items)}</dl>"


def legend(story: Story, hours: Hours) -> str:
    """What the colours and forms say; only what occurs."""
    output, kinds = story.output, story.kinds
    told = [
        (output.has_cues, "<i></i><i class=odd></i>track"),
        ("short" in kinds, f"<i class=short></i>short track (below {story.clock.length(story.short)})"),
        (any(p.name is None and story.number_of(p) is not None for p in output.plays), "<i class=none></i>no title"),
        (any(p.overlap for p in output.plays), "<i><em></em></i>faded in over the one before"),
        (any(p.ending in ("cut", "breaks off") for p in output.plays), "<i class=cut></i>left before its end"),
        (any(p.resumed for p in output.plays), "<i class=on></i>goes on"),
        (output.silences, "<i class=quiet></i>silence: every sample is zero"),
        (hours.told, "<i class=hole></i>no case of a switch holds"),
        (True, f"<i class=loud></i>loudness, from -{QUIETEST} dB to full scale"),
    ]
    return f'<p class=legend>{"".join(f"<span>{text}</span>" for occurs, text in told if occurs)}</p>'


def finder(story: Story) -> str:
    """A field to find plays by parts of names, where there are many; or that there is no cue file."""
    if not story.output.has_cues:
        return (f"<p class=soft>No list of starts lies beside this output ({isolated(story.output.name + '.cue')}): "
                "only its loudness and its silence are shown.</p>")
    if len(story.events) <= FINDABLE:
        return ""
    return ('<p class=find><label>Find <input type=search placeholder="part of a file name" autocomplete=off></label>'
            "<output></output></p>")


def address(name: str, folder: str) -> str:
    """The address of a file, seen from a page that lies in a folder."""
    return quote(os.fsencode(name if os.path.isabs(name) else "./" + os.path.relpath(name, folder)))


def player(output: Output, folder: str) -> str:
    """What plays the files of an output, seen from the folder of the page: of each where it begins, in seconds, and
    its address."""
    files = [[first / output.rate, address(name, folder)] for name, (first, _) in zip(output.names, output.parts)]
    told = json.dumps(files).replace("&", "&amp;").replace("'", "&#39;").replace("<", "&lt;")
    return (f"<p class=sound><audio controls preload=none data-files='{told}'></audio> "
            "<span class=soft aria-live=polite></span></p>"
            '<p class="soft keys">A button before a line of the table plays from there; on the timeline the space bar '
            "plays what is chosen, and stops.</p>")


def section(story: Story, folder: str, hours: Hours) -> str:
    """One output, with a player where the page is to lie in a folder, and the hours in which no case of a switch holds."""
    parts = [f"<h2 id=o{story.number}>{isolated(story.output.name)}</h2>", facts(story)]
    if folder and story.output.length:
        parts.append(player(story.output, folder))
    if story.output.length:
        parts += [legend(story, hours), finder(story), Timeline(story, hours).text()]
    else:
        parts.append("<p class=soft>This output has no samples.</p>")
    if story.events:
        parts.append(by_time(story, bool(folder)))
    if story.files:
        parts.append(by_file(story))
    return f"<section data-output>{''.join(parts)}{within(story)}</section>"


def links(stories: Sequence[Story]) -> str:
    """Links to the outputs, or to the tables of a single one."""
    found = [(f"o{story.number}", isolated(story.output.name)) for story in stories]
    if len(stories) == 1:
        found = [("t0", "by time")] * bool(stories[0].events) + [("f0", "by file")] * bool(stories[0].files)
    items = "".join(f'<a href="#{place}">{text}</a>' for place, text in found)
    return f"<nav>{items}</nav>" if items else ""


def when(stories: Sequence[Story]) -> str:
    """Day and clock time of the begin and the end of the longest output."""
    longest = max(stories, key=lambda story: story.clock.seconds)
    clock, end = longest.clock, longest.output.length
    last_day = "" if clock.one_day else clock.day(max(0, end - 1)) + " "
    return f"{clock.day(0)} {clock.text(0, False)} to {last_day}{clock.text(end, False)}"


def beside(name: str) -> str:
    """The text of a file that lies beside this module."""
    with open(f"{HERE}/{name}", encoding="utf-8") as file:
        return file.read()


def document(options: Dict[str, Any], outputs: Sequence[Output], buffers: Sequence[Sequence[str]], titles: Titles,
             hours: Hours = Hours([])) -> str:
    """The page of these outputs, by the options of the call: its title, the second of the week at which all start,
    notes below the heading, and the folder in which it will lie where it is to play them; with the hours in which no
    case of a switch holds."""
    title, folder = options["title"], options["sound"]
    stories = [Story(k, output, options["start"], titles) for k, output in enumerate(outputs)]
    policy = "default-src 'none'; style-src 'unsafe-inline'; script-src 'unsafe-inline'"
    policy += "; media-src 'self' file:" if folder else ""
    notes = "".join(f"<p class=soft>{shown(note)}</p>" for note in options["note"])
    sections = "\n".join(section(story, folder, hours) for story in stories)
    return (f'<!DOCTYPE html>\n<html lang=en><head><meta charset=utf-8>'
            f'<meta name=viewport content="width=device-width,initial-scale=1"><title>{shown(title)}</title>\n'
            f'<meta http-equiv=Content-Security-Policy content="{policy}">\n<style>{beside("style.css")}</style></head>\n'
            f"<body><main><h1>{shown(title)}</h1><p class=soft>{when(stories)}</p>{notes}{links(stories)}\n{sections}\n"
            f'{of_buffers(buffers)}</main>\n<script>{beside("page.js")}</script></body></html>\n')
