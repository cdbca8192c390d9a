"""The tables of an output: by time, and by file."""
from dataclasses import dataclass
from typing import Dict, Iterable, List, Optional, Sequence, Tuple

from liq.pages.marks import named, note
from liq.pages.outputs import Silence
from liq.pages.plays import Play
from liq.pages.story import Story


def titled(name: str, head: str, rows: Iterable[str], more: str) -> str:
    """A table with a heading and a button that copies it."""
    return (f'<div class=scroll><table{more}><caption><h3>{name}</h3><button class=copy type=button>copy</button></caption>'
            f'<thead><tr>{head}</thead><tbody>{"".join(rows)}</tbody></table></div>')


def by_time(story: Story, with_sound: bool = False) -> str:
    """A line for each play and each silence; with a button that plays it if that is wanted."""
    clock, number = story.clock, story.number
    rows: List[str] = []
    for k, event in enumerate(story.events):
        if isinstance(event, Silence):
            words = "" if not story.output.has_cues else "blank, no title" if event.blank else "nothing to play"
            file = "silence"
        else:
            words, file = note(event, clock), "no title" if event.name is None else named(event.name, story.titles)
        mark = " class=quiet" if isinstance(event, Silence) or event.name is None else ""
        button = (f'<button class=play type=button data-at={event.start / story.output.rate:.4f} '
                  f'aria-label="play from {clock.text(event.start)}"></button>')
        rows.append(f'<tr id=r{number}-{k} data-f="{story.file_of(event)}"{mark}>'
                    f'<td class=t>{button if with_sound else ""}<a href="#b{number}-{k}">{clock.text(event.start)}</a>'
                    f'<td class="t wide">{clock.text(event.end)}<td class=n>{clock.length(event.end - event.start)}'
                    f"<td class=f>{file}<td>{words}")
    head = "<th>from<th class=wide>to<th class=n>length<th>file<th>note"
    return titled("By time", head, rows, f" class=by-time id=t{number}")


@dataclass
class Use:
    """How often a file was played, and when. A play that goes on where the file was left is no play of its own."""
    first: int
    last: int
    plays: int = 0
    time: int = 0
    end: Optional[int] = None
    pause: Optional[int] = None  # the least time from an end to the next start

    def add(self, play: Play) -> None:
        if not play.resumed:
            self.plays, self.last = self.plays + 1, play.start
            if self.end is not None:
                pause = play.start - self.end
                self.pause = pause if self.pause is None else min(self.pause, pause)
        self.time, self.end = self.time + play.end - play.start, play.end


def uses_of(plays: Iterable[Play]) -> List[Tuple[str, Use]]:
    """The files that were played, the one most often played first."""
    found: Dict[str, Use] = {}
    for play in plays:
        if play.name is not None:
            found.setdefault(play.name, Use(play.start, play.start)).add(play)
    return sorted(found.items(), key=lambda item: (-item[1].plays, -item[1].time, item[0]))


def by_file(story: Story) -> str:
    """A line for each file."""
    clock, uses, rows = story.clock, uses_of(story.output.plays), []
    most = max(use.time for _, use in uses) or 1
    for name, use in uses:
        bar = f'<i class=bar style="width:{max(1, round(90 * use.time / most))}px"></i>'
        last = clock.text(use.last) if use.plays > 1 else ""
        pause = clock.length(use.pause) if use.pause is not None else ""
        rows.append(f"<tr><td class=n>{use.plays}<td class=n>{clock.length(use.time)}<td class=wide>{bar}"
                    f'<td class=f>{named(name, story.titles)}<td class="t wide">{clock.text(use.first)}'
                    f'<td class="t wide">{last}<td class=n>{pause}')
    head = ("<th class=n>plays<th class=n>in all<th class=wide><th>file<th class=wide>first<th class=wide>last"
            "<th class=n>least pause")
    return titled("By file", head, rows, f" id=f{story.number}")


def within(story: Story) -> str:
    """Silence that is a part of a recording."""
    clock, items = story.clock, []
    plays = iter(story.output.plays)
    play: Optional[Play] = None
    following = next(plays, None)
    for silence in (s for s in story.output.silences if s.within):
        while following is not None and following.start <= silence.start:
            play, following = following, next(plays, None)
        length = clock.length(silence.end - silence.start)
        name = play.name if play is not None else None
        items.append(f"<li>{clock.text(silence.start)}, {length} in {named(name or '', story.titles)}</li>")
    return f"<h3>Silence within plays</h3><ul>{''.join(items)}</ul>" if items else ""


def of_buffers(buffers: Sequence[Sequence[str]]) -> str:
    """What each buffer took and gave, as the report says it."""
    if not buffers:
        return ""
    names = ("buffer", "chunks taken in", "refused as full", "chunks given", "empty")
    head = "".join(f"<th class=n>{name}" for name in names)
    rows = "".join("<tr>" + "".join(f"<td class=n>{cell}" for cell in buffer) for buffer in buffers)
    return (f'<section><h2>Buffers</h2><div class=scroll><table style="width:auto"><thead><tr>{head}</thead>'
            f"<tbody>{rows}</tbody></table></div></section>")
