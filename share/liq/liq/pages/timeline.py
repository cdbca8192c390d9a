"""The timeline of an output: rows of time below each other, with a block for each play and the loudness under it."""
import math
from typing import List, Optional, Tuple

from liq.pages.hours import Hours
from liq.pages.marks import label, percent, shown
from liq.pages.outputs import Output
from liq.pages.plays import Play
from liq.pages.story import Event, Story
from liq.pages.times import Clock

STEPS = [1, 2, 5, 10, 20, 30, 60, 120, 300, 600, 900, 1800, 3600, 7200, 14400, 21600, 43200, 86400, 604800]
ROWS = 24              # at most, where tracks are long
TRACKS = 16            # in a row, where tracks are short
MARKS = 12             # of the axis, at most
COLUMNS = 480          # of the loudness in a row
QUIETEST = 40          # decibels below full scale that are drawn


def row_seconds(output: Output, clock: Clock) -> int:
    """How many seconds a row has: at most 24 rows, and about 16 tracks in each."""
    lengths = sorted(p.end - p.start for p in output.plays) or [output.length]
    usual = lengths[len(lengths) // 2] / output.rate
    want = min(max(clock.seconds / ROWS, TRACKS * usual), clock.seconds)
    return next((step for step in STEPS if step >= want - 1e-9), STEPS[-1])


def rows_of(output: Output, clock: Clock) -> Tuple[int, List[Tuple[int, int]]]:
    """The rows as pairs of instants. Several begin at whole multiples of their length on the clock of the week."""
    seconds = row_seconds(output, clock)
    if clock.seconds <= seconds:
        return seconds, [(0, output.length)]
    span, first = seconds * output.rate, -(clock.start % seconds) * output.rate
    return seconds, [(low, low + span) for low in range(first, output.length, span)]


def decibels(power: float) -> float:
    return 10 * math.log10(power / 32768 ** 2) if power > 0 else -200.0


def levels(output: Output, low: int, high: int) -> Tuple[int, List[int]]:
    """The loudness of the columns of a row, from 0 to QUIETEST, with the first column that has one."""
    first = max(0, math.floor(-low * COLUMNS / (high - low)))
    found: List[int] = []
    for k in range(first, COLUMNS):
        start, end = low + k * (high - low) // COLUMNS, low + (k + 1) * (high - low) // COLUMNS
        if start >= output.length:
            break
        power = output.power(max(0, start), max(start + 1, end))
        found.append(max(0, min(QUIETEST, round(QUIETEST + decibels(power)))))
    return first, found


def level_path(output: Output, low: int, high: int) -> str:
    """The loudness of a row as a path over COLUMNS by QUIETEST."""
    first, found = levels(output, low, high)
    if not found:
        return ""
    parts, width, before = [f"M{first} {QUIETEST}V{QUIETEST - found[0]}"], 0, found[0]
    for level in found:
        if level != before:
            parts.append(f"h{width}v{before - level}")
            width, before = 0, level
        width += 1
    return "".join(parts) + f"h{width}V{QUIETEST}z"


def classed(names: List[str]) -> str:
    """The class of an element, where it has one."""
    if not names:
        return ""
    return f' class="{" ".join(names)}"' if len(names) > 1 else f" class={names[0]}"


class Timeline:
    """The timeline of a story."""

    def __init__(self, story: Story, hours: Hours):
        self.story, self.output, self.clock, self.hours = story, story.output, story.clock, hours
        self.seconds, self.rows = rows_of(self.output, self.clock)
        self.span = self.rows[0][1] - self.rows[0][0]
        self.several = len(self.rows) > 1
        self.tick = next((s for s in STEPS if self.span / self.output.rate / s <= MARKS), STEPS[-1])

    def mark(self, k: int) -> str:
        """The text of the k-th mark of the axis: a time of the clock in a single row, else what is added to a row's."""
        second = k * self.tick
        if not self.several:
            text = self.clock.text(second * self.output.rate, False)
            return text[:-2] if self.clock.tenths else text
        if self.seconds == 3600 and self.tick % 60 == 0:
            return f":{second // 60 % 60:02}"
        if self.seconds <= 3600:
            return f"+{second // 60}:{second % 60:02}"
        return f"+{second // 3600}:{second // 60 % 60:02}"

    def axis(self) -> str:
        """The axis. On a phone every so many of its marks alone are shown."""
        count = int(self.span / self.output.rate / self.tick + 1e-9)
        most = 4 if self.several else 3
        every = next((n for n in range(1, count + 1) if count % n == 0 and count // n <= most), count) or 1
        marks = []
        for k in range(count + 1):
            place = k * self.tick * self.output.rate
            classes = ([] if k % every else ["main"]) + (["end"] if k == count and place > 0.99 * self.span else [])
            marks.append(f'<span{classed(classes)} style="left:{percent(place, self.span)}">{self.mark(k)}</span>')
        return f'<div class=axis><i></i><div>{"".join(marks)}</div></div>'

    def place(self, low: int, start: int, end: int) -> str:
        """Where a stretch stands in the row that begins at `low`, as a style."""
        return f'style="left:{percent(start - low, self.span)};width:{percent(end - start, self.span)}"'

    def block(self, event: Event, low: int, high: int, classes: List[str], inner: str) -> str:
        """The block of an event in a row, with a link to the event's line in the table."""
        number, k = self.story.number, self.story.number_of(event)
        name = f" id=b{number}-{k}" if event.start >= low else ""
        place = self.place(low, max(event.start, low), min(event.end, high))
        return (f'<a{name}{classed(classes)} href="#r{number}-{k}" tabindex=-1 data-k={k} '
                f'data-f="{self.story.file_of(event)}" {place}>{inner}</a>')

    def play(self, play: Play, kind: str, before: str, low: int, high: int) -> str:
        """The block of a play in a row, with a wedge in the colour of the play that is faded into it."""
        classes = [kind] if kind else []
        if play.ending in ("cut", "breaks off") and play.end <= high:
            classes.append("cut")
        if play.resumed and play.start >= low:
            classes.append("on")
        wedge = ""
        if play.overlap and play.start >= low and not play.resumed:
            width = min(play.end, high) - play.start
            wedge = f'<em{classed([before] if before else [])} style="width:{percent(min(play.overlap, width), width)}"></em>'
        text = shown(self.label_of(play.name)) if play.name is not None else "no title"
        return self.block(play, low, high, classes, f"{wedge}<span dir=auto>{text}</span>")

    def label_of(self, name: str) -> str:
        """The text of a block: the title of a file, or else a short form of its name."""
        title = self.story.titles.of(name)
        return label(name) if title == name else title

    def strip(self, low: int, high: int) -> str:
        """The blocks of a row."""
        story, parts = self.story, []
        for play, kind, before in zip(self.output.plays, story.kinds, [""] + story.kinds):
            if play.end > low and play.start < high and story.number_of(play) is not None:
                parts.append(self.play(play, kind, before, low, high))
        for silence in self.output.silences:
            if silence.end <= low or silence.start >= high:
                continue
            if silence.within:
                place = self.place(low, max(silence.start, low), min(silence.end, high))
                parts.append(f"<i class=zero {place}></i>")
            else:
                parts.append(self.block(silence, low, high, ["quiet"], "<span>silence</span>"))
        return "".join(parts)

    def row(self, low: int, high: int, before: Optional[str]) -> str:
        """A row with its time; the day stands before it where it is another than that of the row before."""
        day, name = self.clock.day(max(0, low)), ""
        if self.several and not self.clock.one_day and day != before:
            name = f"<b>{day[:3]}</b>"
        when = self.clock.text(low, False).split(".")[0][:5 if self.several and self.seconds >= 60 else 8]
        return (f"<div class=row><time>{name}{when}</time><div class=box><div class=strip>{self.strip(low, high)}</div>"
                f'<svg class=level viewBox="0 0 {COLUMNS} {QUIETEST}" preserveAspectRatio=none aria-hidden=true>'
                f'<path d="{level_path(self.output, low, high)}"/></svg>{self.hours.row(self.clock, low, high)}</div></div>')

    def text(self) -> str:
        """The whole timeline; where there is something to go through, it is a slider for keys."""
        days = [None] + [self.clock.day(max(0, low)) for low, _ in self.rows]
        rows = "".join(self.row(low, high, before) for (low, high), before in zip(self.rows, days))
        head = f'class="line{"" if self.several else " one"}"'
        style = f'style="--tick:{percent(self.tick * self.output.rate, self.span)}"'
        count, tip = len(self.story.events), ""
        if count:
            name = shown(self.output.name).replace('"', "&quot;")
            head += (f' tabindex=0 role=slider aria-label="Timeline of {name}; the table below says the same" '
                     f"aria-orientation=horizontal aria-valuemin=1 aria-valuemax={count} aria-valuenow=1 "
                     'aria-valuetext="use the arrow keys"')
            tip = "<div class=tip hidden></div>"
        return f"<div {head} {style}>{self.axis()}{rows}{tip}</div>"
