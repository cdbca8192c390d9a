"""Names, numbers and notes as they stand in a page."""
from html import escape

from liq.pages.plays import Play
from liq.pages.times import Clock
from liq.pages.titles import Titles
from liq.watching.names import is_unseen


def shown(name: str) -> str:
    """A name as text of a page, letter by letter; what would not be seen, or would turn the text round, as its code."""
    return escape("".join(f"\u2039{ord(c):X}\u203a" if is_unseen(c) else c for c in name), False)


def isolated(name: str) -> str:
    """A name that does not turn the text round it."""
    return f"<bdi>{shown(name)}</bdi>"


def named(name: str, titles: Titles) -> str:
    """A file by its title, with its name behind it; by its name alone where it has no title."""
    title = titles.of(name)
    return isolated(name) if title == name else f"{isolated(title)} <small>{isolated(name)}</small>"


def label(name: str) -> str:
    """A short form for a block: without folders and ending."""
    last = name.rsplit("/", 1)[-1] or name
    return last[:-4] if last.lower().endswith(".wav") and len(last) > 4 else last


def percent(part: float, whole: float) -> str:
    """A part of a whole in percents, for a style."""
    return f"{100 * part / whole:.3f}".rstrip("0").rstrip(".") + "%"


def places(count: int) -> str:
    return f"{count} place{'s' * (count != 1)}"


def note(play: Play, clock: Clock) -> str:
    """What is known of a play's start and end, in words."""
    found = []
    if play.resumed:
        found.append(f"goes on at {clock.length(play.at)}")
    if play.overlap:
        found.append(f"fade of {clock.length(min(play.overlap, play.end - play.start))}")
    words = {"cut": "cut", "breaks off": "breaks off", "run ends": "the rendering ends"}.get(play.ending)
    if words:
        found.append(f"{words}, {clock.length(play.left or 0)} left")
    elif play.ending == "" and play.left:
        found.append(f"{clock.length(play.left)} left, cut or faded")
    return ", ".join(found)
