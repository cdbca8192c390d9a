"""A case of a switch that plays one sound whose length does not fit its windows: when in the week this case is the first
that holds."""
import itertools
import math
from typing import Dict, Iterator, List, Optional

from liq.doctoring.findings import Told
from liq.reading.companion import Companion
from liq.reading.facts import Facts, Source, Sound, Windows
from liq.watching.names import shown
from liq.weeks.told import Week, placed

THROUGH = ("amplify", "mean", "stereo", "clock")    # operators that play their one source, as long as it is
HOUR = 3600     # a sound that is played again and again for longer is meant to be


def one_sound(facts: Facts, source: Source) -> "tuple[Optional[Sound], bool]":
    """The one sound that a source plays, if it plays one alone, and whether it begins again when it ends. A fallback
    plays its first source alone where that always has something."""
    while source.op in THROUGH or source.op == "fallback" and source.children:
        first = facts.sources[source.children[0]]
        if source.op == "fallback" and not one_sound(facts, first)[1]:
            return None, False
        source = first
    if source.op == "single" and source.file is not None:
        names, again = [source.file], True
    elif source.op == "playlist":
        names, again = first_names(facts, source.file), bool(source.again)
    else:
        return None, False
    sound = facts.sounds[names[0]] if len(names) == 1 else None
    return (sound, again) if sound and sound.is_used else (None, False)


def first_names(facts: Facts, file: Optional[str]) -> List[str]:
    """The first two entries of a list that are played."""
    entries = (name for listed in facts.lists if listed.name == file for name in listed.entries)
    return list(itertools.islice((name for name in entries if facts.sounds[name].is_used), 2))


def lasting(seconds: float) -> str:
    """A length, for people."""
    minutes, rest = divmod(round(seconds, 1), 60)
    parts = ([f"{minutes:.0f} min"] if minutes else []) + ([f"{rest:.1f}".removesuffix(".0") + " s"] if rest or not minutes else [])
    return " ".join(parts)


def of_windows(windows: Windows) -> str:
    if windows.count == 1:
        return f"a window of {lasting(windows.longest)}"
    if windows.shortest == windows.longest:
        return f"windows of {lasting(windows.longest)}"
    return f"windows of {lasting(windows.shortest)} to {lasting(windows.longest)}"


def trouble_of_windows(seconds: float, again: bool, sensitive: bool, windows: Windows) -> Optional[str]:
    """Why a sound does not fit the windows of its case, or nothing. A switch that is track-sensitive plays a track to its
    end, so it cuts none."""
    if not windows.count:
        return None
    if not sensitive and seconds > windows.shortest:
        return f"it is cut where {'the shortest' if windows.shortest < windows.longest else 'the window'} ends"
    if windows.longest > HOUR or seconds >= windows.longest:
        return None
    if not again:
        return "it is played once in all, and then this case has nothing to play"
    times = math.ceil(round(windows.longest / seconds, 6))
    cure = "end the window before the sound ends" if sensitive else "make the window as long as the sound"
    return f"it begins up to {times} times in a window; {cure}"


def lines_of(facts: Facts) -> Iterator[str]:
    known: "Dict[int, tuple[Optional[Sound], bool]]" = {}       # many cases have the same child
    for number, source in enumerate(facts.sources):
        for case, (child, windows) in enumerate(zip(source.children, source.windows), 1):
            if child not in known:
                known[child] = one_sound(facts, facts.sources[child])
            sound, again = known[child]
            if sound and sound.played:
                seconds = sound.played / facts.rate
                trouble = trouble_of_windows(seconds, again, bool(source.sensitive), windows)
                if trouble:
                    yield (f"switch {number}: case {case} plays {shown(sound.name)}, which lasts {lasting(seconds)}, "
                           f"in {of_windows(windows)}: {trouble}")


def findings_of_windows(companion: Companion, file: str, facts: Facts) -> Iterator[str]:
    """The lines, with the places of the switches."""
    lines = "".join(f"{line}\n" for line in lines_of(facts)).encode("utf-8", "surrogateescape")
    yield from map(Told, Week(placed(companion, file, lines)).shown())
