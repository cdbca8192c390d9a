"""The facts of a script as the doctor of a night is to see them, and what a night goes on without."""
import dataclasses
from typing import Dict, List, Optional, Set, Tuple

from liq.doctoring.lists import is_address, trouble_of_list
from liq.doctoring.sounds import trouble_of_sound
from liq.nights.library import DECODED
from liq.reading.facts import Facts, Listed, Source
from liq.watching.names import shown

SHOWN = 8              # names in a line


def with_decoded(facts: Facts) -> Facts:
    """What is decoded is as good as a sound that liq reads."""
    sounds = {name: sound._replace(state="used") if sound.state in DECODED else sound
              for name, sound in facts.sounds.items()}
    return dataclasses.replace(facts, sounds=sounds)


def spared(facts: Facts) -> Tuple[Facts, List[str]]:
    """The facts without what a night can do without, and lines on that: entries that cannot be read, and lists that
    have none to play where each output has something else."""
    facts, told = without_unread(facts)
    if all(plays(facts, facts.sources[output.source]) for output in facts.outputs):
        facts, more = without_lists(facts)
        told += more
    return facts, told


def without_unread(facts: Facts) -> Tuple[Facts, List[str]]:
    """The facts without the entries of lists that cannot be read: the copies of a night do not name them."""
    told, lists = [], []
    for listed in facts.lists:
        unread = [name for name in listed.entries if is_unread(facts, name)]
        by_trouble: Dict[str, Dict[str, None]] = {}
        for name in unread:
            why = trouble_of_sound(facts.sounds[name], facts) or "could not be read"
            by_trouble.setdefault(why, {})[name] = None
        told += [f"list {shown(listed.name)} skips {some_of(list(names))}: {why}" for why, names in by_trouble.items()]
        gone = set(unread)
        lists.append(dataclasses.replace(listed, entries=tuple(name for name in listed.entries if name not in gone)))
    return dataclasses.replace(facts, lists=tuple(lists)), told


def is_unread(facts: Facts, name: str) -> bool:
    return facts.sounds[name].state == "unread" and not is_address(name)


def some_of(names: List[str]) -> str:
    more = f" and {len(names) - SHOWN} more" if len(names) > SHOWN else ""
    return ", ".join(map(shown, names[:SHOWN])) + more


def without_lists(facts: Facts) -> Tuple[Facts, List[str]]:
    """The facts without the lists of which nothing can be played: an empty copy stands in their place."""
    empty = {listed.name: listed for listed in facts.lists if not played_of(facts, listed)}
    told = [f"list {shown(name)}: {trouble_of_list(listed, facts) or 'no entry of it can be played'}; "
            "what stands behind it is played" for name, listed in empty.items()]
    sources = tuple(dataclasses.replace(source, file=None) if source.op == "playlist" and source.file in empty else source
                    for source in facts.sources)
    lists = tuple(listed for listed in facts.lists if listed.name not in empty)
    return dataclasses.replace(facts, sources=sources, lists=lists), told


def played_of(facts: Facts, listed: Listed) -> List[str]:
    return facts.playable(listed) if listed.state == "read" else []


def plays(facts: Facts, source: Source, met: Optional[Set[int]] = None) -> bool:
    """Whether a source has a sound that can be played."""
    if source.op == "single":
        return source.file is not None and facts.sounds[source.file].is_used
    if source.op == "playlist":
        return any(listed.name == source.file and played_of(facts, listed) for listed in facts.lists)
    met = set() if met is None else met
    for child in source.children or ():
        if child not in met:
            met.add(child)
            if plays(facts, facts.sources[child], met):
                return True
    return False
