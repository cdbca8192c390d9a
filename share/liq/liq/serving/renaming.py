"""Another name for what a script binds. The proved reader decides whether the script still means the same."""
import re
from dataclasses import replace
from typing import Dict, List, Optional

from liq.advising.helping import Edit
from liq.advising.script import KEYWORDS, Script
from liq.advising.tables import Call
from liq.reading.companion import Companion
from liq.reading.facts import Facts
from liq.serving.naming import Binding, Names, binding_at

NAME = re.compile(r"[A-Za-z_]\w*(?:\.[A-Za-z_]\w*)*", re.A)


class NoName(Exception):
    """The name cannot be given: a line that says why."""


def edits(script: Script, binding: Binding, name: str) -> List[Edit]:
    """The edits that give a binding another name, in the order of the script."""
    found = [script.tokens[number] for number in sorted(binding.places)]
    return [Edit(token.at, token.at + len(token.name), name) for token in found]


def applied(text: str, changes: List[Edit]) -> str:
    """A text behind edits that lie apart, in their order."""
    for edit in reversed(changes):
        text = edit.of(text)
    return text


def without_places(facts: Facts) -> Facts:
    """What a script plays, wherever its calls stand."""
    return replace(facts, sources=tuple(replace(source, at=None) for source in facts.sources))


def renamed(script: Script, at: int, name: str, calls: Dict[str, Call], companion: Companion) -> Optional[List[Edit]]:
    """The edits that give the binding at a character another name; nothing where no name of the script stands there. `NoName`
    where that may not be: the name is none, is taken, or the script would play another thing."""
    binding = binding_at(script, at)
    if binding is None:
        return None
    if not NAME.fullmatch(name) or name in KEYWORDS:
        raise NoName(f"`{name}` is no name")
    if name == binding.name:
        return []
    if name in calls:
        raise NoName(f"`{name}` is a call of the language")
    taken = next((one for one in Names(script.tokens).found if one.name == name), None)
    if taken is not None:
        raise NoName(f"`{name}` is bound in line {script.line(script.tokens[taken.number].at)}")
    before = companion.plan_of(script.data)
    if not isinstance(before, Facts):
        raise NoName("liq refuses the script as it is: mend it first, so that what it plays can be compared")
    changes = edits(script, binding, name)
    after = companion.plan_of(applied(script.text, changes).encode("utf-8", "surrogateescape"))
    if not isinstance(after, Facts) or without_places(after) != without_places(before):
        raise NoName(f"with `{name}` the script would play another thing")
    return changes
