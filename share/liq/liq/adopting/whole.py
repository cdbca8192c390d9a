"""A script of Liquidsoap brought over: its new text, and the notes on it."""
import bisect
import sys
from typing import Callable, Dict, List, NamedTuple, Optional, Tuple

from liq.adopting.classes import classes
from liq.adopting.laying import by_home, laid, settings_first
from liq.adopting.marks import Places, plain, read
from liq.adopting.notes import YOU, Notes
from liq.adopting.rewriting import Rewriter
from liq.adopting.scope import scope_of
from liq.adopting.slicing import Slicer
from liq.adopting.tokens import Trouble
from liq.adopting.tree import Tree
from liq.adopting.unfolding import unfolded
from liq.advising import tables

DEEPEST = 20000        # calls of functions within each other, for what stands within 200 brackets


class Brought(NamedTuple):
    """A script that was brought over: its new text, the notes on it, whether it is another one than the old, and for
    the places of the new text those of the old one."""
    new: str
    notes: Notes
    is_changed: bool
    places: Places


def brought_over(text: str, is_accepted: Callable[[str], bool], may_stop: bool = False) -> Brought:
    """The new text of a script with all that is known of it. A script that liq takes, which `is_accepted` decides, stays
    as it is, unless a text in it means something else there. With `may_stop` what stops by itself there is made to stop
    here. Trouble where it cannot be cut."""
    sys.setrecursionlimit(max(sys.getrecursionlimit(), DEEPEST))
    is_kept = is_accepted(text)
    try:
        tree = Tree(text)
    except Trouble:
        if is_kept:
            return Brought(text, Notes(text), False, same_places(text))
        raise
    new, notes, places = rewritten(tree, may_stop)
    if is_kept and not notes.differs and not any(token.kind == "text" and "#{" in token.text for token in tree.tokens):
        return Brought(text, notes, False, same_places(text))
    if text.startswith("\ufeff"):
        notes.put("same", 0, "the byte order mark is left out")
    return Brought(new, notes, new != text, places)


def rewritten(tree: Tree, may_stop: bool) -> Tuple[str, Notes, Places]:
    """The new text of a script, its notes, and the places in the old one."""
    units = unfolded(tree)
    inner_text, places = read("\n".join(units.texts))
    notes = Notes(tree.text, places)
    for note in units.notes:
        notes.put(note.sort, note.at, note.what, note.is_edit)
    inner = Tree(inner_text)
    writer = Rewriter(inner, notes, classes(), tables.calls(), scope_of(inner))
    writer.scope.told |= units.told
    writer.scope.others |= units.others
    writer.may_stop = may_stop
    lines = settings_first(Slicer(writer, inner.statements).lines())
    homes = homes_of(inner, units.texts, units.homes)
    marked, last = read(laid(tree, tree.statements, moved(by_home(lines, homes), places)))
    return marked, notes, last


def moved(made: Dict[int, str], places: Places) -> Dict[int, str]:
    """Texts of which the marks hold places of the old script, in place of those of the text that was looked at."""
    from liq.adopting.marks import MARKS, mark, place_of
    return {home: MARKS.sub(lambda found: mark(places.of(place_of(found[0][-2:]))), text) for home, text in made.items()}


def homes_of(tree: Tree, texts: List[str], homes: List[int]) -> List[int]:
    """For each statement the number of that of the old script from which it comes."""
    begins, at = [], 0
    for text in texts:
        begins.append(at)
        at += len(plain(text)) + 1
    return [homes[bisect.bisect_right(begins, tree.at(one)) - 1] for one in tree.statements]


def same_places(text: str) -> Places:
    """The places of a text that stays as it is."""
    try:
        return Places([(token.at, token.at) for token in Tree(text).tokens])
    except Trouble:
        return Places([(0, 0)])


def adopted(text: str, is_accepted: Callable[[str], bool]) -> Tuple[str, Notes, bool]:
    """The new text of a script, the notes, and whether it is another one."""
    found = brought_over(text, is_accepted)
    return found.new, found.notes, found.is_changed


def refused_whole(text: str, trouble: Trouble, notes: Optional[Notes] = None) -> Notes:
    """The note on a script that cannot be cut."""
    notes = notes or Notes(text)
    notes.put(YOU, trouble.at, trouble.what, False)
    return notes
