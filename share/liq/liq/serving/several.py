"""Several faults of a script at once. A fault that one sure edit mends is passed; else the statement in which it stands is
cut, with all that names what it binds. The proved reader tells each further fault, of the text that is left."""
import re
from typing import Dict, Iterator, List, Optional

from liq.advising.cutting import cut, touched, whole_statement
from liq.advising.helping import Edit
from liq.advising.mending import Fault, is_sure_help
from liq.advising.reader import step_of
from liq.serving.looking import Look, Span, Told

MOST = 10              # faults that are told
MOST_ASKED = 60        # texts of which the reader is asked
MOST_BYTES = 1 << 20   # of these texts together, but for the first one
COUNTED = re.compile(r"(statement \d+: )?(.*?)( at (token )?\d+)?", re.S)
BYTES, SYNTAX, NAMES = (step_of(code) for code in ("E02", "E06", "E08"))


def before_edits(at: int, edits: List[Edit]) -> int:
    """Where a character stood before some edits, the last of which was made last."""
    for edit in reversed(edits):
        behind = edit.first + len(edit.text)
        if at >= behind:
            at += edit.behind - edit.first - len(edit.text)
        elif at > edit.first:
            at = min(at, edit.behind)
    return at


def uncounted(text: str) -> str:
    """What a line of a fault says, without the numbers, which are those of the edited text."""
    parts = COUNTED.fullmatch(text)
    return parts[2] if parts else text


def as_it_was(edit: Optional[Edit], text: str, first_text: str, edits: List[Edit]) -> Optional[Edit]:
    """An edit of an edited text as one of the text before the edits; nothing where it touches what they made."""
    if edit is None:
        return None
    first, behind = before_edits(edit.first, edits), before_edits(edit.behind, edits)
    return Edit(first, behind, edit.text) if first_text[first:behind] == text[edit.first:edit.behind] else None


class Several:
    """The text as it was and as it is, the edits that were made, and what is not known behind the cuts."""

    def __init__(self, text: str) -> None:
        self.first_text, self.text = text, text
        self.edits: List[Edit] = []
        self.last, self.step = -1, -1           # behind the last edit, and of which step the fault was that it mended
        self.names: Dict[str, int] = {}
        self.is_cut, self.is_broken, self.is_open, self.is_any = False, False, False, False
        self.held: List[Told] = []              # faults of syntax that are none if the rest is not read whole

    def as_told(self, told: Told) -> Told:
        """What is told, in the text as it was."""
        span = Span(before_edits(told.span.first, self.edits), before_edits(told.span.behind, self.edits))
        edit = as_it_was(told.edit, self.text, self.first_text, self.edits)
        return told._replace(span=span, text=uncounted(told.text), edit=edit)

    def is_artefact(self, fault: Fault) -> bool:
        """Whether a fault of syntax may be one only since what belongs to it was cut."""
        token = fault.here
        return self.is_open and (not token or token.closes or token.text == "," or fault.number in fault.script.starts)

    def is_known(self, fault: Fault) -> bool:
        """Whether a fault is one, whatever stood where something was cut."""
        code = fault.line[:3]
        return not (code == "E17" and self.is_cut or code == "E08" and self.is_any)

    def shift(self, edit: Edit) -> None:
        """Makes an edit."""
        by = len(edit.text) - (edit.behind - edit.first)
        self.names = {name: at + by * (at >= edit.behind) for name, at in self.names.items()}
        self.edits.append(edit)
        self.text = edit.of(self.text)

    def without(self, fault: Fault, number: Optional[int] = None) -> bool:
        """Cuts the statement of a fault, or the one of a number. Whether it could."""
        found = cut(fault) if number is None else whole_statement(fault.script, number)
        if found is None or found.text == self.text:
            return False
        self.text, self.is_cut = found.text, True
        self.names.update({name: min(at, self.names.get(name, at)) for name, at in found.names.items()})
        self.is_broken = self.is_broken or step_of(fault.line[:3]) < NAMES and number is None
        self.is_open, self.is_any = self.is_open or found.is_open, self.is_any or found.is_any
        return True

    def passes(self, fault: Fault, told: Told) -> bool:
        """Goes behind a fault that is told: by its edit, if one is sure, or without its statement. Whether it could."""
        is_sure = told.edit is not None and is_sure_help(told.help) and not self.is_met(fault)
        if told.edit is None or not is_sure:
            return self.without(fault)
        self.last, self.step = told.edit.first + len(told.edit.text) - 1, step_of(told.code)
        self.shift(told.edit)
        return True

    def is_met(self, fault: Fault) -> bool:
        """Whether a fault is no further than the one that was mended last."""
        return fault.at <= self.last and step_of(fault.line[:3]) <= self.step


def faults(text: str, look: Look) -> Iterator[Told]:
    """The faults of a text, at most ten, each with its place and its edit in the text as it is."""
    several, count = Several(text), 0
    for _ in range(min(MOST_ASKED, 1 + MOST_BYTES // (len(text) + 1))):
        fault = look.reader.fault(several.text.encode("utf-8", "surrogateescape"))
        step = step_of(fault.line[:3]) if fault else NAMES
        if fault and step == SYNTAX and several.is_artefact(fault):
            return
        for told in several.held if step >= NAMES else []:
            yield told
        several.held = several.held if step < NAMES else []
        if fault is None:
            return
        user = touched(fault.script, several.names) if step >= NAMES else None
        if user is not None:
            if not several.without(fault, user):
                return
            continue
        if several.is_met(fault) or not several.is_known(fault):
            if not several.without(fault):
                return
            continue
        told, count = look.fault(fault), count + 1
        if step == SYNTAX and several.is_broken:
            several.held.append(several.as_told(told))
        else:
            yield several.as_told(told)
        if count == MOST or not several.passes(fault, told):
            return
