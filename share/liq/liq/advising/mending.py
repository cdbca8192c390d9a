"""The edit that a line of help names, where it names one: what stands in the place of which characters of the script."""
import re
from typing import Callable, NamedTuple, Optional, Tuple

from liq.advising.helping import Edit, Help
from liq.advising.script import Script, Token


class Fault(NamedTuple):
    """A fault of a script: its line, its place as `where` shows it or nothing, and its help or nothing."""
    script: Script
    line: str
    place: Optional[Tuple[int, int]]
    help: Optional[str]

    @property
    def number(self) -> Optional[int]:
        """The number of its token, or nothing."""
        token = re.search(r" at token (\d+)$", self.line)
        return int(token[1]) if token else None

    @property
    def token(self) -> Optional[Token]:
        """Its token, or nothing where it is at the end of the script or at no token."""
        return self.here or None

    @property
    def here(self) -> Token:
        """The same, or the token that is none."""
        return self.script.token(self.number)

    def beside(self, ahead: int) -> Token:
        """The token so many behind that of the fault, or the token that is none."""
        return self.script.token(self.number + ahead if self.number is not None else None)

    @property
    def at(self) -> int:
        """Where it stands, in characters."""
        byte = re.search(r" at (\d+)$", self.line)
        if byte and self.number is None:
            return self.script.of_byte(int(byte[1]))
        if self.number is not None:
            return self.here.at if self.here else len(self.script.text)
        return self.script.place(*self.place) if self.place else 0


def replaced(fault: Fault, word: str) -> Optional[Edit]:
    """Another word for the token of the fault."""
    token = fault.here
    word += "(" if token.kind == "open" and not word.endswith("(") else ""
    return Edit(token.at, token.behind, word) if token else None


def inserted(fault: Fault, word: str) -> Optional[Edit]:
    """A sign before the fault, or a word."""
    before = fault.beside(-1)
    if word == "," and before:
        return Edit(before.behind, before.behind, ",")
    return Edit(fault.at, fault.at, f"{word} ")


def closed(fault: Fault, sign: str) -> Optional[Edit]:
    """A closing sign behind the token before the fault; `end` in a line of its own, where the fault begins one."""
    before = fault.beside(-1)
    if not before:
        return None
    is_line = sign == "end" and "\n" in fault.script.text[before.behind:fault.at]
    return Edit(before.behind, before.behind, "\nend" if is_line else " end" if sign == "end" else sign)


def at_end(fault: Fault, word: str) -> Optional[Edit]:
    """A word at the end of the script."""
    text = fault.script.text
    return Edit(len(text), len(text), f"{'' if text.endswith(chr(10)) else ' '}{word}\n")


def last_word(fault: Fault, word: str) -> Token:
    """The last token before the fault that is this word, or the token that is none."""
    numbers = [k for k in range(fault.number or 0) if fault.script.word(k) == word]
    return fault.script.token(numbers[-1] if numbers else None)


def before_word(fault: Fault, sign: str, word: str) -> Optional[Edit]:
    """A sign before the last place of a word before the fault."""
    token = last_word(fault, word)
    return Edit(token.at, token.at, sign) if token else None


def behind_word(fault: Fault, sign: str, word: str) -> Optional[Edit]:
    """A sign behind the last place of a word before the fault."""
    token = last_word(fault, word)
    return Edit(token.behind, token.behind, sign) if token else None


def without(fault: Fault) -> Optional[Edit]:
    """Without the token of the fault."""
    return Edit(fault.here.at, fault.here.behind, "") if fault.here else None


def swapped(fault: Fault) -> Optional[Edit]:
    """The token of the fault and the one behind it, the other way round."""
    one, other = fault.here, fault.beside(1)
    return Edit(one.at, other.behind, other.text + one.text) if one and other else None


def as_decimal(fault: Fault, word: str) -> Optional[Edit]:
    """A decimal for the first int of the call, or statement, that is shown."""
    first = fault.script.number_at(fault.at)
    for token in fault.script.tokens[first:] if first is not None else ():
        if token.kind == "int" and token.text == word[:-1]:
            return Edit(token.at, token.behind, word)
    return None


def meant(fault: Fault, word: str) -> Optional[Edit]:
    """Another name: of the file that is missed, or in the place of the token of the fault."""
    name = re.search(r"^E20 missing file (.*)", fault.line)
    if name:
        at = fault.script.text.find(f'"{name[1]}"')
        return Edit(at, at + len(name[1]) + 2, f'"{word}"') if at >= 0 else None
    with_dash = re.compile(re.escape(word).replace("_", "[_-]")).match(fault.script.text, fault.at)
    if with_dash and with_dash[0] != word and fault.here.kind == "name":
        return Edit(fault.at, with_dash.end(), word)
    return replaced(fault, word) if fault.here.kind in ("name", "open") else None


def label_meant(fault: Fault, word: str) -> Optional[Edit]:
    """Another label; where it has a `-`, the fault stands at its `=`."""
    if fault.here.text == "=" and fault.beside(-2).text == "-":
        return Edit(fault.beside(-3).at, fault.here.at, word)
    return replaced(fault, word) if fault.here.kind == "name" else None


def in_small(fault: Fault, word: str) -> Optional[Edit]:
    """A word of the language in small letters: the token of the fault, or the one before it."""
    before = fault.beside(-1)
    token = before if fault.here.text.lower() != word and before else fault.here
    return Edit(token.at, token.behind, word) if token.text.lower() == word else None


def of_word(fault: Fault, text: str) -> Optional[Edit]:
    """The name or the number at the fault in another form."""
    match = re.compile(r"[\w.]+").match(fault.script.text, fault.at)
    return Edit(fault.at, match.end(), text) if match and fault.line.startswith("E08") else None


def uncalled(fault: Fault, name: str) -> Optional[Edit]:
    """A call without arguments as the name alone."""
    match = re.compile(r"[\w.]+\(\s*\)").match(fault.script.text, fault.at)
    return Edit(fault.at, match.end(), name) if match else None


FORMS: Tuple[Tuple[str, Callable[..., Optional[Edit]]], ...] = (
    (r"do you mean `([^`]+)=`\?", label_meant),
    (r"do you mean `([^`]+)`\?", meant),
    (r".* is not closed: `([^`]+)` is missing before this", closed),
    (r".* is not closed: `([^`]+)` is missing", at_end),
    (r".* is closed by `([^`]+)`, and not by .*", replaced),
    (r"a (comma) is missing before this", lambda fault, _: inserted(fault, ",")),
    (r"`(then|else)` is missing before this", inserted),
    (r"`=` is missing before this.*", lambda fault: inserted(fault, "=")),
    (r"`([^`]+)` is missing before `([^`]+)`: .*", before_word),
    (r"`([^`]+)` is missing behind `([^`]+)`: .*", behind_word),
    (r"`[^`]+` stands twice", without),
    (r"this `[^`]+` is too many", without),
    (r"a `;` stands behind a statement alone: remove it|no comma stands behind a statement: remove it", without),
    (r"commas stand between items: write `(,)`", replaced),
    (r"a name is bound with `=`", lambda fault: replaced(fault, "=")),
    (r"two values are compared with `==`", lambda fault: replaced(fault, "==")),
    (r"the two brackets stand the other way round.*", swapped),
    (r"write `(true|false|not|and|or|if|then|else|end|def)`, in small letters", in_small),
    (r"`\w+` is a decimal: write `(\d+\.)`", as_decimal),
    (r"both sides of .* write `(\d+\.)`", as_decimal),
    (r"`\w+` is written `(true|false)`", replaced),
    (r"`\w+` is a text: write `(\"[^`]+\")`", of_word),
    (r"write `(%wav)`", of_word),
    (r"`[\w.]+` is a value of line \d+ and no def: write `([^`]+)`", uncalled),
)
# Forms that name a choice, or of which one of several edits is made: they are offered, and not made unasked.
UNSURE = re.compile(r"do you mean .*|.*, or an item is missing|.* is missing before `.*|.* is missing behind `.*"
                    r"|.* is not closed: .* is missing")


def edit_of(fault: Fault) -> Optional[Edit]:
    """The edit that the help of a fault names, or nothing where it names none."""
    if isinstance(fault.help, Help) and fault.help.edit:
        return fault.help.edit
    for form, made in FORMS:
        match = re.fullmatch(form, fault.help or "", re.S)
        if match:
            return made(fault, *match.groups())
    return None


def is_sure_help(text: Optional[str]) -> bool:
    """Whether a line of help that names an edit names it without a doubt."""
    return text is not None and not UNSURE.fullmatch(text)
