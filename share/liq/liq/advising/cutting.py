"""A script without a statement in which a fault stands, so that the proved reader tells the next one. What is cut becomes
blanks, so that all other places stay the same; a name that it binds is bound to a stand-in."""
import re
from typing import Dict, List, NamedTuple, Optional, Tuple

from liq.advising.mending import Fault
from liq.advising.script import Script

NAME = r"[A-Za-z_][\w.]*"
BEGINS = re.compile(rf"(?:(?:def|if)\b|{NAME}[ \t]*=(?!=)|{NAME}\()")
BINDS = re.compile(rf"^[ \t]*(?:def[ \t]+(?:rec[ \t]+)?({NAME})[ \t]*\(|(?:let[ \t]+)?({NAME})[ \t]*=(?!=))", re.M)
GOES_ON = re.compile(r"(?:[,=+*/(\[{<>-]|\b(?:and|or|not|then|else|if|def))\s*\Z")
WORDS = re.compile(r"\"(?:[^\"\\\n]|\\.)*\"|'(?:[^'\\\n]|\\.)*'|#[^\n]*|[()\[\]{}]|\w+")
PAIRS = {"(": ")", "[": "]", "{": "}", "def": "end", "if": "end"}


class Cut(NamedTuple):
    """The text behind a cut; the names of which nothing is known from a character on; whether a bracket of it may be
    closed behind it; and whether it may have bound any name."""
    text: str
    names: Dict[str, int]
    is_open: bool
    is_any: bool


def is_balanced(text: str) -> bool:
    """Whether each bracket of a text is closed in it, as far as its words tell."""
    stack: List[str] = []
    for word in WORDS.findall(text):
        if word in PAIRS:
            stack.append(PAIRS[word])
        elif word in PAIRS.values():
            if not stack or stack.pop() != word:
                return False
    return not stack


def blanked(text: str, begin: int, behind: int, stub: str) -> str:
    """A text with blanks in the place of some characters, but for line ends, and a stand-in at their begin if it fits."""
    gone = re.sub(r"[^\r\n]", " ", text[begin:behind])
    first = re.match(r" *", gone)
    if first and len(stub) <= first.end():
        gone = stub + gone[len(stub):]
    return text[:begin] + gone + text[behind:]


def stub_of(text: str) -> Tuple[str, str]:
    """The name that a statement binds by its first words, or an empty text, and what binds it to a stand-in."""
    bound = re.match(rf"(def[ \t]+)?({NAME})[ \t]*(=(?!=)|\()", text)
    if not bound or bool(bound[1]) != (bound[3] == "("):
        return "", ""
    line = text.split("\n")[0]
    stub = f"def {bound[2]}()=0 end" if bound[1] else f"{bound[2]}=0"
    return bound[2], stub if len(stub) <= len(line) else f"{bound[2]}=0"


def whole_statement(script: Script, number: int) -> Optional[Cut]:
    """Without a statement that was read whole, of its number from 0."""
    if not 0 <= number < len(script.starts):
        return None
    first = script.starts[number]
    begin, behind = script.tokens[first].at, script.tokens[script.end_of(first) - 1].behind
    name, stub = stub_of(script.text[begin:behind])
    names = {front_of(name): begin + len(stub)} if name else {}
    return Cut(blanked(script.text, begin, behind, stub), names, False, False)


def first_of(fault: Fault) -> int:
    """The character at which the statement begins in which a fault of bytes or syntax stands."""
    script, at, number = fault.script, fault.at, fault.number
    if not script.starts:
        return at
    last = script.tokens[script.starts[-1]].at
    if number is None:
        is_new = script.reading.fault is None and not script.text[script.text.rfind("\n", 0, at) + 1:at].strip()
        return at if is_new else last
    if script.starts[-1] == number and len(script.starts) > 1 and not script.begins_line(number):
        return script.tokens[script.starts[-2]].at
    return last


def broken_statement(fault: Fault) -> Cut:
    """Without the statement of a fault of bytes or syntax, up to the next line that begins one. That is known where a
    bracket is left open only if the rest is read whole."""
    text, begin = fault.script.text, first_of(fault)
    column = begin - (text.rfind("\n", 0, begin) + 1)
    at = fault.at if fault.at < len(text) and fault.number is not None else text.find("\n", fault.at) + 1 or len(text)
    at = at if not text[text.rfind("\n", 0, at) + 1:at].strip() else text.find("\n", at) + 1 or len(text)
    behind = next_line(text, begin, max(at, begin + 1), column)
    gone = text[begin:behind]
    name, stub = stub_of(gone)
    names = {front_of(match[1] or match[2]): begin + len(stub) for match in BINDS.finditer(gone)}
    return Cut(blanked(text, begin, behind, stub), names, not is_balanced(gone), not BEGINS.match(gone))


def next_line(text: str, begin: int, at: int, column: int) -> int:
    """The first character of the next line that begins a statement, from a place on, or the end of the text."""
    while at < len(text):
        start = text.rfind("\n", 0, at) + 1
        line = re.compile(r"[ \t]*").match(text, start)
        place = line.end() if line else start
        before = re.sub(r"#[^\n]*", "", text[begin:start])
        if place - start <= column and place > begin and BEGINS.match(text, place) and not GOES_ON.search(before):
            return place
        at = text.find("\n", at) + 1 or len(text)
    return len(text)


def cut(fault: Fault) -> Optional[Cut]:
    """The script without the statement of a fault, or nothing where that is not known."""
    if fault.line[:3] <= "E07":
        return None if fault.line[:3] in ("E01", "E05", "E07") else broken_statement(fault)
    statement = re.match(r"E\d\d statement (\d+)\b", fault.line)
    return whole_statement(fault.script, int(statement[1]) - 1) if statement else None


def touched(script: Script, names: Dict[str, int]) -> Optional[int]:
    """The number of the first statement that names what was cut before it, or nothing."""
    for number, first in enumerate(script.starts):
        for token in script.tokens[first:script.end_of(first)]:
            if token.kind in ("name", "open") and token.at >= names.get(front_of(token.name), len(script.text)):
                return number
    return None


def front_of(name: str) -> str:
    """A name without its methods."""
    return name.partition(".")[0]
