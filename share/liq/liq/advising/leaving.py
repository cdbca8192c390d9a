"""The edits by which a word of Liquidsoap goes, where the page says to leave it out or names one call in its place."""
import re
from typing import List, Optional

from liq.advising.helping import Edit, Help
from liq.advising.script import Argument, Tokens, arguments_of
from liq.advising.sorts import last_of

# What a row of docs/liquidsoap.md begins with, if it names one call alone that is to stand in the place of another.
ONE_CALL = re.compile(r"`([a-z_.]+\([^`]*\))`(?:$|;|, where )")
# What stands in such a call for the arguments that are given.
STAND_INS = re.compile(r"\{PREDICATE\}|\"NAME\.\w+\"|(?<![=\w.])(?:[st](?![\w=])|\d+\.\d*)")
OUT = "leave it out"
KEPT = ("weights",)        # labels that are left out by what they would do, and not alone


def text_of(script: Tokens, argument: Argument) -> str:
    """An argument as it stands in the script, with its label."""
    text = script.text[argument.tokens[0].at:argument.tokens[-1].behind]
    return f"{argument.label}={text}" if argument.label is not None else text


def with_edit(line: Optional[str], edit: Optional[Edit]) -> Optional[str]:
    """A line of help with an edit, where there are both."""
    if line is None or edit is None:
        return line
    found = Help(line)
    found.edit = edit
    return found


def of_call(script: Tokens, number: int, way: str) -> Optional[Edit]:
    """The edit of the call that a token opens, by what the page says of its word; nothing where that is not one thing."""
    last = last_of(script.tokens, number)
    if last is None or script.tokens[number].kind != "open":
        return None
    begin, behind = script.tokens[number].at, script.tokens[last].behind
    arguments = arguments_of(script.tokens, number)
    bare = [text_of(script, one) for one in arguments if one.label is None]
    if way.startswith(OUT):
        if number in script.starts or script.begins(number):
            return Edit(begin, behind + (script.text[behind:behind + 1] == "\n" and script.text[begin - 1:begin] in ("", "\n")), "")
        return Edit(begin, behind, bare[-1]) if bare else None
    if len(bare) < len(arguments):
        return None
    text = in_place(way, bare)
    return Edit(begin, behind, text) if text is not None else None


def in_place(way: str, bare: List[str]) -> Optional[str]:
    """The one call that a row names, with the arguments that are given in the places of those that it shows."""
    match = ONE_CALL.match(way)
    if match is None:
        return None
    name, inner = match[1].partition("(")[0], match[1].partition("(")[2][:-1]
    if len(bare) == 1 and inner.startswith("[") and inner.endswith("]") and bare[0].startswith("[") \
            and "PREDICATE" not in inner:
        return f"{name}({bare[0]})"
    shown = STAND_INS.findall(inner)
    if len(shown) != len(bare):
        return None
    if any(("PREDICATE" in one) != text.startswith("{") for one, text in zip(shown, bare)):
        return None
    given = iter(bare)
    return f"{name}({STAND_INS.sub(lambda _: next(given), inner)})"


def renamed(script: Tokens, name: str, other: str, file: str) -> Optional[Edit]:
    """Another call in the place of the one that plays a file, where one alone does so."""
    found = []
    for number, token in enumerate(script.tokens):
        if token.kind == "open" and token.name == name:
            texts = [one.tokens[0].text[1:-1] for one in arguments_of(script.tokens, number) if one.label is None]
            found += [token] if texts == [file] else []
    return Edit(found[0].at, found[0].at + len(name), other) if len(found) == 1 else None


def of_label(script: Tokens, call: int, label: str) -> Optional[Edit]:
    """A call without the argument of a label, of which there is one."""
    arguments = arguments_of(script.tokens, call)
    numbers = [k for k, one in enumerate(arguments) if one.label == label]
    if len(numbers) != 1 or label in KEPT:
        return None
    number, one = numbers[0], arguments[numbers[0]]
    begin, behind = script.tokens[one.number - 2].at, one.tokens[-1].behind
    if number + 1 < len(arguments):
        after = arguments[number + 1]
        return Edit(begin, script.tokens[after.number - 2 * (after.label is not None)].at, "")
    return Edit(arguments[number - 1].tokens[-1].behind if number else begin, behind, "")
