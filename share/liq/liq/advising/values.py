"""What to do about a setting (E13), and about a value that a call may not have (E14)."""
import re
from typing import Dict, List, Optional

from liq.advising import leaving
from liq.advising.calls import call_at
from liq.advising.helping import Edit, mended
from liq.advising.script import Script, Token, arguments_of
from liq.advising.tables import Call, Words, bounds, left_out, setting as words_of_setting

RATE, DURATION = "frame.audio.samplerate", "frame.duration"


def setting(script: Script, number: int) -> Optional[str]:
    """E13, of the statement of this number, from 1."""
    if not 1 <= number <= len(script.starts):
        return None
    first = script.starts[number - 1]
    if [script.word(first + k) for k in (1, 2)] == ["=", "set("]:
        return mended("a setting is a statement by itself, and no value", script.tokens[first].at, script.tokens[first + 2].at, "")
    if any(script.word(start) != "set(" for start in script.starts[:number]):
        line = "settings stand before all other statements, each by itself: move it to the top"
        return leaving.with_edit(line, to_top(script, first)) if script.word(first) == "set(" else None
    arguments = arguments_of(script.tokens, first)
    if len(arguments) != 2 or len(arguments[1].tokens) > 2:
        return None
    return of_setting(arguments[0].tokens[0].text[1:-1], arguments[1].tokens)


def to_top(script: Script, first: int) -> Optional[Edit]:
    """The statement that begins with a token above all others, where each begins its line."""
    top = next(start for start in script.starts if script.word(start) != "set(")
    begin, there = script.tokens[top].at, script.tokens[first].at
    behind = script.tokens[script.end_of(first) - 1].behind
    if not script.begins(top) or not script.begins(first):
        return None
    return Edit(begin, behind, f"{script.text[there:behind]}\n{script.text[begin:there].rstrip()}")


def of_setting(key: str, tokens: List[Token]) -> Optional[str]:
    """What is wrong with the value of a setting, of its tokens."""
    value = tokens[-1]
    if key == RATE:
        digits = re.fullmatch(r"[\"']?(\d+)(?:\.0*)?[\"']?", value.text) if len(tokens) == 1 else None
        if value.kind in ("number", "text"):
            line = "the rate is an int, as `44100`"
            return mended(line, value.at, value.behind, digits[1]) if digits else line
        words = words_of_setting(key)
        return f"the rate is {words}" if value.kind == "int" and words else None
    if key == DURATION:
        if value.kind in ("int", "text"):
            return "the duration is a decimal, as `0.04`"
        most = bounds("E13")
        return f"a tick, the duration times the rate, has from 1 to {most[0]} samples" if most else None
    return None


def bad_value(script: Script, number: int, words: Words, calls: Dict[str, Call]) -> Optional[str]:
    """E14."""
    token = script.tokens[number]
    if token.kind == "wav":
        return "`samplesize` is 16 or 24"
    if token.text == "/":
        return "the divisor is zero, or the result passes its bound"
    if token.text in ("+", "-", "*"):
        most = bounds("E04")
        return f"the result passes its bound: an int is at most {most[0]}, a decimal at most {most[1]}" if most else None
    call = call_at(script, number, calls) if token.kind == "open" else None
    if call is None:
        return None
    for argument in arguments_of(script.tokens, number):
        way = words.arguments.get((call.name, argument.label or "", argument.tokens[0].text.strip("\"'")))
        if way:
            line = left_out(f"`{argument.label}={argument.tokens[0].text}`", way)
            is_out = way.startswith(leaving.OUT)
            return leaving.with_edit(line, leaving.of_label(script, number, argument.label or "")) if is_out else line
    bad = re.match(r"an? [^;]*", call.bad)
    return f"not allowed is {bad[0]}" if bad else None
