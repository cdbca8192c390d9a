"""What to do about times, in the braces of a predicate or outside of them (E06)."""
import re
from typing import Dict, Optional

from liq.advising.helping import mended
from liq.advising.script import CLOSES, MAKERS, Script
from liq.advising.tables import Call

WEEK = ("monday", "tuesday", "wednesday", "thursday", "friday", "saturday", "sunday")
UNTIL = ("to", "til", "till", "until", "through", "bis")
SECONDS = {"w": 86400, "h": 3600, "m": 60, "s": 1}


def day_of(word: str) -> Optional[str]:
    """The mark of a day of the week, of its name or the first letters of it, or nothing."""
    name = word.lower()
    found = [k for k, day in enumerate(WEEK, 1) if len(name) > 2 and name in (day, day[:3], day[:4], day[:5])]
    return f"{found[0]}w" if found else None


def of_hour(script: Script, number: int) -> Optional[str]:
    """A time with am or pm, or without its unit."""
    token, after = script.tokens[number], script.token(number + 1)
    if token.kind == "int" and after and script.is_close(number + 1) and after.text.lower() in ("am", "pm"):
        hour = int(token.text) % 12 + 12 * (after.text.lower() == "pm")
        return mended(f"a day has 24 hours: {token.text}{after.text} is `{hour}h`", token.at, after.behind, f"{hour}h")
    before = script.token(number - 1)
    if before.kind == "time" or before.text in ("true", "false", ")"):
        return None
    if is_value(script, number):
        line = f"a value in braces is a function: write `{token.text}`"
        return mended(line, before.at, script.token(number + 1).behind, token.text)
    if token.kind == "number" and not token.text.endswith("."):
        time = re.fullmatch(r"(\d{1,2})\.(\d\d)", token.text)
        line = "a time is written `6h30`, and not with a point"
        return mended(line, token.at, token.behind, f"{time[1]}h{time[2]}") if time else line
    return f"a time has its unit: `{token.text.rstrip('.')}h`, or `m` or `s`, or `w` for a day of the week"


def is_value(script: Script, number: int) -> bool:
    """Whether a number stands alone in braces that are an argument of a call."""
    token, brace = script.tokens[number], script.parents[number]
    outer = script.parents[brace] if brace is not None else None
    is_alone = script.word(number - 1) == "{" and script.word(number + 1) == "}"
    return token.kind == "number" and is_alone and outer is not None and script.tokens[outer].kind == "open"


def of_predicate(script: Script, number: int) -> Optional[str]:
    """In the braces of a predicate."""
    token, before, after = script.tokens[number], script.token(number - 1), script.token(number + 1)
    if token.kind in ("int", "number"):
        return of_hour(script, number)
    day = day_of(token.text) if token.kind == "name" else None
    if day:
        return mended(f"days of the week are `1w`, Monday, to `7w`: write `{day}`", token.at, token.behind, day)
    is_between = before.kind == "time" and after.kind == "time"
    if token.kind == "name" and token.text.lower() in UNTIL and is_between:
        line = f"write `-` between two times: `{before.text}-{after.text}`"
        return mended(line, before.behind, after.at, "-")
    stack = script.stack(number)
    if token.kind == "open" and token.name in MAKERS and len(stack) > 1 and script.tokens[stack[-2]].kind == "open":
        return mended_brackets(script, stack[-1], "[", "a list stands in `[` and `]`")
    outer = stack[-2] if len(stack) > 1 else None
    if token.kind in ("name", "open", "text") and outer is not None and script.word(outer) == "output.file(":
        return "the name is a text, taken letter by letter: write `\"NAME.wav\"`"
    if token.kind in ("name", "open", "text"):
        return "a predicate in braces holds times, `true`, `false`, `not`, `and` and `or` alone"
    if token.text == "-" and before.kind == "time" and script.word(number - 2) == "-":
        return "a stretch of time has two ends: `or` joins two stretches, as `{6h-9h or 22h-23h}`"
    if token.text == ",":
        return "write `or` or `and` between times" if after and after.kind == "time" else None
    return None


def of_time(script: Script, number: int, calls: Dict[str, Call]) -> Optional[str]:
    """A time outside of braces, or behind another one."""
    before, inner = script.token(number - 1), script.parents[number]
    stack = script.stack(number)
    if "{" in [script.word(k) for k in stack]:
        is_second = before.kind == "time"
        return "`-` stands between the ends of a time, and `and` or `or` between two times" if is_second else None
    call = calls.get(script.tokens[inner].name) if inner is not None and script.tokens[inner].kind == "open" else None
    parameter = call.parameter(script.word(number - 2)) if call and before.text == "=" else None
    if parameter and parameter.type.startswith("decimal"):
        return of_seconds(script, number)
    if any(script.word(k) == "switch(" for k in stack):
        return of_braces(script, number)
    return None


def of_braces(script: Script, number: int) -> str:
    """A predicate without braces, which begins with a time."""
    token, inner, end = script.tokens[number], script.parents[number], number
    while end < len(script.tokens) and script.parents[end] == inner and not script.tokens[end].closes \
            and script.word(end) != ",":
        end += 1
    text = script.text[token.at:script.tokens[end - 1].behind]
    line = f"times stand in braces: `{{{text}}}`"
    if script.word(number - 1) != "(":
        return line
    is_round = inner is not None and script.word(end) == ")" and script.word(end + 1) == "," and inner == number - 1
    if is_round and script.word(script.parents[inner or 0]) == "(":
        return mended(line, script.tokens[number - 1].at, script.tokens[end].behind, f"{{{text}}}")
    return mended(line, token.at, script.tokens[end - 1].behind, f"{{{text}}}")


def mended_brackets(script: Script, number: int, sign: str, line: str) -> str:
    """A line of help that names other brackets for those that a token opens, with the edit where they are closed."""
    last = next((k for k in range(number + 1, len(script.tokens)) if script.tokens[k].closes
                 and script.parents[k] == number), None)
    first = script.tokens[number]
    if last is None:
        return line
    text = script.text[first.behind:script.tokens[last].at]
    return mended(line, first.at, script.tokens[last].behind, f"{sign}{text}{CLOSES[sign]}")


def of_seconds(script: Script, number: int) -> str:
    """A time in the place of a decimal."""
    text, after = script.tokens[number].text, script.token(number + 1)
    is_cut = after.kind == "name" and script.is_close(number + 1)
    if is_cut or not text[:-1].isdigit() or text[-1] not in "hms":
        return "a duration is a decimal, in seconds, without a unit"
    token, seconds = script.tokens[number], f"{int(text[:-1]) * SECONDS[text[-1]]}."
    return mended(f"a duration is a decimal, in seconds: write `{seconds}`", token.at, token.behind, seconds)
