"""What to do about what Liquidsoap has and this language has not: signs, forms of numbers, blocks and types."""
import re
from typing import Dict, List, Match, Optional, Sequence, Tuple

from liq.advising import leaving
from liq.advising.helping import mended
from liq.advising.script import KEYWORDS, MAKERS, Script
from liq.advising.tables import Call, Words

TYPES = r"(?:source|string|int|float|bool|unit|format|request)\b"
JOINED = "texts are not joined: write the whole text"
ANY_NUMBER = re.compile(r"0[xX][0-9A-Fa-f_]+|0[oO][0-7_]+|0[bB][01_]+|\d[\d_]*(?:\.[\d_]*)?[eE][+-]?\d+|\d[\d_]*_[\d_]*"
                        r"|\d+(?:\.\d*)?\s*dB\b")
BEGIN = "leave `begin` and `end` out: a value stands by itself, and each step before it is a binding of its own"
TRY = "`try .. catch .. end` is left out: write the value that is to be played"


# At a byte with which no token begins (E02).

def of_byte(script: Script, rest: str, front: str) -> Optional[str]:
    """A sign of Liquidsoap, of what stands from it on, and before it."""
    if rest.startswith("|>"):
        return of_pipe(script, rest, len(front))
    kind = re.match(r":\s*(" + TYPES + r")", rest)
    if kind:
        begin = len(front.rstrip()) if re.search(r"[\w)\]]\s*$", front) else len(front)
        return mended(f"types are not written here: leave `: {kind[1]}` out", begin, len(front) + kind.end(), "")
    if rest[0] == "^":
        return of_joined(script, rest, len(front))
    if rest.startswith("??"):
        return "each value is there: leave `??` and what stands behind it out"
    if rest.startswith("?."):
        return "a value has no parts here: methods of Liquidsoap are left out"
    if rest[0] == "?" and script.parents[-1] is None and re.search(r"[\w)\]]\s*$", front):
        return "a choice is written `if .. then .. else .. end`"
    if rest[0] == "%" and re.match(r"%\s+[\w(]", rest) and re.search(r"[\w)]\s*$", front):
        return "`%` of two ints is no sign of this language: write the value out"
    if rest[0] == "@" and re.search(r"\]\s*$", front):
        return "lists are not joined: write the items out in one list"
    if re.match(r"!\s*[A-Za-z_]", rest) and "{" in [script.word(k) for k in open_brackets(script)]:
        return "a predicate in braces holds times alone, and references, which Liquidsoap reads by `!`, are left out"
    return None


def open_brackets(script: Script) -> List[int]:
    """The numbers of the brackets that are open at the end of the tokens, the innermost last."""
    found, inner = [], script.parents[-1]
    while inner is not None:
        found.append(inner)
        inner = script.parents[inner]
    return found[::-1]


def of_joined(script: Script, rest: str, at: int) -> str:
    """At a `^` between two texts, or other values."""
    other, last = re.match(r"\^\s*\"([^\"\\\n]*)\"(?!\s*\^)", rest), script.last
    if other is None or last.kind != "text" or last.text[:1] != '"' or script.text[last.behind:at].strip():
        return JOINED
    return mended(JOINED, last.at, at + other.end(), f'{last.text[:-1]}{other[1]}"')


def of_pipe(script: Script, rest: str, at: int) -> str:
    """At a `|>` behind a value, and before a call."""
    call = re.match(r"\|>\s*([A-Za-z_][\w.]*)(\s*\(\s*\))?(?!\s*[\w(.])", rest)
    name = re.match(r"\|>\s*([A-Za-z_][\w.]*)", rest)
    line = f"no value is passed on by `|>`: write `{name[1] if name else 'f'}(..)` round it"
    number, tokens = len(script.tokens) - 1, script.tokens
    if call is None or number < 0 or script.text[tokens[number].behind:at].strip():
        return line
    if tokens[number].text == ")":
        number = next((k for k in range(number - 1, -1, -1) if tokens[k].kind == "open"
                       and script.parents[k] == script.parents[-1]), -1)
    elif tokens[number].kind != "name":
        return line
    begin = tokens[number].at if number >= 0 else at
    return mended(line, begin, at + call.end(), f"{call[1]}({script.text[begin:at].rstrip()})") if begin < at else line


# At a token with which no script goes on (E06).

def plain_number(text: str) -> Optional[str]:
    """A number of Liquidsoap in plain digits, or nothing."""
    digits = text.replace("_", "")
    if digits.endswith("dB"):
        return None
    base = {"x": 16, "o": 8, "b": 2}.get(digits[1:2].lower())
    if base and digits[0] == "0":
        return str(int(digits[2:], base))
    if re.fullmatch(r"\d+", digits):
        return digits
    value = float(digits) if len(digits) < 20 else 1e99
    shown = f"{value:.6f}".rstrip("0")
    return shown if value <= 1e9 and float(shown) == value else None


def number_before(script: Script, number: int) -> Tuple[int, Optional[Match[str]]]:
    """A number in a form that none has here, which ends before or with a token: the number of its first token, and
    what is matched of the text; or nothing twice."""
    for place in (number - 1, number - 2):
        token = script.token(place)
        if token.kind in ("int", "number") and script.is_close(place + 1):
            match = ANY_NUMBER.match(script.text, token.at)
            if match and match.end() > token.behind:
                return place, match
    return number, None


def of_number(script: Script, number: int) -> Optional[str]:
    """A number in a form that none has here."""
    place, match = number_before(script, number)
    if match is None:
        return None
    if match[0].endswith("dB"):
        sign = "-" if script.word(place - 1) == "-" else ""
        factor = 10 ** (float(sign + match[0][:-2]) / 20) if len(match[0]) < 12 else 1e99
        if factor >= 1e9:
            return "decibels are written as a factor"
        begin = script.tokens[place - 1].at if sign else match.start()
        return mended(f"decibels are written as a factor: `{sign}{match[0]}` is {factor:.6f}", begin, match.end(),
                      f"{factor:.6f}")
    plain = plain_number(match[0])
    if plain is None:
        return "a number has plain digits, at most six behind its point"
    return mended(f"a number has plain digits: write `{plain}`", match.start(), match.end(), plain)


def of_words(script: Script, number: int) -> Optional[str]:
    """A block or a sign of Liquidsoap."""
    token, before = script.tokens[number], script.token(number - 1)
    word, last = token.text, before.text if before.kind == "name" else ""
    if last.lower() in KEYWORDS and last not in script.bound(number):
        return f"write `{last.lower()}`, in small letters"
    is_comment = word in ("/", "-") and script.word(number - 1) == word and script.is_close(number)
    if is_comment and (word == "/" or script.begins_line(number - 1)):
        return mended("a comment begins with `#`", before.at, token.behind, "#")
    if last == "begin" or word == "end" and script.parents[number] is None and has_name(script, number, "begin"):
        return BEGIN
    if last in ("try", "catch") or word == "catch":
        return TRY
    if word == "*" and script.word(number - 1) == "*":
        return "there is no power of two values: write the value out"
    if last == "mod" and "mod" not in script.bound(number):
        return "`mod` is no word of this language: write the value out"
    if word == "<" and script.word(number + 1) == "-" and script.is_close(number + 1):
        return mended("a name is bound with `=`, and nothing changes behind it: `x = ..`", token.at, token.at + 2, "=")
    return None


def has_name(script: Script, number: int, name: str) -> bool:
    """Whether a name stands before a token that is bound nowhere."""
    return name not in script.bound(number) and any(one.kind == "name" and one.text == name
                                                    for one in script.tokens[:number])


def of_def(script: Script, number: int) -> Optional[str]:
    """In the head of a def."""
    token, before = script.tokens[number], script.token(number - 1)
    inner = script.parents[number]
    if before.text == "def" and before.kind == "keyword" and token.kind == "name":
        if script.word(number + 1) == "=":
            return of_bound(script, number)
        return None
    is_head = inner is not None and inner > 0 and script.word(inner - 1) == "def" and script.tokens[inner].kind == "open"
    if is_head and token.text == "=" and before.kind == "name" and script.word(number - 2) != "~":
        return mended(f"a parameter with a default has `~` before it, and is given by its label: `~{before.text}=..`",
                      before.at, before.at, "~")
    return of_braces(script, number)


def of_bound(script: Script, number: int) -> str:
    """A value that is bound with `def` and `end`."""
    token, first = script.tokens[number], script.tokens[number - 1]
    line = f"a value is bound without `def` and `end`: `{token.text} = ..`"
    ends = [k for k in range(number, len(script.tokens)) if script.word(k) == "end" and script.parents[k] == number - 1]
    if not ends:
        return line
    end = script.tokens[ends[0]]
    return mended(line, first.at, end.behind, script.text[token.at:end.at].rstrip())


def of_braces(script: Script, number: int) -> Optional[str]:
    """The text of a def in braces."""
    stack = script.stack(number)
    if [script.word(k) for k in stack[-2:]] != ["def", "{"] or script.word(stack[-1] - 1) not in (")", "="):
        return None
    line, begin = "the text of a def stands between `=` and `end`: `def f(x) = .. end`", script.tokens[stack[-1]]
    ends = [k for k in range(number, len(script.tokens)) if script.word(k) == "}" and script.parents[k] == stack[-1]]
    if not ends:
        return line
    end, sign = script.tokens[ends[0]], "" if script.word(stack[-1] - 1) == "=" else "="
    return mended(line, begin.at, end.behind, sign + script.text[begin.behind:end.at] + "end")


def of_record(script: Script, number: int) -> Optional[str]:
    """A record, in the braces of a predicate."""
    inner, token = script.parents[number], script.tokens[number]
    if inner is not None and script.word(inner) == "{" and token.kind == "name" and script.word(number + 1) == "=":
        return "records are left out: bind each part by itself"
    return None


def of_token(script: Script, number: int) -> Optional[str]:
    """All of these."""
    return of_number(script, number) or of_words(script, number) or of_def(script, number) or of_record(script, number)


# Round a fault.

def call_round(script: Script, stack: Sequence[int], words: Words, calls: Dict[str, Call]) -> Optional[str]:
    """What is told of a call that is left out, where a fault stands within it: the outermost of those in these
    brackets; or nothing."""
    for number in stack:
        token = script.tokens[number]
        if token.kind != "open" or token.name in calls or script.word(number - 1) == "def":
            continue
        bound = script.bound(number)
        if bound.get(token.name, ("",))[0] == "def" or token.name in MAKERS:
            return None
        found = words.told(token.name) or of_family(token.name, words)
        if found:
            way = words.words.get(token.name) or words.family(token.name) or ""
            return leaving.with_edit(found, leaving.of_call(script, number, way))
        found = of_method(token.name, bound, words)
        if found:
            return leaving.with_edit(found, leaving.of_call(script, number, leaving.OUT) if script.begins(number) else None)
    return None


def of_family(name: str, words: Words) -> Optional[str]:
    """A word of a family."""
    way = words.family(name)
    return words.told_as(name, way) if way else None


def of_method(name: str, bound: Dict[str, Tuple[str, int]], words: Words) -> Optional[str]:
    """A method of a value that is bound."""
    front, _, last = name.partition(".")
    if not last or front not in bound:
        return None
    row = words.words.get(last.rpartition(".")[2])
    why = row.removeprefix("leave it out") if row and row.startswith("leave it out") else ""
    return f"`{front}` has no parts, as methods of Liquidsoap are left out: leave `{name}(..)` out{why}"
