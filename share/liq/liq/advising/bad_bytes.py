"""What to do about a byte with which no token begins (E02), and about a number that is too large (E04)."""
import re
from typing import Optional

from liq.advising import foreign
from liq.advising.helping import mended
from liq.advising.names import FILE
from liq.advising.script import Script, arguments_of
from liq.advising.sorts import is_whole, value_of
from liq.advising.tables import Words, left_out

QUOTES = "\u201c\u201d\u201e\u2018\u2019\u201a\u00ab\u00bb`\u00b4"
DASHES = "\u2010\u2011\u2012\u2013\u2014\u2212"
QUOTE_WITHIN = {'"': "a `\"` within a text ends it: write a backslash before it",
                "'": "a `'` within a text ends it: write `\"` at both ends of the text"}
BLANKS = "\u00a0\u200b\u2009\u202f\u3000\ufeff"


def of_format(script: Script, at: int, words: Words) -> Optional[str]:
    """At a `%` that is no `%wav`."""
    before = script.last
    is_number = before.kind in ("int", "number") and before.behind == at
    if is_number and not re.match(r"%\s*\w", script.text[at:]):
        share = of_share(before.text)
        return mended(f"a share is a decimal: write `{share}`", before.at, at + 1, share) if share else None
    word = re.match(r"%[A-Za-z_]\w*(?:\.\w+)*", script.text[at:])
    if not word:
        return None
    if word[0].lower() == "%wav":
        return mended("write `%wav`, in small letters", at, at + 4, "%wav")
    inner = script.parents[-1]
    call = script.tokens[inner].name if inner is not None and script.tokens[inner].kind == "open" else ""
    way = words.words.get(call)
    if way:
        return left_out(f"`{call}` and `{word[0]}`", way, False)
    told, whole = words.told(word[0]), re.compile(r"%[\w.]+(?:\s*\([^()]*\))?").match(script.text, at)
    is_wav = words.words.get(word[0], "").startswith("`%wav`") and told and whole
    return mended(told, at, whole.end(), "%wav") if is_wav and told and whole else told


def of_share(text: str) -> Optional[str]:
    """A share with a percent sign as a decimal, where six digits behind the point tell it."""
    whole, _, rest = text.partition(".")
    if len(rest) > 4 or len(whole) > 9:
        return None
    digits = (whole.zfill(3) + rest).lstrip("0").rjust(len(rest) + 3, "0")
    point = len(digits) - len(rest) - 2
    return f"{digits[:point]}.{digits[point:].rstrip('0')}"


def opening_quote(script: Script, at: int) -> Optional[int]:
    """Where the text begins that is open at a place, or nothing where none is."""
    begin = script.last.behind if script.tokens else 0
    gap = re.compile(r"(?:[ \t\r\n]+|#[^\n]*)*").match(script.text, begin)
    place = gap.end() if gap else begin
    return place if place < at and script.text[place] in "'\"" else None


def in_text(script: Script, begin: int, at: int) -> Optional[str]:
    """At a bad byte in the text that begins at a quote, what to do."""
    byte = script.text[at]
    if byte in "\r\n":
        return of_open_text(script, begin, at)
    if byte == "\\":
        return ("a backslash stands only before a quote or a backslash: write `/` between folders, and `\\\\` for a "
                "backslash")
    if byte == "\t":
        return "a text holds no TAB; a file with one in its name is played by a list"
    if "\udc80" <= byte <= "\udcff":
        return "this byte is no UTF-8: save the script as UTF-8"
    return None


def of_open_text(script: Script, begin: int, at: int) -> Optional[str]:
    """Where a text is not closed in its line."""
    quote, rest = script.text[begin], script.text[begin + 1:at]
    other = "'" if quote == '"' else '"'
    end = re.search(r"^[^'\"]*(" + other + r")[\s)\]},;]*$", rest)
    if end:
        place = begin + 1 + end.start(1)
        return mended(f"this text begins with `{quote}` and ends with `{other}`: the same quote stands at both ends",
                      place, place + 1, quote)
    last, before = script.token(len(script.tokens) - 1), script.token(len(script.tokens) - 2)
    line = script.line(begin)
    for number, token in enumerate(script.tokens[:-1]):
        is_cut = token.kind == "text" and token.text[0] == quote and script.is_close(number + 1)
        if is_cut and script.tokens[number + 1].kind == "name" and script.line(token.at) == line:
            return QUOTE_WITHIN[quote]
    if last and last.kind == "name" and last.behind == begin:
        if before and before.kind == "text" and before.behind == last.at:
            return QUOTE_WITHIN[quote] if before.text[0] == quote else None
        return mended(f"a text begins with a quote, too: `{quote}{last.text}{quote}`", last.at, last.at, quote)
    return f"the text that begins in line {script.line(at)} is not closed: a quote is missing in this line"


def of_encoding(script: Script, at: int) -> Optional[str]:
    """Where the bytes of the script are those of another encoding."""
    if script.data.startswith((b"\xff\xfe", b"\xfe\xff")) or script.data[:2].count(b"\0") == 1 and at < 2:
        return "save the script as UTF-8: this is UTF-16"
    if script.text.startswith("\ufeff") and at == 0:
        return "save the script as UTF-8 without a byte order mark"
    return None


def of_colon(script: Script, rest: str, front: str, words: Words) -> Optional[str]:
    """At a colon."""
    if rest[:2] == ":=":
        return of_assignment(rest, front, words)
    if re.search(r"\d$", front) and re.match(r":\d", rest):
        time = "a time is written `6h30`, and not with a colon"
        return mended(time, len(front), len(front) + 1, "h") if re.match(r":\d\d(?![\w:])", rest) else time
    tokens, inner = script.tokens, script.parents[-1]
    last = script.last
    if last and last.text == "}" and inner is not None:
        return of_pair(script, rest, len(front))
    is_in_def = inner is not None and script.word(inner) == "def" and tokens[inner + 1].kind == "open"
    if is_in_def and inner is not None and last.text == ")" and script.parents[-2] == inner + 1:
        return mended("write `=` in place of `:`, or nothing", len(front), len(front) + 1, "=")
    if inner is not None and script.word(inner) == "if" and "then" not in [one.text for one in tokens[inner:]]:
        return mended("write `then` in place of `:`", len(front), len(front) + 1, " then")
    if last and last.kind == "name" and inner is not None and tokens[inner].kind == "open":
        return mended(f"a label has `=` behind it: `{last.text}=`", len(front), len(front) + 1, "=")
    return None


def of_assignment(rest: str, front: str, words: Words) -> Optional[str]:
    """At a `:=`, of a setting or of another name."""
    setting = re.search(r"settings\.([a-z_.]+?)(?:\.set)?\s*$", front)
    value = re.match(r":=[ \t]*([\w.]+|\"[^\"\n]*\")[ \t\r]*(?=\n|$)", rest)
    if setting and value:
        call = f'set("{setting[1]}", {value[1]})'
        return mended(f"write `{call}`", setting.start(), len(front) + value.end(), call)
    if setting:
        return f'write `set("{setting[1]}", VALUE)`'
    if "ref" not in words.words:
        return None
    return mended(f"`:=` is no sign of this language; in its place: {words.words['ref']}", len(front), len(front) + 2, "=")


def of_pair(script: Script, rest: str, at: int) -> str:
    """At a colon between the predicate and the source of a pair."""
    line = "a pair is written `({6h-22h}, SOURCE)`, in brackets and with a comma"
    source = re.match(r"\s*:\s*([\w.]+)(?=\s*[,\]])", rest)
    opens = [k for k in range(len(script.tokens)) if script.word(k) == "{"]
    if source is None or not opens:
        return line
    begin = script.tokens[opens[-1]].at
    return mended(line, begin, at + source.end(), f"({script.text[begin:at].rstrip()}, {source[1]})")


def of_signs(script: Script, rest: str, front: str) -> Optional[str]:
    """At a sign of other languages."""
    last = script.last
    if rest.startswith("...") and script.parents[-1] is not None and script.word(script.parents[-1]) == "[":
        return of_spread(script, rest, len(front))
    if rest[0] in "&|":
        word = "and" if rest[0] == "&" else "or"
        return mended(f"write `{word}`", len(front), len(front) + 1 + (rest[1:2] == rest[0]), word)
    reference = re.match(r"!\s*([A-Za-z_]\w*)", rest)
    if reference and is_reference(script, reference[1]):
        line = f"references are left out: write `{reference[1]}`, and bind it to its value, without `ref`"
        return mended(line, len(front), len(front) + 1, "")
    if re.match(r"!\s*[A-Za-z_(]", rest):
        if script.parents[-1] is not None and script.tokens[script.parents[-1]].text == "{":
            return "write `not`"
        return "write `not` of a truth value; references, which Liquidsoap reads by `!`, are left out"
    if re.match(r"\.\.+\s*\d", rest) and last and last.kind == "time":
        dots = len(rest) - len(rest.lstrip("."))
        return mended("write `-` between two times: `6h-22h`", len(front), len(front) + dots, "-")
    if re.match(r"\.\d", rest) and not re.search(r"\w$", front):
        return mended("a decimal begins with a digit: `0.5`", len(front), len(front), "0")
    if re.match(r"\.[a-z_]", rest) and re.search(r"[)\]}]$", front):
        return "a value has no parts here: methods of Liquidsoap are left out"
    if re.match(r"\\[ \t\r]*\n", rest):
        return mended("a statement may go over several lines without a sign: remove this", len(front), len(front) + 1, "")
    name = re.match(r"\$([A-Za-z_]\w*)", rest)
    return mended(f"a name has no `$`: write `{name[1]}`", len(front), len(front) + 1, "") if name else None


def of_spread(script: Script, rest: str, at: int) -> str:
    """At a `...` in a list; the edit where the list is bound to names that are written out."""
    line = "no list is taken into another one by `...`: write the items out"
    name = re.match(r"\.\.\.\s*([A-Za-z_]\w*)", rest)
    found = value_of(script, name[1], len(script.tokens) - 1) if name else None
    items = arguments_of(found[0], 0) if found and found[0] and found[0][0].text == "[" and is_whole(found[0]) else []
    if not name or not items or any(len(item.tokens) != 1 or item.tokens[0].kind != "name" for item in items):
        return line
    return mended(line, at, at + name.end(), ", ".join(item.tokens[0].text for item in items))


def is_reference(script: Script, name: str) -> bool:
    """Whether a name is bound last to what `ref` makes."""
    sort, number = script.bound().get(name, ("", 0))
    return sort == "value" and script.word(number + 2) in ("ref", "ref(")


def of_letter(script: Script, at: int) -> Optional[str]:
    """At a letter that is none of ASCII."""
    letter = script.text[at]
    word = next(match[0] for match in re.finditer(r"[^\s()\[\]{},;=\"'#]+", script.text) if match.end() > at)
    if FILE.fullmatch(word):
        begin = script.text.rfind(word, 0, at + len(word))
        return mended(f"a name of a file stands in quotes: `\"{word}\"`", begin, begin + len(word), f'"{word}"')
    return f"a name has letters from `a` to `z`, digits and `_` alone: take another one for `{word}`, without `{letter}`"


def bad_byte(script: Script, at: int, words: Words) -> Optional[str]:
    """E02."""
    found = of_encoding(script, at)
    if found:
        return found
    begin = opening_quote(script, at)
    if begin is not None:
        return in_text(script, begin, at)
    rest, front = script.text[at:], script.text[:at]
    found = foreign.of_byte(script, rest, front)
    if found:
        return found
    if rest[0] == "%":
        return of_format(script, at, words)
    if rest[0] in QUOTES:
        end = re.match(r"[^\n\"']*?[" + QUOTES + "]", rest[1:])
        text = f'"{end[0][:-1]}"' if end else '"'
        return mended('write `"` in its place', at, at + 1 + (end.end() if end else 0), text)
    if rest[0] in DASHES:
        return mended("write `-` in its place", at, at + 1, "-")
    if rest[0] in BLANKS:
        return mended("this is no plain blank: write one in its place", at, at + 1, " ")
    if rest[0] == ":":
        return of_colon(script, rest, front, words)
    if rest[0].isalpha() and rest[0] > "\x7f":
        return of_letter(script, at)
    return of_signs(script, rest, front)


def too_large(rest: str) -> Optional[str]:
    """E04, of what stands from the number on."""
    if re.match(r"\d+\.\d{7}", rest):
        return "at most six digits stand behind a point"
    if re.match(r"\d+[whms]", rest):
        return "a day is at most 7, an hour 24, a minute and a second 60"
    if re.match(r"\d+\.", rest):
        return "a decimal is at most 1000000000"
    return "an int is at most 9223372036854775807"
