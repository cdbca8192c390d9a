"""What to do about a token with which no script goes on (E06)."""
from typing import Dict, List, Optional

from liq.advising import foreign
from liq.advising.edits import Edit as Trial, tried
from liq.advising.bad_bytes import QUOTE_WITHIN
from liq.advising.helping import Edit, mended
from liq.advising.leaving import with_edit
from liq.advising.predicates import of_predicate, of_time
from liq.advising.script import Script, closer_of, is_begin, is_end
from liq.advising.sorts import last_of
from liq.advising.tables import Call, Words

OUT_OF_LIST = "no value is taken out of a list by `[..]` here: metadata and functions on lists are left out"
COMPARISONS = ("==", "!=", "<", "<=", ">", ">=")
# Words with which other languages begin a statement.
FOREIGN = {
    "elsif": "write `else if .. then .. else .. end end`", "elseif": "write `else if .. then .. else .. end end`",
    "elif": "write `else if .. then .. else .. end end`", "function": "a def begins with `def`: `def f(x) = .. end`",
    "return": "leave `return` out: the value of a def is the last thing in it",
    "var": "leave `var` out: `x = ..` binds a name", "const": "leave `const` out: `x = ..` binds a name"}
# Words of Liquidsoap behind which something stands that is no argument in brackets.
FRONTS = ("let", "fun", "try", "while", "for", "rec", "open", "ref")


def of_words(script: Script, number: int, words: Words) -> Optional[str]:
    """Where a word of another language stands before a token, or is it."""
    token, before = script.tokens[number], script.token(number - 1)
    if token.text in ("elsif", "elseif", "elif") and token.kind == "name":
        return FOREIGN[token.text]
    if before.kind == "name" and before.text in FOREIGN:
        return of_foreign(script, number)
    is_fun = before.kind in ("name", "open") and before.name == "fun"
    if is_fun and "crossfade(" in [script.word(k) for k in script.stack(number)]:
        return "`crossfade` takes no function: write `crossfade(duration=5., SOURCE)`"
    if before.kind == "name" and before.text in FRONTS:
        is_bound = before.text == "let" and token.kind == "name" and script.word(number + 1) == "="
        return with_edit(words.told(before.text), Edit(before.at, token.at, "") if is_bound else None)
    return words.told("fun") if is_fun else None


def of_foreign(script: Script, number: int) -> str:
    """Where a word of another language stands before a token: it goes, or is `def`."""
    token, before = script.tokens[number], script.tokens[number - 1]
    if before.text in ("return", "var", "const"):
        return mended(FOREIGN[before.text], before.at, token.at, "")
    return mended(FOREIGN[before.text], before.at, before.behind, "def") if before.text == "function" else FOREIGN[before.text]


def of_comment(script: Script, number: int) -> Optional[str]:
    """Where a comment of another language begins."""
    token, before = script.tokens[number], script.token(number - 1)
    signs = script.text[token.at:token.at + 2]
    rest = script.text[token.at:].split("\n")[0].rstrip()
    if signs == "/*" and (not before or is_end(before)):
        is_line = rest.find("*/") == len(rest) - 2
        return mended("a comment begins with `#`", token.at, token.at + len(rest), f"#{rest[2:-2]}") if is_line else "a comment begins with `#`"
    if (signs == "//" or signs == "--" and script.begins_line(number)) and (not before or is_end(before)):
        return mended("a comment begins with `#`", token.at, token.at + 2, "#")
    return None


def of_keyword(script: Script, number: int) -> Optional[str]:
    """Where a word of the language stands for a name."""
    token, inner = script.tokens[number], script.parents[number]
    if token.kind != "keyword":
        return None
    is_bound = script.word(number + 1) == "=" and script.begins_line(number)
    words = [script.word(k) for k in script.stack(number)]
    if is_bound:
        return f"`{token.text}` is a word of the language, and no name: take another one"
    if token.text == "else" and "switch(" in words:
        line = "the last pair of a switch is the default: `({true}, SOURCE)`"
        return mended(line, token.at, token.behind, "{true}") if script.word(number - 1) == "(" else line
    if token.text in ("end", "then", "else") and inner is not None and not {"def", "if"} & set(words) \
            and not is_end(script.token(number - 1)):
        return f"`{token.text}` is a word of the language, and no value"
    if script.word(inner or 0) == "def" and inner == number - 1:
        return "a def has a name with brackets directly behind it: `def f() = .. end`"
    return None


def of_dash(script: Script, number: int, calls: Dict[str, Call]) -> Optional[str]:
    """Where a name has a `-`."""
    token, before = script.tokens[number], script.token(number - 1)
    inner = script.parents[number]
    if token.text == "-" and inner is None and before.kind == "name" and script.begins_line(number - 1):
        place, joined = number, before.text
        while script.word(place) == "-" and script.is_close(place) and script.is_close(place + 1):
            joined, place = f"{joined}_{script.word(place + 1)}", place + 2
        line = f"a name has no `-`: write `{joined}`"
        return mended(line, before.at, script.tokens[place - 1].behind, joined) if script.word(place) == "=" and place > number else None
    is_in_call = inner is not None and script.tokens[inner].kind == "open"
    if token.text == "=" and script.word(number - 2) == "-" and is_in_call:
        first, last = script.token(number - 3), script.token(number - 1)
        if first and first.kind == last.kind == "name" and script.is_close(number - 1) and script.is_close(number - 2):
            call, label = calls.get(script.token(inner).name), f"{first.text}_{last.text}"
            is_known = call is not None and label in call.labels
            line = f"do you mean `{label}=`?" if is_known else f"a name has no `-`: write `{label}=`"
            return mended(line, first.at, last.behind, label)
    return None


def of_call(script: Script, number: int, calls: Dict[str, Call]) -> Optional[str]:
    """Where a call has no brackets directly behind its name."""
    token, before = script.tokens[number], script.token(number - 1)
    if before.kind != "name":
        return None
    if script.word(number - 2) == "def" and token.text != "(":
        return f"a def has brackets directly behind its name: `def {before.text}() = .. end`"
    is_call = before.text in calls or script.word(number - 2) == "def"
    if script.bound(number).get(before.text, ("def" if is_call else "",))[0] != "def":
        return None
    if token.text == "(":
        return mended(f"no blank stands before the bracket of a call: `{before.text}(`", before.behind, token.at, "")
    if token.text == "[":
        return of_square(script, number, calls)
    if is_begin(token) or token.text == "-":
        line = f"the arguments of a call stand in brackets, directly behind its name: `{before.text}(..)`"
        is_last = token.kind in ("name", "text") and (number + 1 == len(script.tokens) or script.begins_line(number + 1))
        return mended(line, before.behind, token.behind, f"({token.text})") if is_last else line
    return None


def of_square(script: Script, number: int, calls: Dict[str, Call]) -> str:
    """Where a `[` stands behind the name of a call."""
    before, call = script.tokens[number - 1], calls.get(script.word(number - 1))
    takes_list = call is not None and bool(call.bare) and call.bare[-1].type.startswith("list")
    line = f"the arguments of a call stand in `(` and `)`: `{before.text}({'[..]' if takes_list else '..'})`"
    last = last_of(script.tokens, number)
    if last is None:
        return line
    begin, end = script.tokens[number], script.tokens[last]
    text = script.text[begin.at:end.behind] if takes_list else script.text[begin.behind:end.at]
    return mended(line, before.behind, end.behind, f"({text})")


def of_call_before(script: Script, number: int, calls: Dict[str, Call]) -> Optional[str]:
    """Where a name that begins no binding stands behind the name of a call in its line, as in `x = mksafe s`."""
    name, call = script.token(number - 1), script.token(number - 2)
    if name.kind != "name" or call.kind != "name" or script.parents[number] is not None:
        return None
    is_call = script.bound(number).get(call.text, ("def" if call.text in calls else "",))[0] == "def"
    if not is_call or script.begins_line(number - 1) or script.word(number) == "=":
        return None
    line = f"the arguments of a call stand in brackets, directly behind its name: `{call.text}({name.text})`"
    return mended(line, call.behind, name.behind, f"({name.text})")


def of_statement(script: Script, number: int) -> Optional[str]:
    """Where a statement begins with a name that is not bound."""
    token, before = script.tokens[number], script.token(number - 1)
    if before.kind != "name" or script.parents[number] is not None:
        return None
    if not script.begins_line(number - 1):
        return None
    if token.text == "==":
        return "a name is bound with `=`"
    if token.is_sign and token.text in "+-*/" and script.word(number + 1) == "=" and script.is_close(number + 1):
        line = f"write `{before.text} = {before.text} {token.text} ..`"
        return mended(line, before.behind, token.at + 2, f" = {before.text} {token.text}")
    return None


def of_signs(script: Script, number: int) -> Optional[str]:
    """Where a sign stands that has another form here."""
    token, before = script.tokens[number], script.token(number - 1)
    inner, after = script.parents[number], script.token(number + 1)
    if token.text == "-" and before and before.is_sign and after and after.kind in ("int", "number"):
        return mended(f"a negative number stands in brackets here: `(-{after.text})`", token.at, after.behind,
                      f"(-{after.text})")
    is_in_call = inner is not None and script.tokens[inner].kind == "open" and script.word(inner - 1) != "def"
    if token.text == "~" and is_in_call and inner is not None:
        return of_tilde(script, inner)
    is_in_if = "if" in [script.word(k) for k in script.stack(number)[-2:]]
    if token.text == "=" and is_in_if and before.kind in ("name", "int", "text"):
        return mended("two values are compared with `==`", token.at, token.behind, "==")
    if token.is_sign and token.text in COMPARISONS and before and is_end(before):
        return "comparisons do not chain: join two of them by `and`" if is_chain(script, number) else None
    return of_commas(script, number)


def of_tilde(script: Script, inner: int) -> Optional[str]:
    """Where a label is written as in a def, in the brackets of a call."""
    if script.parents[inner] is not None or not script.begins_line(inner):
        return "a label is written with its value: `x=x`"
    last = last_of(script.tokens, inner)
    is_def = last is not None and script.word(last + 1) == "="
    return f"`def` is missing before `{script.word(inner)}`" if is_def else None


def is_chain(script: Script, number: int) -> bool:
    """Whether a comparison stands before a token, in the same value."""
    inner = script.parents[number]
    for place in range(number - 1, -1, -1):
        if script.parents[place] == inner:
            token = script.tokens[place]
            if token.is_sign and token.text in COMPARISONS:
                return True
            if token.is_sign and token.text in ("and", "or", "not", ",", "=", ";", "if", "then", "else"):
                return False
        if place == inner:
            return False
    return False


def of_commas(script: Script, number: int) -> Optional[str]:
    """Where a comma is too many."""
    token, before = script.tokens[number], script.token(number - 1)
    if token.text == "," and before and (before.text == "," or before.opens):
        return "a comma stands between two items alone: one is too many, or an item is missing"
    if token.text in (")", "]") and before and before.text == ",":
        return "a comma stands between two items alone: the one before this is too many, or an item is missing"
    if token.text == "}" and before and before.text == "{" and "switch(" in [script.word(k) for k in script.stack(number)]:
        return mended("the last pair of a switch is the default: `({true}, SOURCE)`", token.at, token.at, "true")
    if token.kind == "name" and before and before.text == "-" and script.word(number - 2) in ("(", ",", "=") \
            or token.kind == "name" and before and before.text == "-" and script.word(number - 2).endswith("("):
        return mended(f"a minus stands before a number alone: write `0. - {token.text}`", before.at, token.behind,
                      f"0. - {token.text}")
    is_last = token.text == "," and (number + 1 == len(script.tokens) or script.begins_line(number + 1))
    if is_last and script.parents[number] is None:
        return "no comma stands behind a statement: remove it"
    return None


def of_texts(script: Script, number: int) -> Optional[str]:
    """Where a quote stands twice."""
    is_between = script.word(number - 1) == script.word(number + 1) and script.word(number - 1) in ('""', "''")
    if is_between and script.tokens[number].kind == "name" and script.is_close(number) and script.is_close(number + 1):
        line, word = f"one quote stands at each end: `\"{script.tokens[number].text}\"`", script.tokens[number]
        return mended(line, script.tokens[number - 1].at, script.tokens[number + 1].behind, f'"{word.text}"')
    around = script.token(number - 1), script.tokens[number], script.token(number + 1)
    if [one.kind for one in around] == ["text", "name", "text"] \
            and script.is_close(number) and script.is_close(number + 1) and around[0].text[0] == around[2].text[0]:
        return QUOTE_WITHIN[around[0].text[0]]
    return None


def of_options(script: Script, number: int) -> Optional[str]:
    """In the brackets behind `%wav`."""
    inner = script.parents[number]
    if inner is not None and script.word(inner) == "(" and inner and script.tokens[inner - 1].kind == "wav":
        line = ("the one option of `%wav` is `samplesize=16` or `samplesize=24`; sides and rate are those of the "
                "source and of the script")
        token = script.tokens[number]
        is_size = token.text in ("16", "24") and number == inner + 1
        return mended(line, token.at, token.at, "samplesize=") if is_size else line
    return None


def takes_item(script: Script, number: int) -> bool:
    """Whether a list of one item begins here, a text, a name or an int, as what takes a value out of a list."""
    return (script.word(number) == "[" and script.is_close(number) and script.word(number + 2) == "]"
            and script.token(number + 1).kind in ("text", "name", "int")
            and (script.token(number - 1).kind == "name" or script.word(number - 1) == ")"))


def of_def(script: Script, number: int) -> Optional[str]:
    """In the text of a def."""
    stack, token, before = script.stack(number), script.tokens[number], script.token(number - 1)
    if takes_item(script, number):
        return OUT_OF_LIST
    if [script.word(k) for k in stack[-2:]] == ["def", "{"] and script.word(stack[-1] - 1) in (")", "="):
        return "the text of a def stands between `=` and `end`: `def f(x) = .. end`"
    if not stack or script.word(stack[-1]) != "def" or number - 1 <= stack[-1]:
        return None
    if token.text == "def" and not is_end(before):
        return "a def stands in no other one: put it before"
    if token.text == "end" and (is_end(before) or before.text == "="):
        return "a def ends with its value, behind its bindings: it is missing before `end`"
    if is_end(before) and is_begin(token) and not token.text.startswith("end"):
        if any(takes_item(script, place) for place in range(stack[-1] + 1, number)):
            return OUT_OF_LIST
        return "a def holds bindings, as `x = ..`, and at its end one value: a second value does not stand there"
    return None


def bracket(script: Script, number: int) -> str:
    """A bracket that is open, with its line."""
    token = script.tokens[number]
    return f"`{token.text}` of line {script.line(token.at)}"


def of_edits(script: Script, number: int, calls: Dict[str, Call]) -> Optional[str]:
    """What the edits tell with which the script goes on, where they tell one thing."""
    found = tried(script, number, calls)
    token, before, inner = script.token(number), script.token(number - 1), script.parents[number]
    sorts = set(found)
    if "swapped" in sorts:
        return f"the two brackets stand the other way round: `{script.word(number + 1)}{token.text}`"
    if inner is not None and (sorts == {"close"} or sorts == {"close", "out"} and token and not token.closes and script.begins_line(number)):
        missing = f"`{closer_of(script.token(inner))}` is missing"
        return f"{bracket(script, inner)} is not closed: {missing}{' before this' if token else ''}"
    if "as comma" in sorts:
        return "commas stand between items: write `,`"
    if sorts == {"other close"} and inner is not None:
        close = closer_of(script.token(inner))
        return f"{bracket(script, inner)} is closed by `{close}`, and not by `{token.text}`"
    is_item = token.text == "[" and script.is_close(number)
    if "equals" in sorts and inner is None and script.begins_line(number - 1) and not is_item:
        return f"`=` is missing before this: `{before.text} = ..`"
    if sorts in ({"then"}, {"else"}):
        return f"`{sorts.pop()}` is missing before this"
    if "comma" in sorts and before.text != token.text:
        return "a comma is missing before this"
    return of_surplus(script, number, found)


def of_surplus(script: Script, number: int, found: Dict[str, List[Trial]]) -> Optional[str]:
    """Where one of two tokens is too many, or an opening bracket is missing."""
    token, sorts, places = script.token(number), set(found), [edit.place for edit in found.get("open", ())]
    if "out" in sorts and token.text == ";":
        return "a `;` stands behind a statement alone: remove it"
    if "out" in sorts and token.text == "=" and number in script.starts:
        return "a name is missing before `=`"
    if sorts == {"open"}:
        sign = found["open"][0].texts[0]
        if len(places) == 1 and script.word(places[0] - 1).endswith("("):
            return f"`{sign}` is missing behind `{script.word(places[0] - 1)}`: `{token.text}` closes it"
        if len(places) == 1:
            return f"`{sign}` is missing before `{script.word(places[0])}`: `{token.text}` closes it"
        return f"this `{token.text}` closes nothing: its `{sign}` is missing before"
    if "out" in sorts and token.closes and sorts <= {"out", "open", "out before"}:
        return f"this `{token.text}` closes nothing: it is too many, or what it closes is missing before"
    is_twice = "out" in sorts and sorts <= {"comma", "out", "out before"} and script.word(number - 1) == token.text
    if is_twice:
        return f"`{token.text}` stands twice"
    return f"this `{token.text}` is too many" if sorts == {"out"} and token.kind == "mark" else None


def of_brackets(script: Script, number: int) -> Optional[str]:
    """What is certain of a bracket that is not closed, or of one that closes nothing."""
    token, inner = script.token(number), script.parents[number]
    if not token:
        if inner is None:
            return "the last statement is not complete"
        if script.word(inner) == "if":
            return f"the {bracket(script, inner)} is not ended: `if .. then .. else .. end`"
        if not is_end(script.token(number - 1)):
            return f"{bracket(script, inner)} is still open at the end of the script"
        return f"{bracket(script, inner)} is not closed: `{closer_of(script.token(inner))}` is missing"
    if not token.closes:
        return None
    if inner is None:
        return f"this `{token.text}` closes nothing: it is too many, or what it closes is missing before"
    if closer_of(script.token(inner)) != token.text:
        return f"{bracket(script, inner)} is still open here, and `{token.text}` does not close it"
    if script.word(inner) == "if" and not has_else(script, inner, number):
        if any(script.word(k) == "output.file(" for k in range(inner, number)):
            return "an output stands outside of an `if`, which chooses its source: `if .. then .. else .. end`"
        return "an `if` has both parts: `if .. then .. else .. end`"
    return None


def has_else(script: Script, inner: int, number: int) -> bool:
    return any(script.word(k) == "else" and script.parents[k] == inner for k in range(inner, number))


def syntax(script: Script, number: int, words: Words, calls: Dict[str, Call]) -> Optional[str]:
    """E06."""
    number = min(number, len(script.tokens))
    token, inner = script.token(number), script.parents[number]
    if not token:
        return foreign.of_number(script, number) or of_call_before(script, number, calls) \
            or of_edits(script, number, calls) or of_brackets(script, number)
    found = foreign.of_token(script, number) or of_words(script, number, words) or of_comment(script, number) \
        or of_keyword(script, number) or of_dash(script, number, calls) or of_options(script, number) or of_texts(script, number)
    is_time = inner is not None and (script.word(inner) == "{" or script.word(inner) == "("
                                     and script.tokens[inner].kind == "mark"
                                     and script.word(script.parents[inner] or 0) == "{")
    if not found and is_time:
        found = of_predicate(script, number)
    if not found and token.kind == "time":
        found = of_time(script, number, calls)
    found = found or of_call(script, number, calls) or of_call_before(script, number, calls) \
        or of_statement(script, number) or of_signs(script, number) \
        or of_edits(script, number, calls) or of_def(script, number) or of_brackets(script, number)
    if not found and token.kind == "open":
        found = words.told(token.name)
    return found or of_side_by_side(script, number)


def of_side_by_side(script: Script, number: int) -> Optional[str]:
    """Where two values stand side by side in a bracket."""
    inner = script.parents[number]
    if inner is None or script.word(inner) in ("def", "if", "{"):
        return None
    if not is_end(script.token(number - 1)) or not is_begin(script.tokens[number]):
        return None
    if script.begins_line(number) and script.tokens[number].kind in ("name", "open"):
        return f"{bracket(script, inner)} is still open here"
    return "two values stand side by side: a sign is missing between them, or one is too many"
