"""What to do about a name that stands for nothing (E08)."""
import difflib
import re
from typing import Container, Dict, Iterable, Optional, Tuple

from liq.advising import leaving
from liq.advising.helping import Edit, mended
from liq.advising.script import KEYWORDS, Script, arguments_of
from liq.advising.tables import Call, Words, left_out

LIKE = 0.75            # from here on two names are alike
SHORT = 0.05           # of names below five letters so much more is asked
APART = 0.04           # and the next best one is so much less
FILE = re.compile(r".*\.(wav|mp3|m3u8?|pls|flac|ogg|opus|m4a|aac)", re.I)
TRUTHS = {"yes": "true", "on": "true", "no": "false", "off": "false"}


def alike(name: str, names: Iterable[str]) -> Optional[str]:
    """The one of some names that is meant by a name, or nothing where none or several are like it."""
    bound = difflib.SequenceMatcher(None, "", name.lower())

    def may_be_near(other: str) -> bool:
        bound.set_seq1(other.lower())
        return bound.real_quick_ratio() >= LIKE - APART and bound.quick_ratio() >= LIKE - APART

    def share(other: str) -> float:
        return difflib.SequenceMatcher(None, name.lower(), other.lower()).ratio()
    near = filter(may_be_near, set(names) - {name})
    found = sorted(((share(other), other) for other in near), reverse=True)
    if not found or found[0][0] < LIKE + SHORT * (len(name) < 5):
        return None
    return found[0][1] if len(found) < 2 or found[0][0] - found[1][0] >= APART else None


def unquoted_file(script: Script, number: int) -> Optional[str]:
    """The name of a file that begins at a token without quotes, or nothing."""
    match = re.compile(r"[^\s()\[\]{},;=\"'#]+").match(script.text, script.tokens[number].at)
    return match[0] if match and FILE.fullmatch(match[0]) else None


def with_dash(script: Script, number: int, names: Container[str]) -> Optional[str]:
    """The name that is bound with `_` where it stands here with `-`."""
    joined, place = script.tokens[number].text, number
    while script.word(place + 1) == "-" and script.is_close(place + 1) and script.is_close(place + 2):
        joined, place = f"{joined}_{script.word(place + 2)}", place + 2
    return joined if joined in names and place > number else None


def unknown_name(script: Script, number: int, words: Words, calls: Dict[str, Call]) -> Optional[str]:
    """E08."""
    token = script.tokens[number]
    name, is_call = token.name, token.kind == "open"
    bound, later = script.bound(script.visible(number)), script.bound()
    own = script.word(script.statement_of(number) + 1).removesuffix("(")
    bound.pop(own, None)
    is_in_def = script.word(script.statement_of(number)) == "def"
    sort = "def" if is_call else "value"
    if name in later and later[name][0] == sort and later[name][1] > number:
        line = f"`{name}` is bound in line {script.line(script.tokens[later[name][1]].at)} alone: bind it above this"
        return leaving.with_edit(line, moved(script, later[name][1], script.statement_of(number)))
    if is_call and name in bound and bound[name][0] == "value":
        return f"`{name}` is a value of line {script.line(script.tokens[bound[name][1]].at)} and no def: write `{name}`"
    if not is_call and type_of_label(script, number, calls).startswith("text"):
        return mended(f"`{script.word(number - 2)}` is a text: write `\"{name}\"`", token.at, token.behind, f'"{name}"')
    if name == "wav" and not is_call:
        return mended("write `%wav`", token.at, token.behind, "%wav")
    names = [other for other, (kind, _) in bound.items() if kind == sort]
    near = alike(name, names + (list(calls) if is_call else list(script.parameters(number))))
    if is_call and name.rpartition(".")[2] == "lin_of_dB" and name not in bound:
        return of_decibels(script, number) or words.told(name)
    if name in words.words and (is_call or "." in name or name == "null"):
        if near in names:
            return f"{words.told(name)}; or do you mean `{near}`?"
        return leaving.with_edit(words.told(name), leaving.of_call(script, number, words.words[name]))
    if name in later and name not in bound and later[name][1] == script.statement_of(number):
        return f"`{name}` is bound by this statement itself, and by none before it"
    if is_call and is_in_def and name == own:
        return f"a def does not call itself, and `{name}` is bound behind its `end` alone: write out what it is to do"
    found = of_spelling(script, number, calls, bound) or of_other_sort(script, number, bound, calls)
    if found:
        return found
    last = name.rpartition(".")[2]
    if is_call and "." in name and last in calls and last not in ("set", "add"):
        return f"do you mean `{last}`?"
    family = words.family(name) if near not in names else None
    if family:
        return leaving.with_edit(left_out(f"`{name}`", family), leaving.of_call(script, number, family))
    return f"do you mean `{near}`?" if near else of_nothing(script, number)


def of_decibels(script: Script, number: int) -> Optional[str]:
    """A call that makes a factor of decibels that are written out."""
    match = re.compile(r"[\w.]+\(\s*(-?\d{1,3}(?:\.\d*)?)\s*\)").match(script.text, script.tokens[number].at)
    if match is None or float(match[1]) > 179:
        return None
    factor = f"{10 ** (float(match[1]) / 20):.6f}"
    return mended(f"decibels are written as a factor: write `{factor}`", match.start(), match.end(), factor)


def of_nothing(script: Script, number: int) -> Optional[str]:
    """Where nothing is known of a name."""
    token, parameters = script.tokens[number], script.parameters(number)
    if token.kind == "open" or "." in token.name:
        return None
    if parameters:
        return f"`{token.name}` is bound nowhere before this, and is no parameter of the `def`: bind it, or take another name"
    return f"`{token.name}` is bound nowhere before this: bind it above, or take another name"


def type_of_label(script: Script, number: int, calls: Dict[str, Call]) -> str:
    """The type of the argument of which a token is the value, where that is given by its label; else an empty text."""
    inner = script.parents[number]
    if inner is None or script.word(number - 1) != "=" or script.tokens[inner].kind != "open":
        return ""
    if script.word(number - 2) == "id":
        return "text"
    call = calls.get(script.tokens[inner].name)
    parameter = call.parameter(script.word(number - 2)) if call else None
    return parameter.type if parameter else ""


def of_spelling(script: Script, number: int, calls: Dict[str, Call], bound: Dict[str, Tuple[str,
                int]]) -> Optional[str]:
    """Where the name is a word of the language, a name of a file, or one with a sign that no name has."""
    token = script.tokens[number]
    name = token.name
    if name.lower() in KEYWORDS:
        return f"write `{name.lower()}`, in small letters"
    if token.kind == "open":
        return None
    if name in TRUTHS:
        return f"`{name}` is written `{TRUTHS[name]}`"
    file = unquoted_file(script, number)
    if file:
        return mended(f"a name of a file stands in quotes: `\"{file}\"`", token.at, token.at + len(file), f'"{file}"')
    inner = script.parents[number]
    if inner is not None and script.word(inner) == "set(" and arguments_of(script.tokens, inner)[0].tokens == [token]:
        return mended(f"the key of a setting stands in quotes: `\"{name}\"`", token.at, token.behind, f'"{name}"')
    joined = with_dash(script, number, bound)
    return f"do you mean `{joined}`?" if joined else None


def moved(script: Script, binding: int, place: int) -> Optional[Edit]:
    """The statement in which a token binds a name, above the one that begins with another token before it."""
    first, end = script.statement_of(binding), script.end_of(binding)
    begin, there, behind = script.tokens[place].at, script.tokens[first].at, script.tokens[end - 1].behind
    if not place < first or not script.begins(place) or not script.begins(first):
        return None
    return Edit(begin, behind, f"{script.text[there:behind]}\n{script.text[begin:there].rstrip()}")


def of_other_sort(script: Script, number: int, bound: Dict[str, Tuple[str, int]], calls: Dict[str, Call]) -> Optional[str]:
    """Where the name is bound as another sort, or a part of one that is."""
    token = script.tokens[number]
    name, is_call = token.name, token.kind == "open"
    front = name.partition(".")[0]
    if front in {*bound, *script.parameters(number)} and front != name and front not in ("output", "input"):
        return f"`{front}` has no parts: methods of Liquidsoap are left out"
    if name in bound and not is_call and bound[name][0] == "def":
        has_none = script.word(bound[name][1] + 1) == ")"
        line = f"`{name}` is a def: call it, `{name}({'' if has_none else '..'})`"
        return mended(line, token.behind, token.behind, "()") if has_none else line
    if is_call or name not in calls:
        return None
    has_none = not calls[name].bare
    line = f"`{name}` is a call: write `{name}({'' if has_none else '..'})`"
    return mended(line, token.behind, token.behind, "()") if has_none else line
