"""What to do about types that clash (E12), at the place that `where` shows."""
import re
from typing import Dict, List, Optional, Sequence

from liq.advising import leaving
from liq.advising.calls import call_at, given, text_of
from liq.advising.helping import mended
from liq.advising.script import Argument, Script, Token, Tokens, arguments_of
from liq.advising.sorts import COMPARISONS, NUMBERS, clashes, is_whole, sort_of, wanted
from liq.advising.tables import Call, Parameter

TRUTHS = {"true": "true", "false": "false", "yes": "true", "no": "false", "on": "true", "off": "false", "1": "true", "0": "false"}
LISTS = (".m3u", ".m3u8", ".pls")
PAIR = "({6h-22h}, SOURCE)"
OF_LIST = "`fallback`, `sequence` or `rotate` make one of a list"


def source_of(text: str) -> str:
    """The call that makes a source of a text with quotes."""
    return f"{'playlist' if text[1:-1].lower().endswith(LISTS) else 'single'}({text})"


def of_argument(script: Tokens, parameter: Parameter, argument: Argument) -> Optional[str]:
    """Why an argument cannot be of the type of its parameter, or nothing where its tokens do not tell it."""
    tokens, kind = argument.tokens, parameter.type
    if kind.startswith("list") and tokens[0].text == "[":
        return of_items(script, parameter, argument)
    if not clashes(script, parameter, argument):
        return None
    first, alone = tokens[0], len(tokens) == 1
    found = sort_of(script, tokens, script.visible(argument.number))
    name = f"`{parameter.name}`"
    if kind.startswith("decimal") and found == "int":
        if not (alone and first.kind == "int"):
            return f"{name} is a decimal, and no int"
        return mended(f"{name} is a decimal: write `{first.text}.`", first.at, first.behind, f"{first.text}.")
    if kind.startswith("int") and found == "decimal":
        return f"{name} is an int: write it without a point"
    if kind.startswith(("decimal", "int")) and found == "text":
        return of_number(name, kind, first, alone)
    if kind.startswith("bool"):
        word = TRUTHS.get(first.text.strip("\"'").lower()) if alone else None
        line = f"{name} is `true` or `false`"
        return mended(f"{line}: write `{word}`", first.at, first.behind, word) if word else line
    if kind.startswith("text") and found == "list":
        return f"{name} is one text: a list of names is a file, an `.m3u`, of which the text is the name"
    if kind.startswith("a format"):
        return 'the format stands first, without quotes: `output.file(%wav, "NAME.wav", SOURCE)`'
    if kind.startswith("source"):
        return of_source(parameter, tokens, found)
    if kind.startswith("list"):
        return of_list(script, parameter, argument, found)
    return f"{name} is {kind}"


def of_number(name: str, kind: str, first: Token, alone: bool) -> str:
    """Where a text stands for a number, of its first token. Quotes round no number are not left out."""
    if alone and not re.search(r"\d", first.text):
        return f"{name} is a number, as `{'1' if kind.startswith('int') else '1.'}`, and no text"
    line = f"{name} is a number: write it without quotes"
    share = re.fullmatch(r"[\"']\s*(-?\d{1,3}(?:\.\d*)?)\s*dB\s*[\"']", first.text) if alone else None
    if share and kind.startswith("decimal") and float(share[1]) < 180:
        factor = f"{10 ** (float(share[1]) / 20):.6f}"
        return mended(f"decibels are written as a factor: `{first.text[1:-1]}` is {factor}", first.at, first.behind, factor)
    text = re.fullmatch(r"[\"']\s*(\d{1,9})(\.\d{0,6})?\s*(s|sec|seconds)?\s*[\"']", first.text) if alone else None
    if text is None or kind.startswith("int") and (text[2] or text[3]):
        return line
    number = text[1] if kind.startswith("int") else f"{text[1]}{text[2] or '.'}"
    if text[3]:
        line = f"{name} is a decimal, in seconds: write `{number}`"
    return mended(line, first.at, first.behind, number)


def no_source(tokens: List[Token]) -> str:
    """Where a text stands for a source, of its tokens."""
    token = tokens[0]
    if token.kind != "text":
        return "a text is no source"
    line = f"a text is no source: write `{source_of(token.text)}`"
    return mended(line, token.at, token.behind, source_of(token.text)) if len(tokens) == 1 else line


def of_source(parameter: Parameter, tokens: List[Token], found: Optional[str]) -> Optional[str]:
    """Where a source is due."""
    first, alone = tokens[0], len(tokens) == 1
    if found == "text":
        return no_source(tokens)
    if found == "list":
        return f"`{parameter.name}` is one source, and no list of them: {OF_LIST}"
    if found in NUMBERS and alone and first.kind != "name":
        return f"`{parameter.name}` is a source, and `{first.text}` is a number"
    return f"`{parameter.name}` is a source" if found not in ("tuple", "unit") else None


def of_list(script: Tokens, parameter: Parameter, argument: Argument, found: Optional[str]) -> Optional[str]:
    """Where a list is due."""
    is_pairs, tokens = "predicate" in parameter.type, argument.tokens
    first, alone, begin, behind = tokens[0], len(tokens) == 1, tokens[0].at, tokens[-1].behind
    if found == "source" and not is_pairs:
        return mended(f"`{parameter.name}` is a list: write `[` before and `]` behind the source", begin, behind,
                      f"[{script.text[begin:behind]}]")
    if is_pairs:
        return f"`{parameter.name}` is a list of pairs: `[{PAIR}, ({{true}}, SOURCE)]`"
    if found == "tuple":
        return mended("a list stands in square brackets: write `[` and `]` in the place of `(` and `)`", begin, behind,
                      f"[{script.text[begin + 1:behind - 1]}]")
    if found == "text" and alone and first.kind == "text":
        return mended(f"`{parameter.name}` is a list of sources; write `{source_of(first.text)}` in `[` and `]`", begin, behind,
                      f"[{source_of(first.text)}]")
    return f"`{parameter.name}` is a list of sources"


def of_items(script: Tokens, parameter: Parameter, argument: Argument) -> Optional[str]:
    """Which item of a list that is written out cannot be one."""
    items = arguments_of(script.tokens, argument.number)
    is_pairs = "predicate" in parameter.type
    flat = in_pairs(script, items) if is_pairs else None
    if flat:
        return flat
    for item in items:
        found = of_pair(script, item) if is_pairs else of_item(script, item)
        if found:
            return found
    return None


def in_pairs(script: Tokens, items: List[Argument]) -> Optional[str]:
    """Where predicates and sources stand in a list by turns, each without the brackets of its pair."""
    sorts = [sort_of(script, item.tokens, script.visible(item.number)) for item in items]
    if not items or len(items) % 2 or any(sort != "predicate" for sort in sorts[::2]) \
            or any(sort not in ("source", None) for sort in sorts[1::2]):
        return None
    texts = [leaving.text_of(script, item) for item in items]
    pairs = ", ".join(f"({one}, {other})" for one, other in zip(texts[::2], texts[1::2]))
    return mended(f"each pair stands in brackets: `{PAIR}`", items[0].tokens[0].at, items[-1].tokens[-1].behind, pairs)


def of_pair(script: Tokens, item: Argument) -> Optional[str]:
    """Why an item is no pair of a predicate and a source."""
    tokens = item.tokens
    sort = sort_of(script, tokens, script.visible(item.number))
    if tokens[0].text == "{":
        return f"each pair stands in brackets: `{PAIR}`"
    if sort == "source":
        shown, begin, behind = tokens[0].text if len(tokens) == 1 else f"{tokens[0].text}..)", tokens[0].at, tokens[-1].behind
        return mended(f"each item is a pair of a predicate and a source: `({{true}}, {shown})`", begin, behind,
                      f"({{true}}, {script.text[begin:behind]})")
    if tokens[0].text != "(" or not is_whole(tokens):
        return f"each item is a pair: `{PAIR}`" if sort not in (None, "tuple") else None
    parts = arguments_of(tokens, 0)
    if len(parts) != 2:
        return f"each item is a pair: `{PAIR}`" if parts else None
    first, second = (sort_of(script, part.tokens, script.visible(item.number)) for part in parts)
    begin, behind = parts[0].tokens[0].at, parts[0].tokens[-1].behind
    if first == "bool" and parts[0].tokens[0].text in ("true", "false"):
        return mended("a predicate stands in braces: `({true}, SOURCE)`", begin, behind, f"{{{script.text[begin:behind]}}}")
    if first == "source" and second == "predicate":
        texts = [leaving.text_of(script, part) for part in parts]
        return mended(f"the predicate of a pair stands first: `{PAIR}`", begin, parts[1].tokens[-1].behind,
                      ", ".join(texts[::-1]))
    one = within_braces(script, parts[0].tokens)
    if one:
        return mended(f"write it within one pair of braces: `{one}`", begin, behind, one)
    if first not in (None, "predicate"):
        return f"the first part of a pair is a predicate in braces: `{PAIR}`"
    if second == "text":
        return no_source(parts[1].tokens)
    return f"the second part of a pair is one source: {OF_LIST}" if second == "list" else None


def within_braces(script: Tokens, tokens: List[Token]) -> Optional[str]:
    """Predicates that words join outside of their braces, within one pair of them; else nothing."""
    words = [token.text for token in tokens]
    if "{" not in words or words[0] == "{" and "}" in words and words.index("}") == len(words) - 1:
        return None
    if not all(word in ("and", "or", "not", "(", ")") for word in outside(words)):
        return None
    text = script.text[tokens[0].at:tokens[-1].behind]
    return "{" + " ".join(text.replace("{", " ").replace("}", " ").split()) + "}"


def outside(words: Sequence[str]) -> List[str]:
    """The words that stand in no braces."""
    depth, found = 0, []
    for word in words:
        depth += word == "{"
        if not depth and word != "}":
            found.append(word)
        depth -= word == "}"
    return found


def of_item(script: Tokens, item: Argument) -> Optional[str]:
    """Why an item is no source."""
    tokens = item.tokens
    sort = sort_of(script, tokens, script.visible(item.number))
    if sort == "text":
        return no_source(tokens)
    if sort == "tuple" and is_whole(tokens):
        parts = arguments_of(tokens, 0)
        sorts = [sort_of(script, part.tokens, script.visible(item.number)) for part in parts]
        if sorts[:1] and sorts[0] in NUMBERS:
            return "each item is a source, without a weight: one that stands twice has twice the share"
        return "pairs with predicates belong to `switch`" if "predicate" in sorts else None
    if sort == "list":
        return within_list(script, tokens)
    if sort == "bool" and any(token.text in ("and", "or") for token in tokens):
        number = next(k for k, token in enumerate(tokens) if token.text in ("and", "or"))
        before = tokens[max(0, number - 1)]
        return mended(f"sources of a list are parted by commas, and not by `{tokens[number].text}`", before.behind,
                      tokens[number].behind, ",")
    return f"each item is a source, and no {sort}" if sort in (*NUMBERS, "bool", "predicate", "format") else None


def within_list(script: Tokens, tokens: List[Token]) -> str:
    """A list within a list: if it has one item, that stands for it."""
    line = "each item is one source: a list within a list is none"
    parts = arguments_of(tokens, 0) if tokens[0].text == "[" and is_whole(tokens) else []
    if len(parts) != 1:
        return line
    return mended(line, tokens[0].at, tokens[-1].behind, leaving.text_of(script, parts[0]))


def of_branches(script: Script, first: int, last: int) -> Optional[str]:
    """Where a predicate stands behind an `if`."""
    for number in range(first, last - 1):
        if script.word(number) == "if" and script.word(number + 1) == "{":
            return ("a predicate is no truth value, as it changes with the time: `switch([({..}, SOURCE), ({true}, "
                    "SOURCE)])`")
    return None


def of_operators(script: Script, first: int, last: int) -> Optional[str]:
    """Values on both sides of a sign that do not go together."""
    for number in range(first, last - 1):
        behind = operand_behind(script, number, last)
        if script.word(number) == "not" and sort_of(script, behind, script.visible(number)) == "source":
            return "`not` takes a truth value, and a source is none"
    for number in range(first + 1, last - 1):
        sign = script.tokens[number]
        if not sign.is_sign or sign.text not in ("+", "-", "*", "/", "and", "or", *COMPARISONS):
            continue
        left, right = operand_before(script, first, number), operand_behind(script, number, last)
        sorts = [sort_of(script, tokens, script.visible(number)) for tokens in (left, right)]
        found = of_sides(script, sign, sorts, left, right)
        if found:
            return found
    return None


def operand_before(script: Script, first: int, number: int) -> List[Token]:
    """The tokens of the operand before a sign."""
    inner = script.parents[number]
    begin = next((k for k in range(number - 1, first - 1, -1) if script.parents[k] == inner), number - 1)
    return script.tokens[begin:number]


def operand_behind(script: Script, number: int, last: int) -> List[Token]:
    """The tokens of the operand behind a sign."""
    end = number + 2
    if script.tokens[number + 1].opens:
        end = next((k + 1 for k in range(number + 2, last) if script.tokens[k].closes
                    and script.parents[k] == number + 1), number + 2)
    return script.tokens[number + 1:end]


def of_sides(script: Script, sign: Token, sorts: List[Optional[str]], left: List[Token],
             right: List[Token]) -> Optional[str]:
    """What is wrong with the sorts on both sides of a sign."""
    if sign.text in ("and", "or"):
        if "predicate" in sorts:
            return f"`{sign.text}` joins times within one pair of braces: `{{6h-22h {sign.text} 1w}}`"
        line, begin, behind = "sources are put together by `fallback([.., ..])`", left[0].at, right[-1].behind
        texts = [script.text[side[0].at:side[-1].behind] for side in (left, right)]
        return mended(line, begin, behind, f"fallback([{', '.join(texts)}])") if sorts == ["source", "source"] else None
    if sign.text in COMPARISONS:
        return "only numbers are compared" if {"source", "text", "bool", "list"} & set(sorts) else None
    if "source" in sorts:
        return f"sources are put together by `add([.., ..])`, and not by `{sign.text}`; `amplify` makes one louder"
    if "text" in sorts:
        line = "texts are not joined: write the whole text"
        is_written = sign.text == "+" and all(len(side) == 1 and side[0].text[:1] == '"' for side in (left, right))
        joined = left[0].text[:-1] + right[0].text[1:]
        return mended(line, left[0].at, right[0].behind, joined) if is_written else line
    if set(sorts) == set(NUMBERS):
        whole = left if sorts[0] == "int" else right
        line = f"both sides of `{sign.text}` are ints, or both decimals"
        if len(whole) != 1 or whole[0].kind != "int":
            return line
        return mended(f"{line}: write `{whole[0].text}.`", whole[0].at, whole[0].behind, f"{whole[0].text}.")
    return None


def of_call(script: Script, number: int, calls: Dict[str, Call]) -> Optional[str]:
    """At a call."""
    call = call_at(script, number, calls)
    if call is None:
        return None
    arguments = arguments_of(script.tokens, number)
    order = of_order(script, call, arguments)
    if order:
        return order
    for argument in arguments:
        sort = sort_of(script, argument.tokens, script.visible(number)) if argument.label == "id" else None
        if sort in (*NUMBERS, "bool") or sort not in (None, "text") and len(argument.tokens) == 1:
            text, last = text_of(script, argument), argument.tokens[-1]
            return mended(f"`id` is a text: write `\"{text}\"`", argument.tokens[0].at, last.behind, f'"{text}"')
    for parameter, argument in given(call, arguments):
        found = of_argument(script, parameter, argument)
        if found:
            return found
    return None


def of_order(script: Script, call: Call, arguments: Sequence[Argument]) -> Optional[str]:
    """Where the arguments are those that are due, each of another sort, in another order."""
    bare = [argument for argument in arguments if argument.label is None]
    sorts = [sort_of(script, argument.tokens, script.visible(argument.number)) for argument in bare]
    due = [wanted(parameter.type) for parameter in call.bare]
    missing = [sort for sort in due if sort not in sorts]
    if sorts.count(None) == len(missing) == 1 and any(one not in (None, other) for one, other in zip(sorts, due)):
        sorts[sorts.index(None)] = missing[0]
    if sorts == due or sorted(map(str, sorts)) != sorted(map(str, due)) or len({*due, None}) != len(due) + 1:
        return None
    found = [bare[sorts.index(sort)] for sort in due]
    line = f"the arguments stand in another order: `{call.name}({', '.join(text_of(script, one) for one in found)})`"
    if any(argument.label is not None for argument in arguments):
        return line
    texts = [leaving.text_of(script, one) for one in found]
    return mended(line, bare[0].tokens[0].at, bare[-1].tokens[-1].behind, ", ".join(texts))


def of_kinds(call: Call) -> Optional[str]:
    """Of a call that takes or gives one kind of sources."""
    if call.name in ("mean", "stereo"):
        return ("`mean` takes a stereo source and gives a mono one, `stereo` the other way; a source is of one kind in "
                "the whole script")
    return f"the call is `{call.form}`; {call.types}" if call.types else None


def clash(script: Script, at: int, calls: Dict[str, Call]) -> Optional[str]:
    """E12, at the place that is shown: a call, or a statement."""
    number = script.number_at(at)
    if number is None:
        return None
    first, last = script.statement_of(number), script.end_of(number)
    is_call = script.tokens[number].kind == "open"
    met = [number] if is_call else [one.number for one in script.reading.calls if first <= one.number < last]
    found = next(filter(None, (of_call(script, one, calls) for one in met)), None)
    found = found or of_branches(script, first, last) or of_operators(script, number if is_call else first, last)
    if found or not is_call:
        return found
    call = call_at(script, number, calls)
    return of_kinds(call) if call else None
