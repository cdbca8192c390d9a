"""Of which sort a value is, as far as its tokens tell it, and whether it fits a parameter (docs/typing.md)."""
from typing import List, Optional, Sequence, Tuple

from liq.advising.script import MAKERS, Argument, Token, Tokens, arguments_of, closer_of
from liq.advising.tables import Parameter

NUMBERS = ("int", "decimal")
OF_KIND = {"int": "int", "number": "decimal", "text": "text", "wav": "format"}
OF_SIGN = {"true": "bool", "false": "bool", "{": "predicate", "[": "list"}
COMPARISONS = ("==", "!=", "<", "<=", ">", ">=")
DEEPEST = 8            # names that stand for names are followed so far


def last_of(tokens: List[Token], number: int) -> Optional[int]:
    """The number of the token that closes the bracket which a token opens, or nothing."""
    stack: List[Token] = []
    for place in range(number, len(tokens)):
        token = tokens[place]
        if token.opens:
            stack.append(token)
        elif token.closes:
            if closer_of(stack.pop()) != token.text:
                return None
            if not stack:
                return place
    return None


def is_whole(tokens: List[Token]) -> bool:
    """Whether tokens are one bracket or call, from its first to its last."""
    return bool(tokens) and bool(tokens[0].opens) and last_of(tokens, 0) == len(tokens) - 1


def split(tokens: List[Token], signs: Sequence[str]) -> List[List[Token]]:
    """The parts of tokens between signs that stand in no bracket."""
    parts: List[List[Token]] = [[]]
    depth = 0
    for token in tokens:
        if depth == 0 and token.is_sign and token.text in signs:
            parts.append([])
            continue
        depth += bool(token.opens) - token.closes
        parts[-1].append(token)
    return parts


def value_of(script: Tokens, name: str, until: int) -> Optional[Tuple[List[Token], int]]:
    """The tokens to which a name is bound last before a token of the script, and the number of the first; or
    nothing."""
    sort, number = script.bound(until).get(name, ("", 0))
    if sort != "value":
        return None
    inner = script.parents[number]
    end = script.end_of(number) if inner is None else None
    return (script.tokens[number + 2:end], number) if end is not None else None


def default_of(script: Tokens, name: str, until: int) -> Optional[Tuple[List[Token], int]]:
    """The tokens of the default of a parameter of the def round a token, and the number of the def's first token;
    or nothing."""
    for number in script.stack(until):
        if script.word(number) == "def" and script.parents[number + 1] == number:
            for argument in arguments_of(script.tokens, number + 1):
                if [token.text for token in argument.tokens[:3]] == ["~", name, "="]:
                    return argument.tokens[3:], number
    return None


def sort_of(script: Tokens, tokens: List[Token], until: int, depth: int = 0) -> Optional[str]:
    """The sort of the value of these tokens, which stand before a token of the script, or nothing where they do not
    tell it."""
    tokens = tokens[:-1] if tokens and tokens[-1].text == ";" else tokens
    if not tokens or depth > DEEPEST:
        return None
    first = tokens[0]
    if len(tokens) == 1 and first.kind == "name":
        found = default_of(script, first.text, until)
        if found is None and first.text not in script.parameters(until):
            found = value_of(script, first.text, until)
        return sort_of(script, found[0], found[1], depth + 1) if found else None
    if len(tokens) == 1 and first.kind in OF_KIND:
        return OF_KIND[first.kind]
    if len(tokens) == 2 and first.text == "-":
        return OF_KIND.get(tokens[1].kind)
    if first.kind == "wav" and is_whole(tokens[1:]):
        return "format"
    if len(tokens) == 1 or is_whole(tokens):
        return sort_of_whole(script, tokens, until, depth)
    return sort_of_operators(script, tokens, until, depth)


def sort_of_whole(script: Tokens, tokens: List[Token], until: int, depth: int) -> Optional[str]:
    """The same of one bracket, call or word."""
    first = tokens[0]
    if first.kind == "open":
        is_own = script.bound(until).get(first.name, ("",))[0] == "def"
        return "source" if first.name in MAKERS and not is_own else None
    if first.is_sign and first.text == "(":
        items = arguments_of(tokens, 0)
        return sort_of(script, items[0].tokens, until, depth + 1) if len(items) == 1 else "tuple" if items else "unit"
    return OF_SIGN.get(first.text) if first.is_sign else None


def sort_of_operators(script: Tokens, tokens: List[Token], until: int, depth: int) -> Optional[str]:
    """The same of values with signs between them."""
    if len(split(tokens, ("and", "or"))) > 1 or tokens[0].text == "not" or len(split(tokens, COMPARISONS)) > 1:
        return "bool"
    parts = split(tokens, ("+", "-", "*", "/"))
    sorts = {sort_of(script, part, until, depth + 1) for part in parts} if len(parts) > 1 else set()
    return sorts.pop() if len(sorts) == 1 and sorts <= set(NUMBERS) else None


def wanted(kind: str) -> Optional[str]:
    """The sort that a parameter takes, of its type in words, or nothing where it takes several."""
    if kind.startswith("list"):
        return "list"
    if kind.startswith("a format"):
        return "format"
    first = kind.partition(",")[0].split(" ")[0]
    return first if first in ("int", "decimal", "bool", "text", "source") else None


def clashes(script: Tokens, parameter: Parameter, argument: Argument) -> bool:
    """Whether the tokens of an argument tell that it cannot be of the type of its parameter."""
    due, found = wanted(parameter.type), sort_of(script, argument.tokens, script.visible(argument.number))
    return due is not None and found is not None and due != found
