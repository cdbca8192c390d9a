"""The tokens of a script of Liquidsoap, 1.x or 2.x, and which bracket closes which."""
import re
from typing import Dict, List, Optional

DEEPEST = 200          # brackets within each other; liq takes no more
KEYWORDS = {"def", "end", "begin", "if", "then", "elsif", "else", "while", "for", "to", "do", "try", "catch", "finally",
            "let", "fun", "rec", "replaces", "and", "or", "not", "mod", "ref", "true", "false"}
CLOSES = {"(": ")", "[": "]", "{": "}", "def": "end", "if": "end", "begin": "end", "try": "end", "while": "end",
          "for": "end"}
CLOSERS = (")", "]", "}", "end")
GAP = re.compile(r"[ \t\r\n\f\u00a0\ufeff]+|[#%]<.*?>[#%]|#[^\n]*", re.S)
TOKEN = re.compile(r"""(?P<time>\d+[whms](?:\d+[hms])*\d*(?![A-Za-z_]))
    |(?P<number>\d[\d_]*\.(?:\d[\d_]*)?(?:[eE][+-]?\d+)?(?![A-Za-z_.])|\.\d[\d_]*(?:[eE][+-]?\d+)?|\d[\d_]*[eE][+-]?\d+)
    |(?P<int>0[xX][0-9A-Fa-f_]+|0[oO][0-7_]+|0[bB][01_]+|\d[\d_]*)
    |(?P<regexp>r/(?:\\.|[^/\\\n])+/[a-z]*)
    |(?P<format>%[A-Za-z_]\w*(?:\.\w+)*)
    |(?P<name>[^\W\d][\w']*(?:\.[^\W\d][\w']*)*)
    |(?P<sign>\?\?|\?\.|==|!=|<=|>=|:=|->|::|\.\.\.|&&|\|\||\|>|<-|\*\*|[=<>+\-*/()\[\]{},;~!?.:^|%&@])""", re.X | re.S)


class Trouble(Exception):
    """A script that cannot be cut: at a character, and why."""

    def __init__(self, at: int, what: str):
        super().__init__(what)
        self.at, self.what = at, what


class Token:
    """A token: its kind, its text, and where it begins and ends, in characters."""
    __slots__ = ("kind", "text", "at", "behind")

    def __init__(self, kind: str, text: str, at: int) -> None:
        self.kind, self.text, self.at, self.behind = kind, text, at, at + len(text)

    @property
    def ends_value(self) -> bool:
        """Whether a value may end with it."""
        if self.kind == "keyword":
            return self.text in ("end", "true", "false")
        return self.kind != "sign" or self.text in CLOSERS


def text_end(script: str, at: int) -> int:
    """Where a text ends that begins at a quote; in `#{ }` values stand, and texts within them."""
    stack, begin, at = [script[at]], at, at + 1
    while at < len(script):
        sign, inner = script[at], stack[-1]
        if inner == "{":
            if sign in "\"'{":
                stack.append(sign)
            elif sign == "}":
                stack.pop()
        elif sign == "\\":
            at += 1
        elif sign == inner:
            stack.pop()
            if not stack:
                return at + 1
        elif script.startswith("#{", at):
            stack.append("{")
            at += 1
        at += 1
    raise Trouble(begin, "the text that begins here is not closed")


def token_at(script: str, at: int, before: Optional[Token]) -> Token:
    """The token that begins here, behind another one or nothing."""
    if script[at] in "\"'":
        return Token("text", script[at:text_end(script, at)], at)
    match = TOKEN.match(script, at)
    if not match:
        raise Trouble(at, f"no token of Liquidsoap begins with {ascii(script[at])}")
    kind, text = match.lastgroup or "", match.group()
    if kind == "regexp" and before is not None and before.ends_value:
        kind, text = "name", "r"
    return Token("keyword" if text in KEYWORDS else kind, text, at)


def tokens_of(script: str) -> List[Token]:
    """The tokens of a script without blanks and comments."""
    found: List[Token] = []
    at, end, gap = 0, len(script), GAP.match
    while at < end:
        blank = gap(script, at)
        if blank:
            at = blank.end()
            continue
        token = token_at(script, at, found[-1] if found else None)
        at = token.behind
        found.append(token)
    return found


def mates_of(tokens: List[Token]) -> Dict[int, int]:
    """For the number of each token that opens a bracket or a block that of the one that closes it."""
    found: Dict[int, int] = {}
    stack: List[int] = []
    for number, token in enumerate(tokens):
        if token.kind not in ("sign", "keyword"):
            continue
        if token.text in CLOSES:
            stack.append(number)
            if len(stack) > DEEPEST:
                raise Trouble(token.at, f"more than {DEEPEST} brackets are open here")
        elif token.text in CLOSERS:
            if not stack or CLOSES[tokens[stack[-1]].text] != token.text:
                raise Trouble(token.at, f"this `{token.text}` closes nothing")
            found[stack.pop()] = number
    if stack:
        raise Trouble(tokens[stack[-1]].at, f"`{tokens[stack[-1]].text}` is not closed")
    return found
