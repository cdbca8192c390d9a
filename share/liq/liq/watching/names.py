"""How names stand in lines for people, and in lines that are to be typed."""
import shlex
import unicodedata
from typing import List

# Kinds of characters that drive a terminal, are not seen, or turn the text round them; Cs are bytes that are no UTF-8.
UNSEEN = ("Cc", "Cf", "Cs", "Zl", "Zp")
CARET = "^"


def is_unseen(character: str) -> bool:
    """Whether a character has to stand as a number."""
    return unicodedata.category(character) in UNSEEN


def numbered(character: str) -> str:
    """A character by the numbers of its bytes, as `\\xc2\\x9b`."""
    return "".join(f"\\x{byte:02x}" for byte in character.encode("utf-8", "surrogateescape"))


def shown(text: str) -> str:
    """A text as a line can hold it: what is unseen as numbers. Bytes that are no UTF-8 stand in it as surrogates."""
    if text.isascii() and text.isprintable():       # as most lines are, of which there may be many
        return text
    return "".join(numbered(c) if is_unseen(c) else c for c in text)


def typed(name: str) -> str:
    """A name as it is to be typed in a shell. With unseen characters it has the form $'..' of bash, ksh and zsh."""
    if not any(map(is_unseen, name)):
        return shlex.quote(name)
    return "$'" + "".join(numbered(c) if is_unseen(c) else "\\" + c if c in "\\'" else c for c in name) + "'"


def shown_lines(text: str) -> str:
    """Lines with each one shown, but for tabs. A line of blanks and then a caret points into the line before, and moves
    with it."""
    def as_line(line: str) -> str:
        return "\t".join(map(shown, line.split("\t")))

    lines: List[str] = []
    before = ""
    for line in text.split("\n"):
        at = line.find(CARET)
        if at >= 0 and not line[:at].strip(" "):
            front = before[:at]
            lines.append(" " * (at + len(as_line(front)) - len(front)) + as_line(line[at:]))
        else:
            lines.append(as_line(line))
        before = line
    return "\n".join(lines)


class Terminal:
    """Lines as a terminal shows them, one after another. A caret moves with the line before it."""

    def __init__(self) -> None:
        self.before = ""

    def line(self, line: str) -> str:
        """The next line, with its end if it has one."""
        body = line.removesuffix("\n")
        found = shown_lines(f"{self.before}\n{body}").rpartition("\n")[2]
        self.before = body
        return found + line[len(body):]
