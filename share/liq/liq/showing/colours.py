"""The colours of a refusal at a terminal, as rustc has them, and the width of its lines."""
import os
import re
import sys
from typing import List

RED, BLUE, CYAN, BOLD, PLAIN = "\033[1;31m", "\033[1;34m", "\033[1;36m", "\033[1m", "\033[0m"
MOST = 400             # characters of a line of a script that are shown
CARET = re.compile(r"(\s*)\^(.*)")


def is_coloured() -> bool:
    """Whether standard error takes colours: a terminal, unless NO_COLOR is set."""
    return sys.stderr.isatty() and not os.environ.get("NO_COLOR") and os.environ.get("TERM") != "dumb"


def coloured(line: str) -> str:
    """A line of a refusal with its colours."""
    fault = re.fullmatch(r"(E[0-9]{2})\b(.*)", line)
    if fault:
        return f"{RED}{fault[1]}{PLAIN}{BOLD}{fault[2]}{PLAIN}"
    place = re.fullmatch(r"(.+?:[0-9]+:[0-9]+:)( .*)", line)
    if place:
        return f"{BLUE}{place[1]}{PLAIN}{place[2]}"
    caret = CARET.fullmatch(line)
    if caret:
        return f"{caret[1]}{RED}^{caret[2]}{PLAIN}"
    if line.startswith("help: "):
        return f"{CYAN}help:{PLAIN}{line[len('help:'):]}"
    return line


def cut(lines: List[str]) -> List[str]:
    """Lines none of which is longer than can be read. A line keeps the place at which a caret points."""
    found = []
    for number, line in enumerate(lines):
        behind = CARET.fullmatch(lines[number + 1]) if number + 1 < len(lines) else None
        most = max(MOST, len(behind[1]) + 40) if behind else MOST
        found.append(line if len(line) <= most or line.startswith("help: ") else line[:most] + "..")
    return found


def drawn(text: str) -> str:
    """The lines of a refusal as they stand at the terminal."""
    lines = cut(text.split("\n"))
    return "\n".join(map(coloured, lines) if is_coloured() else lines)
