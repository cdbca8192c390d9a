"""The command liq-where: the places that lines of `liq check` name."""
import os
import sys
from typing import Callable, Iterator, List

from liq.command import input_lines, write_line
from liq.failed import Failed, Usage
from liq.reading.companion import Companion
from liq.reading.programs import COMPANION, LIQ, program_of, programs_of
from liq.serving.lines import as_json, as_line, looked, passed, text_of
from liq.serving.looking import Look

USAGE = "usage: liq where [--lines|--json] [--text] FILE"
FORMS = {"--lines": as_line, "--json": as_json}


def at_terminal(file: str) -> Iterator[str]:
    """The lines of standard input with the places, as a terminal may show them."""
    said = "".join(input_lines())
    printed = Companion(program_of(COMPANION)).where(file, said)
    yield from (f"{line}\n" for line in printed.removesuffix("\n").split("\n") if printed)


def told(file: str, form: Callable[..., str], is_text: bool) -> Iterator[str]:
    """The lines that are due."""
    program, path = programs_of((LIQ, COMPANION))
    companion = Companion(path)
    text = text_of(file, companion.script_most()) if is_text else ""
    if not is_text:
        yield from passed(input_lines(), file, companion, form)
    elif text is None:
        yield from passed(["E01 no script\n"], file, companion, form)
    else:
        yield from looked(file, text, Look(program, companion), form)


def become(file: str) -> None:
    """Becomes the companion, which passes the lines on as they are."""
    path = program_of(COMPANION)
    try:
        os.execv(path, [path, "where", file])
    except OSError as error:
        raise Failed(f"{path}: {error.strerror}", 126) from None


def main(words: List[str]) -> int:
    """Prints standard input, and the places behind its lines."""
    is_text = len(words) == 3 and words[1] == "--text"
    is_plain = len(words) == 1 and not words[0].startswith("--")
    if is_plain and not sys.stdout.isatty():
        become(words[0])
    if not is_plain and (len(words) != 2 + is_text or words[0] not in FORMS or words[-1].startswith("--")):
        raise Usage(USAGE)
    for line in at_terminal(words[0]) if is_plain else told(words[-1], FORMS[words[0]], is_text):
        write_line(line)
    return 0
