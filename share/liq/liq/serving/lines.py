"""What is told of a script, a line for each: for the compilers of editors, or as JSON."""
import json
import re
from typing import Callable, Dict, Iterable, Iterator, Optional, Tuple

from liq.advising.lines import FAULT, Advice, place_of
from liq.advising.mending import Fault
from liq.advising.reader import Reader, reader_of
from liq.advising.script import Script
from liq.reading.companion import Companion
from liq.serving.looking import Look, Span, Told, line_and_column, span_of
from liq.watching.names import shown

Form = Callable[[str, str, Told], str]      # a line, of the name of a script, its text and what is told of it


def text_of(file: str, most: int) -> Optional[str]:
    """The text of a script, or nothing where it cannot be read; one byte more than a script has at most."""
    try:
        with open(file, "rb") as opened:
            return opened.read(most + 1).decode("utf-8", "surrogateescape")
    except (OSError, ValueError):
        return None


def as_line(file: str, text: str, told: Told) -> str:
    """`FILE:LINE:COL-ENDCOL: error E06: WHAT; HELP`."""
    line, column = line_and_column(text, told.span.first)
    end_line, end = line_and_column(text, told.span.behind)
    last = end if end_line == line and end > column + 1 else column + 1
    what = f"{told.text}; {told.help}" if told.help else told.text
    return shown(f"{file}:{line + 1}:{column + 1}-{last}: {told.sort} {told.code}: {what}")


def as_json(file: str, text: str, told: Told) -> str:
    """The same as one object of JSON; lines and columns from 1, the end behind the last character."""
    def place(at: int) -> Dict[str, int]:
        line, column = line_and_column(text, at)
        return {"line": line + 1, "column": column + 1}

    found: Dict[str, object] = {"file": file, "severity": told.sort, "code": told.code, "message": told.text, "help": told.help,
             "begin": place(told.span.first), "end": place(told.span.behind), "edit": None}
    if told.edit:
        found["edit"] = {"begin": place(told.edit.first), "end": place(told.edit.behind), "text": told.edit.text}
    return json.dumps(found)


def told_of(line: str, place: Optional[Tuple[int, int]], script: Optional[Script], help_line: Optional[str],
            reader: Optional[Reader]) -> Told:
    """What a line of a refusal tells, with its place and its help, and the edit that the reader finds to mend it."""
    if script is None:
        return Told("error", line[:3], Span(0, 0), line[4:], help_line)
    fault = Fault(script, line, place, help_line)
    has_place = place is not None or fault.number is not None or re.search(r" at \d+$", line)
    span = span_of(fault) if has_place else Span(0, 0)
    return Told("error", line[:3], span, line[4:], help_line, reader.proved(fault) if reader else None)


def passed(lines: Iterable[str], file: str, companion: Companion, form: Form) -> Iterator[str]:
    """The lines of standard input: each fault in its form, and any other line as it came."""
    reader = reader_of(companion)
    for line in lines:
        bare = line.removesuffix("\n")
        if not FAULT.fullmatch(bare):
            yield line
            continue
        places = [place_of(one, file) for one in companion.where(file, bare + "\n").split("\n")]
        place = next(filter(None, places), None)
        advice = Advice(file, companion)
        told = told_of(bare, place, advice.script, advice.line(bare, place), reader)
        yield form(file, advice.script.text if advice.script else "", told) + "\n"


def looked(file: str, text: str, look: Look, form: Form) -> Iterator[str]:
    """What is told of a text alone."""
    for told in look.at(text):
        yield form(file, text, told) + "\n"
