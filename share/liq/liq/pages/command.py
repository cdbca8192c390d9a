"""The command liq-page: a page of what a rendering played."""
import re
import sys
from typing import Any, Callable, Dict, List, Optional, Tuple

from liq.command import tell
from liq.failed import Failed, Usage
from liq.pages.document import document
from liq.pages.forms import FORMS, TRACKS, log
from liq.pages.hours import Hours
from liq.pages.outputs import read_output
from liq.pages.sounds import NoSound
from liq.pages.times import read_date, read_start, second_of
from liq.pages.titles import read_titles, tables_beside
from liq.reading.companion import Companion, NoAnswer, NoPlan, companion_of
from liq.weeks.spans import spans_of
from liq.weeks.told import told

USAGE = ("usage: liq page [--start=D:HH:MM:SS|DATE] [--title=TEXT] [--silence=SECONDS] [--as=FORM] [--week=FILE] "
         "[--sound[=FOLDER]] [--titles=FILE]... [--note=TEXT]... [NAME [--then=NAME]...]...")
LOG = "log"
STANDARD: Dict[str, Any] = {
    "start": 0, "date": None, "title": "What was played", "silence": 1.0, "as": "html", "week": "", "sound": None,
    "titles": [], "note": []}


def read_silence(text: str) -> Optional[float]:
    seconds = float(text) if re.fullmatch(r"[0-9]{1,4}(\.[0-9]{1,3})?", text) else 0
    return seconds or None


def read_form(text: str) -> Optional[str]:
    return text if text in ("html", LOG) or text in FORMS else None


READERS: Dict[str, Callable[[str], Any]] = {"start": read_start, "silence": read_silence, "as": read_form, "title": str,
                                            "week": str, "sound": lambda text: text or None}
SEVERAL = ("titles", "note")


def words_of(words: List[str]) -> Optional[Tuple[Dict[str, Any], List[List[str]]]]:
    """The options and the outputs, each a list of files that follow each other; None where the words are wrong."""
    options: Dict[str, Any] = {}
    outputs: List[List[str]] = []
    for word in words:
        option, equals, value = word.removeprefix("--").partition("=")
        if not word.startswith("--"):
            outputs.append([word])
        elif word == "--sound" and "sound" not in options:
            options["sound"] = "."
        elif option == "then" and equals and outputs:
            outputs[-1].append(value)
        elif option in SEVERAL and equals:
            options[option] = options.get(option, []) + [value]
        elif option == "start" and equals and option not in options and (date := read_date(value)):
            options["date"], options["start"] = date, second_of(date)
        elif option in READERS and equals and option not in options:
            options[option] = READERS[option](value)
        else:
            return None
    if None in options.values() or options.get("as") == LOG and "date" not in options:
        return None
    return {**STANDARD, **options}, outputs


def read_report(data: bytes) -> Tuple[Dict[str, int], List[Tuple[str, ...]]]:
    """The outputs of a report with their gaps, and its buffers. A line is read from its right end, since a name may
    hold any words."""
    outputs: Dict[str, int] = {}
    buffers: List[Tuple[str, ...]] = []
    for line in data.decode("utf-8", "surrogateescape").split("\n"):
        output = re.fullmatch(r"output (.*) samples [0-9]+ gaps ([0-9]{1,20})", line, re.DOTALL)
        buffer = re.fullmatch(r"buffer ([0-9]+) accepted ([0-9]+) full ([0-9]+) got ([0-9]+) empty ([0-9]+)", line)
        if output:
            outputs[output[1]] = int(output[2])
        elif buffer:
            buffers.append(tuple(buffer.groups()))
    return outputs, buffers


def hours_of(companion: Companion, script: str) -> Hours:
    """What is told of the week of a script, or of none."""
    if not script:
        return Hours([])
    try:
        week = told(companion, script)
    except NoPlan:
        tell(f"page: {script}: the week of this script cannot be told; liq week says why")
        return Hours([])
    except NoAnswer as error:
        tell(f"page: the week cannot be told: {error}")
        return Hours([])
    return Hours([(f"{line.place or 'a switch'}: {line.text}", spans_of(line.text)) for line in week.once()])


def made(options: Dict[str, Any], names: List[List[str]]) -> str:
    """The text that is asked for."""
    gaps: Dict[str, int] = {}
    buffers: List[Tuple[str, ...]] = []
    if not names:
        with open(0, "rb", closefd=False) as file:
            gaps, buffers = read_report(file.read())
        names = [[name] for name in gaps]
        if not names:
            raise NoSound("the report names no output")
    companion = companion_of()
    outputs = [read_output(group, options["silence"], companion) for group in names]
    for output in outputs:
        output.gaps = gaps.get(output.name)
    titles = read_titles([*tables_beside(name for group in names for name in group), *options["titles"]])
    if options["as"] == "html":
        return document(options, outputs, buffers, titles, hours_of(companion, options["week"]))
    if options["as"] == LOG:
        return log(outputs, titles, options["date"])
    for output in outputs:
        if options["as"] == "sheet" and len(output.plays) > TRACKS:
            sheets = -(-len(output.plays) // TRACKS)
            tell(f"page: {output.name}: {len(output.plays)} tracks are {sheets} sheets, as one ends at {TRACKS}; each begins with "
                 "REM SHEET")
    return "".join(FORMS[options["as"]](output, titles) for output in outputs)


def main(words: List[str]) -> int:
    """Prints the page, or the text of another form."""
    call = words_of(words)
    if call is None:
        raise Usage(USAGE)
    try:
        text = made(*call)
    except OSError as error:
        raise Failed(f"{error.filename or 'standard input'}: {error.strerror}", 3) from None
    sys.stdout.buffer.write(text.encode("utf-8", "backslashreplace"))
    return 0
