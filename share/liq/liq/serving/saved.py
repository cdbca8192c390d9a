"""A look at a script that is saved, with the lists and sounds that it names: what `liq check` reports in the folder in which
liq is called. It tells what a look at the text cannot: missing files, an output that may fall silent, two clocks. A script of
Liquidsoap that liq refuses is brought over for it, and the verdict is told at its own lines."""
import os
import re
import subprocess
from typing import List, NamedTuple, Optional, Tuple

from liq.adopting import checking
from liq.adopting.answer import Asked
from liq.advising.lines import Advice, place_of
from liq.advising.mending import Fault, edit_of
from liq.advising.script import Script
from liq.reading.companion import Companion, NoAnswer
from liq.serving.looking import Span, Told, span_of

SECONDS = 60
OF_FILES = re.compile(r"E(2\d|3[0-3]) ")
SORTS = {checking.FAULT: "error", checking.SILENT: "warning", checking.HINT: "hint", "you": "information", "less": "hint"}
WORDS = {3: "a file that it names could not be read", 5: "memory was refused, or a type of the script passes its bound"}


def folder_of(path: str, roots: "List[str]") -> str:
    """The folder in which liq is called for a script: that of the workspace which holds it, or else its own."""
    inside = [root for root in roots if os.path.commonpath((root, path)) == root]
    return max(inside, key=len) if inside else os.path.dirname(path)


def holds(path: str, text: str) -> bool:
    """Whether a file has just this text."""
    try:
        with open(path, "rb") as file:
            return file.read() == text.encode("utf-8", "surrogateescape")
    except OSError:
        return False


class Seen(NamedTuple):
    """What is told of a script that is saved, and whether it is one of Liquidsoap that was brought over."""
    told: List[Told]
    is_live: bool = False


class Saved:
    """The programs, and what they tell of a script that is saved."""

    def __init__(self, liq: str, companion: Companion):
        self.liq, self.companion = liq, Companion(companion.path, SECONDS)

    def at(self, path: str, folder: str, text: str) -> Seen:
        """The fault of the files, or of what depends on them, if there is one; or the verdict on a script of Liquidsoap.
        `NoAnswer` where the program has none."""
        name = os.path.relpath(path, folder)
        try:
            done = subprocess.run([self.liq, "check", "./" + name], cwd=folder, stdin=subprocess.DEVNULL, check=False,
                                  capture_output=True, timeout=SECONDS)
        except subprocess.TimeoutExpired:
            raise NoAnswer(f"liq check takes more than {SECONDS} seconds", 5) from None
        except OSError as error:
            raise NoAnswer(f"liq check: {error.strerror}", 126) from None
        line = done.stderr.decode("utf-8", "surrogateescape").removesuffix("\n")
        if done.returncode in WORDS:
            return Seen([Told("error", "check", Span(0, 0), WORDS[done.returncode], f"call `liq doctor {name}`")])
        if done.returncode == 1 and OF_FILES.match(line):
            return Seen([self.fault(path, folder, line)])
        return self.brought_over(text, folder) if done.returncode == 1 else Seen([])

    def brought_over(self, text: str, folder: str) -> Seen:
        """The verdict on a script of Liquidsoap. It is one if all that liq refuses could be brought over, and not by the
        reader's decisions alone, as a word that is misspelled would be."""
        verdict = checking.checked(text, folder, Asked(self.liq, self.companion))
        sorts = {one.sort for one in verdict.rests}
        if verdict.is_same or verdict.is_refused or sorts == {"you"}:
            return Seen([])
        found = [*verdict.told, *verdict.rests]
        return Seen([Told(SORTS[one.sort], one.sort, Span(one.at, one.behind), one.what, one.help) for one in found], True)

    def fault(self, path: str, folder: str, line: str) -> Told:
        """What is told of a fault, at its place."""
        said = self.companion.where(path, line + "\n").split("\n")
        place = next(filter(None, (place_of(one, path) for one in said)), None)
        with open(path, "rb") as file:
            data = file.read()
        script = Script(data, self.companion.tokens_of(data))
        fault = Fault(script, line, place, self.help(path, folder, line, place))
        span = span_of(fault) if place is not None or fault.number is not None else Span(0, 0)
        return Told("error", line[:3], span, line[4:], fault.help, edit_of(fault))

    def help(self, path: str, folder: str, line: str, place: Optional[Tuple[int, int]]) -> Optional[str]:
        """The help of a line; names in it count from the folder."""
        here = os.getcwd()
        try:
            os.chdir(folder)
            return Advice(path, self.companion).line(line, place)
        except OSError:
            return None
        finally:
            os.chdir(here)
