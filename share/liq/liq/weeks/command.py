"""The command liq-week: the week of a station."""
import subprocess
from typing import List

from liq.command import write_line
from liq.failed import Failed, Usage
from liq.reading.companion import Companion, NoPlan
from liq.reading.programs import COMPANION, LIQ, programs_of
from liq.weeks.told import told

SECONDS = 60


def refused(program: str, file: str) -> int:
    """Has liq say why it refuses a script, and answers its status."""
    try:
        done = subprocess.run([program, "check", file], stdin=subprocess.DEVNULL, stdout=subprocess.DEVNULL, check=False,
                              timeout=SECONDS)
    except subprocess.TimeoutExpired:
        raise Failed(f"liq check takes more than {SECONDS} seconds", 5) from None
    return done.returncode or 1


def main(words: List[str]) -> int:
    """Prints when in the week no case of a switch holds."""
    if len(words) != 1:
        raise Usage("usage: liq week FILE")
    program, companion = programs_of((LIQ, COMPANION))
    try:
        week = told(Companion(companion, SECONDS), words[0])
    except NoPlan:
        return refused(program, words[0])
    for line in week.shown():
        write_line(line + "\n")
    return 0
