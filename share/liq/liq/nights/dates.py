"""A calendar: which script is played on which date.

A line is a date and the name of a script. The date is YEAR-MONTH-DAY, or MONTH-DAY for each year, which yields to a
line with the year. Empty lines, and lines that begin with #, say nothing.
"""
import datetime
import os
import re
from typing import Dict, List, Tuple

from liq.watching.names import shown

MOST = 1 << 20         # bytes of a calendar
LEAP = 2024            # a year with a 29 February


class Calendar:
    """The scripts of a calendar, by their dates as they stand in it. `told` has a line for each line that is wrong, and
    is passed over."""

    def __init__(self, path: str):
        self.path = path
        self.scripts: Dict[str, Tuple[int, str]] = {}      # of each date its line, and the script
        self.told: List[str] = []
        for number, line in enumerate(self.lines(), 1):
            if line.strip() and not line.startswith("#"):
                self.add(number, line)

    def lines(self) -> List[str]:
        """The lines of the file; none where it cannot be read, or is too long to be a calendar."""
        try:
            with open(self.path, "rb") as file:
                data = file.read(MOST + 1)
        except (OSError, ValueError) as error:
            self.told.append(f"{shown(self.path)}: {getattr(error, 'strerror', None) or error}; the usual script is played")
            return []
        if len(data) > MOST:
            self.told.append(f"{shown(self.path)}: has more than {MOST} bytes, and is no calendar; the usual script is played")
            return []
        return data.decode("utf-8-sig", "surrogateescape").splitlines()

    def add(self, number: int, line: str) -> None:
        """Takes a line."""
        date, script = (line.split(None, 1) + [""])[:2]
        script = script.strip()
        if not is_date(date):
            self.wrong(number, f"{shown(date)} is no date; one is as 2026-12-24, or as 12-24 for each year")
        elif not script:
            self.wrong(number, "no script stands behind the date")
        elif date in self.scripts:
            self.wrong(number, f"{date} has a script in line {self.scripts[date][0]} already")
        else:
            self.scripts[date] = number, script

    def wrong(self, number: int, text: str) -> None:
        self.told.append(f"{shown(self.path)}:{number}: {text}; the line is passed over")

    def script(self, date: datetime.date, usual: str) -> str:
        """The script of a date; the usual one where none is named, or the one that is named is not there."""
        for text in (date.isoformat(), date.strftime("%m-%d")):
            if text in self.scripts and os.path.exists(self.scripts[text][1]):
                return self.scripts[text][1]
        return usual

    def missing(self) -> List[str]:
        """Lines on scripts that are not there."""
        return [f"{shown(self.path)}:{number}: {shown(script)} is not there; the usual script is played"
                for number, script in self.scripts.values() if not os.path.exists(script)]


def is_date(text: str) -> bool:
    """Whether a text is the date of a line."""
    if not re.fullmatch(r"([0-9]{4}-)?[0-9]{2}-[0-9]{2}", text):
        return False
    try:
        datetime.date.fromisoformat(text if len(text) > 5 else f"{LEAP}-{text}")
        return True
    except ValueError:
        return False
