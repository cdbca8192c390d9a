"""The work of a station: the night ahead each day, and the air all the time."""
import datetime
import time
from typing import Any, Callable, Dict, List, Optional, Sequence, Tuple

from liq.failed import Failed
from liq.keeping import children, settings, shelf
from liq.nights.rooms import numbered
from liq.reports import last_of
from liq.watching.names import shown

REPORT, SOUNDS = "nights.jsonl", "library.jsonl"
TICK = 1.0             # seconds between looks
AGAIN = 600            # seconds between tries of a night
DAY = datetime.timedelta(days=1)


class Keeper:
    """A station in the folder in which this process is."""

    def __init__(self, say: Callable[[str], None], tell: Callable[[str], None], is_quiet: bool = False):
        self.say, self.show = say, tell        # prints a line on what is wrong, and one on what is done
        self.is_quiet, self.mailed = is_quiet, ""
        self.settings = settings.read(".")
        self.trouble = ""
        self.air = children.Kept("liq-air", say)
        self.tried: Dict[datetime.datetime, float] = {}    # when each night was last tried

    def look(self) -> None:
        """Reads the settings anew. Where they are wrong the ones before stay."""
        try:
            self.settings, self.trouble = settings.read("."), ""
        except Failed as error:
            if str(error) != self.trouble:
                self.say(f"{error}; the settings before stay")
            self.trouble = str(error)

    def due(self, now: datetime.datetime) -> Optional[datetime.datetime]:
        """The start of the night that is to be rendered now: one that is heard now, or the next one if it is time."""
        for day in (now.date() - DAY, now.date(), now.date() + DAY):
            start = datetime.datetime.combine(day, self.settings.start)
            is_time = start - datetime.timedelta(hours=self.settings.ahead) <= now < start + datetime.timedelta(hours=self.settings.hours)
            if is_time and not shelf.has(start) and time.monotonic() - self.tried.get(start, -AGAIN) >= AGAIN:
                return start
        return None

    def keep_air(self) -> None:
        """Sees to it that the air is kept."""
        self.air.keep(settings.words_of_air(self.settings, [shelf.FOLDER]) if self.settings.address else [])

    def call(self, name: str, words: List[str]) -> int:
        """Calls a command, and keeps the air meanwhile."""
        return children.ended(children.begun(name, words), self.keep_air)

    def make_library(self) -> Tuple[str, List[str]]:
        """Makes the library: why that failed, or nothing, and what was found that was not found before."""
        status = self.call("liq-prepare", settings.words_of_prepare(self.settings, SOUNDS))
        sounds = list(map(str, last_of(SOUNDS).get("new", []))) if status in (0, 1) else []
        return f"liq-prepare ended with {status}" if status else "", sounds

    def make(self, start: datetime.datetime) -> bool:
        """Does the work of a day; whether the night is there. It is told in a line."""
        self.tried = {start: time.monotonic()}
        failed, sounds = self.make_library() if self.settings.music else ("", [])
        status = self.call("liq-night", settings.words_of_night(self.settings, start, REPORT))
        report = last_of(REPORT)
        if status == 0:
            shelf.take(start, self.aired(report))
        said = [text for text in (failed, counted("new in the library", sounds)) if text]
        found = [*report.get("found", []), *([failed] if failed else []), *sounds]
        removed = shelf.prune(datetime.datetime.now(), self.settings.keep)
        said += [f"{removed} old night{'s' * (removed != 1)} removed"] if removed else []
        line = f"{start:%Y-%m-%d %H:%M}: {told_of(report, status)}" + "".join(f"; {text}" for text in said)
        self.tell(line, found, status != 0)
        return status == 0

    def tell(self, line: str, found: Sequence[str] = (), is_bad: bool = False) -> None:
        """Prints a line on what was done, and mails it where there is no night or something was found."""
        if found or is_bad or not self.is_quiet:
            self.show(line)
        if self.settings.mail and (found or is_bad) and line != self.mailed:
            self.mailed = line
            text = "".join(shown(one) + "\n" for one in [line, *found])
            subject = f"{self.settings.name}: {'no night' if is_bad else 'a night'}"
            why = children.why_not_mailed(self.settings.mail, subject, text)
            if why:
                self.say(why)

    def aired(self, report: Dict[str, Any]) -> List[str]:
        """The files of a night that go on the air: those of one output."""
        names = [str(name) for name in report.get("outputs", [])]
        output = self.settings.output or (names[0] if names else "")
        return [name for name in names if name == output or name in numbered(output)] or names[:1]

    def once(self) -> bool:
        """Does the work that is due, and that of the night ahead; whether all nights are there."""
        now = datetime.datetime.now()
        start = datetime.datetime.combine(now.date(), self.settings.start)
        nights = [start - DAY, start] + ([start + DAY] if now >= start else [])
        wanted = [night for night in nights if night + datetime.timedelta(hours=self.settings.hours) > now and not shelf.has(night)]
        if not wanted:
            self.tell(f"{nights[-1]:%Y-%m-%d %H:%M}: is there")
        return all([self.make(night) for night in wanted])

    def run(self, nights: Optional[int]) -> None:
        """Keeps the station, for so many nights or for ever."""
        made = 0
        while nights is None or made < nights:
            self.keep_air()
            start = self.due(datetime.datetime.now())
            if start is None:
                time.sleep(TICK)
                continue
            self.look()
            made += self.make(start)

    def end(self) -> None:
        """Ends what runs."""
        self.air.end()


def told_of(report: Dict[str, Any], status: int) -> str:
    """What the line of a day says of its night."""
    if status:
        return f"no night (status {status}): {report.get('error', 'see ' + children.LOG)}"
    seconds = int(report.get("length", 0))
    text = f"{seconds // 3600}:{seconds // 60 % 60:02}:{seconds % 60:02}, {report.get('tracks', 0)} tracks"
    text += f", {report['gaps']} s of silence" if report.get("gaps") else ""
    found = counted("found", report.get("found", []))
    return f"{text}; {found}" if found else text


def counted(what: str, lines: Sequence[str]) -> str:
    """How many lines there are, and the first one; nothing where there is none."""
    return f"{what} {len(lines)}: {lines[0]}" + ", .." * (len(lines) > 1) if lines else ""
