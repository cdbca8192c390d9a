"""The settings of a station: a file with a line `name = value` for each."""
import datetime
import difflib
import os
import re
from dataclasses import dataclass, fields
from typing import Any, Callable, Dict, List, Optional, Tuple

from liq.failed import Failed
from liq.nights.words import read_address, read_loudness, read_number
from liq.watching.names import shown

NAME = "settings"      # of the file in the folder of the station
MOST = 1 << 16         # bytes of it
HOURS = 24             # hours of a night at most
RATES = (8000, 192000)


@dataclass
class Settings:
    """What a station is. Names of files count from its folder."""
    script: str = ""
    start: datetime.time = datetime.time()
    hours: float = 0.0
    ahead: float = 4.0
    keep: float = 3.0
    music: str = ""
    library: str = "library"
    loudness: Optional[float] = None
    shuffle: Optional[int] = None
    rate: Optional[int] = None
    prune: bool = True
    calendar: str = ""
    output: str = ""
    address: str = ""
    password: str = ""
    bitrate: int = 128
    meanwhile: str = ""
    repeat: bool = True
    name: str = "liq"
    call: str = ""
    mail: str = ""


def read_time(text: str) -> Optional[datetime.time]:
    """HH:MM."""
    parts = re.fullmatch(r"([01][0-9]|2[0-3]):([0-5][0-9])", text)
    return datetime.time(int(parts[1]), int(parts[2])) if parts else None


def read_part(most: float) -> Callable[[str], Optional[float]]:
    """A number above 0 and up to this one."""
    def read(text: str) -> Optional[float]:
        value = read_number(text, r"[0-9]{1,3}(\.[0-9]{1,4})?")
        return value if value is not None and 0 < value <= most else None
    return read


def read_whole(least: int, most: int) -> Callable[[str], Optional[int]]:
    """A whole number from one to another."""
    def read(text: str) -> Optional[int]:
        value = int(text) if re.fullmatch(r"[0-9]{1,20}", text) else -1
        return value if least <= value <= most else None
    return read


def read_choice(text: str) -> Optional[bool]:
    """yes or no."""
    return {"yes": True, "no": False}.get(text)


def read_mail(text: str) -> Optional[str]:
    """To whom mails go: a user of this machine or an address."""
    return text if re.fullmatch(r"[A-Za-z0-9_][!-~]*", text) else None


def read_text(text: str) -> Optional[str]:
    """A text that can be printed."""
    return text if text.isprintable() else None


Reader = Callable[[str], Any]
READERS: Dict[str, Tuple[Reader, str]] = {
    "start": (read_time, "a time as 20:00"), "hours": (read_part(HOURS), f"a number of hours up to {HOURS}"),
    "ahead": (read_part(HOURS - 1), f"a number of hours up to {HOURS - 1}"), "keep": (read_part(999), "a number of days"),
    "loudness": (read_loudness, "a loudness from -40 to -5, as -18"),
    "shuffle": (read_whole(0, (1 << 64) - 1), "a whole number"),
    "rate": (read_whole(*RATES), f"a number of samples from {RATES[0]} to {RATES[1]}"), "prune": (read_choice, "yes or no"),
    "bitrate": (read_whole(32, 320), "a number of kilobits, as 128"), "repeat": (read_choice, "yes or no"),
    "address": (read_address, "an address as http://127.0.0.1:8000/air.mp3"),
    "call": (read_address, "an address as https://example.org/x"),
    "mail": (read_mail, "a user or an address as radio@example.org")}
NEEDED = ("script", "start", "hours")


def path_of(folder: str) -> str:
    return os.path.normpath(os.path.join(folder, NAME))


def read(folder: str) -> Settings:
    """The settings of a station. `Failed` with the line and the word where one is wrong."""
    path = path_of(folder)
    try:
        with open(path, "rb") as file:
            data = file.read(MOST)
    except OSError as error:
        raise Failed(f"{shown(path)}: {error.strerror}", 3) from None
    found: Dict[str, Tuple[int, Any]] = {}
    for number, line in enumerate(data.decode("utf-8-sig", "surrogateescape").split("\n"), 1):
        if line.strip() and not line.lstrip().startswith("#"):
            name, value = setting_of(line, f"{shown(path)}:{number}")
            if name in found:
                raise Failed(f"{shown(path)}:{number}: {name} is set in line {found[name][0]} already", 1)
            found[name] = number, value
    missing = [name for name in NEEDED if name not in found]
    if missing:
        raise Failed(f"{shown(path)}: sets no {missing[0]}", 1)
    return Settings(**{name: value for name, (_, value) in found.items()})


def setting_of(line: str, place: str) -> Tuple[str, Any]:
    """The name and the value of a line."""
    name, equals, value = (part.strip() for part in line.partition("="))
    known = [field.name for field in fields(Settings)]
    if name not in known:
        near = difflib.get_close_matches(name.lower(), known, 1, 0.5)
        meant = f"; do you mean {near[0]}?" if near else f"; there are {', '.join(known)}"
        raise Failed(f"{place}: {shown(name)} is no setting{meant}", 1)
    if not equals:
        raise Failed(f"{place}: {name} has no =", 1)
    reader, form = READERS.get(name, (read_text, "a text that can be printed"))
    found = reader(value) if value else None
    if found is None:
        raise Failed(f"{place}: {name} is to be {form}, and not {shown(value) or 'empty'}", 1)
    return name, found


def words_of_prepare(settings: Settings, report: str) -> List[str]:
    """The words of liq-prepare."""
    options = [f"--{name}={getattr(settings, name)}" for name in ("loudness", "shuffle", "rate") if getattr(settings, name) is not None]
    return [*options, *(["--prune"] if settings.prune else []), f"--report={report}", settings.music, settings.library]


def words_of_night(settings: Settings, start: datetime.datetime, report: str) -> List[str]:
    """The words of liq-night."""
    options = [f"--start={start:%Y-%m-%d:%H:%M}", "--go-on", f"--report={report}"]
    options += [f"--calendar={settings.calendar}"] if settings.calendar else []
    options += [f"--loudness={settings.loudness}"] if settings.loudness is not None else []
    options += [f"--call={settings.call}"] if settings.call else []
    return [*options, settings.script, f"{settings.hours:g}"]


def words_of_air(settings: Settings, names: List[str]) -> List[str]:
    """The words of liq-air."""
    options = ["--stay", "--state=air.state", "--log=air.csv", f"--bitrate={settings.bitrate}", f"--name={settings.name}"]
    options += [f"--password-file={settings.password}"] if settings.password else []
    options += [f"--meanwhile={settings.meanwhile}"] if settings.meanwhile else []
    return [*options, *(["--repeat"] if settings.repeat else []), settings.address, *names]
