"""What becomes of the entries of a list, in lines."""
import collections
import os
import re
from typing import Dict, Iterator, Optional, Tuple

from liq.doctoring.findings import SHOWN, Finding, Told, counted, weighed
from liq.doctoring.paths import absence_of, trouble_of
from liq.doctoring.sounds import trouble_of_sound
from liq.reading.facts import Facts, Listed, Sound
from liq.watching.names import shown

NOTHING, SILENCE = "nothing of it can be played", "; you hear silence or the fallback"
ADDRESS = "is an address, and nothing is fetched"
ANNOTATED = "has annotate: before its name; liq prepare reads such a list, and writes one of names alone"
LINE_OF_PLS = "is a line of a PLS list; liq prepare reads it, and writes a list of names alone"
ADDRESSED = re.compile(r"\w+://")
MARK = b"\xef\xbb\xbf"
LONGEST = 1 << 26      # bytes of a list of which lines are counted
CODED = re.compile(r"is an? (MP3|Ogg|FLAC|AIFF|MP4|AAC|Matroska) file;")   # liq prepare makes WAV files of it
LOOKED = 256           # files of one ending, in a row and of one form, after which no more of them are opened


class Entries:
    """The entries of a list that are played, and those that are not, by the reason: those that are left out, and those
    that end a call with status 3."""

    def __init__(self, listed: Listed, facts: Facts):
        self.listed, self.played = listed, 0
        self.folder = os.path.dirname(listed.name)
        self.absent: Dict[str, str] = {}                    # by the folder of a file why it is not there
        # by the fault and the ending of a file its form, and how many files in a row are of that form
        self.forms: Dict[Tuple[int, str], Tuple[Optional[str], int]] = {}
        self.skipped, self.ending = collections.defaultdict(list), collections.defaultdict(list)
        for entry in listed.entries:
            sound = facts.sounds[entry]
            trouble = None if sound.is_used else self.trouble(sound, facts)
            if trouble is None:
                self.played += 1
            elif sound.state == "unread" and not is_address(entry):
                self.ending[trouble].append(entry)
            else:
                self.skipped[self.reason(entry, trouble, sound.state == "missing")].append(entry)

    def trouble(self, sound: Sound, facts: Facts) -> Optional[str]:
        """Why a sound is not played. The folder of a file that is not there is looked for once. A file that liq does not
        read is opened, but not after many of its ending, in a row, are of one form."""
        if sound.state == "missing":
            folder = sound.name.rpartition("/")[0]
            if folder not in self.absent:
                self.absent[folder] = absence_of(sound.name)
            return self.absent[folder]
        if sound.state != "not wav":
            return trouble_of_sound(sound, facts)
        kind = sound.fault, os.path.splitext(sound.name)[1].lower()
        form, count = self.forms.get(kind, (None, 0))
        if count < LOOKED:
            found = trouble_of_sound(sound, facts)
            self.forms[kind] = (found, count + 1) if not count or found == form else (found, 1)
            return found
        return form

    def reason(self, entry: str, trouble: str, is_missing: bool) -> str:
        """Why an entry is left out."""
        folder = self.folder
        if is_address(entry):
            return ADDRESS
        if is_missing and entry.startswith("annotate:"):
            return ANNOTATED
        if is_missing and self.listed.name.lower().endswith(".pls"):
            return LINE_OF_PLS
        if is_missing and folder and "\0" not in entry and os.path.exists(os.path.join(folder, entry)):
            return f"is not there, but beside the list; names count from the folder of the call, so write {folder}/ before it"
        return trouble

    def coded(self) -> str:
        """How many of the skipped entries are of which other form, and what makes WAV files of them."""
        counts: Dict[str, int] = collections.defaultdict(int)
        for why, entries in self.skipped.items():
            form = CODED.match(why)
            if form:
                counts[form[1]] += len(entries)
        told = ", ".join(counted(count, f"{form} file", f"{form} files") for form, count in counts.items())
        return f" ({told}: see liq prepare)" if told else ""

    def lines(self) -> Iterator[str]:
        """What is told of the list: that it has no entry that is played stops a run, as what cannot be read does."""
        name, lines = shown(self.listed.name), self.listed.skipped
        skipped = sum(map(len, self.skipped.values())) + lines
        ending = sum(map(len, self.ending.values()))
        told = ", ".join([counted(self.played, "entry is", "entries are") + " played" if self.played else NOTHING]
                         + ([counted(skipped, "is", "are") + " skipped" + self.coded()] if skipped else [])
                         + ([counted(ending, "ends", "end") + " a call with status 3"] if ending else []))
        line = f"list {name}: {told}{'' if self.played else SILENCE}"
        yield weighed(line, bool(self.played and not ending)) if skipped or ending or not self.played else line
        for why, entries in self.ending.items():
            yield Finding(f"list {name} cannot be read to its end, at {some_of(entries)}: {why}")
        for why, entries in self.skipped.items():
            yield Told(f"list {name} skips {some_of(entries)}: {why}")
        if lines:
            yield Told(f"list {name} skips {lines_told(self.listed.name, lines)}: no UTF-8; save the list as UTF-8")


def lines_told(name: str, count: int) -> str:
    """So many lines of a list that are no UTF-8: the numbers of the first ones, where these are as many."""
    numbers = numbers_of(name)
    if len(numbers) != count:
        return counted(count, "line", "lines")
    more = f" and {count - SHOWN} more" if count > SHOWN else ""
    return f"line{'s' * (count > 1)} {', '.join(map(str, numbers[:SHOWN]))}{more}"


def numbers_of(name: str) -> "list[int]":
    """The lines of a list that are no UTF-8, counted from 1 on; none where it cannot be read."""
    try:
        with open(name, "rb") as file:
            data = file.read(LONGEST)
    except (OSError, ValueError):
        return []
    lines = enumerate(data.removeprefix(MARK).split(b"\n"), 1)
    return [number for number, line in lines if not line.startswith(b"#") and not is_text(line)]


def is_text(data: bytes) -> bool:
    """Whether bytes are UTF-8."""
    try:
        data.decode()
        return True
    except UnicodeDecodeError:
        return False


def is_address(entry: str) -> bool:
    return "://" in entry and ADDRESSED.match(entry) is not None


def some_of(entries: "list[str]") -> str:
    """The first of some names, each once, and how many more there are."""
    names = list(dict.fromkeys(entries))
    return ", ".join(map(shown, names[:SHOWN])) + (f" and {len(names) - SHOWN} more" if len(names) > SHOWN else "")


def trouble_of_list(listed: Listed, facts: Facts) -> Optional[str]:
    """Why a list cannot be read, or nothing."""
    if listed.state == "read":
        return None
    if listed.state == "missing":
        return absence_of(listed.name)
    if listed.state == "too large":
        return f"has more than {facts.list_most} bytes, and a list may have no more"
    return trouble_of(listed.name) or "could not be read"


def findings_of_lists(facts: Facts) -> Iterator[str]:
    for listed in facts.lists:
        trouble = trouble_of_list(listed, facts)
        if trouble:
            yield Finding(f"list {shown(listed.name)}: {trouble}")
        else:
            yield from Entries(listed, facts).lines()
