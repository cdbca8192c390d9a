"""Which sounds are to be made: those below a folder, or those that a list names. Each is known by a relative path."""
import os
import stat
from typing import Dict, List, NamedTuple, Optional, Set, Tuple

from liq.preparing import names
from liq.preparing.entries import entries_of
from liq.watching.names import shown


Source = Tuple[str, str]               # the relative path by which a sound is known, and its path


class Below:
    """The sounds below a folder, and what else lies there.

    A link to a folder is followed where that lies elsewhere, and once; what lies below the folder is found there
    anyway, so one that leads back is passed over.
    """

    def __init__(self, folder: str, out: str):
        self.folder, self.others = folder, 0
        self.found: List[Source] = []
        self.told: List[str] = []
        self.unread: List[str] = []                                    # folders that could not be read
        self.own = os.path.realpath(out)
        self.tops = [os.path.realpath(folder)]
        self.walk(folder)

    def walk(self, top: str) -> None:
        """Goes through a folder and all below it, in the order of the names."""
        links: List[str] = []
        for base, folders, files in os.walk(top, onerror=self.cannot):
            folders[:] = sorted(name for name in folders if self.is_wanted(os.path.join(base, name), name))
            links += [os.path.join(base, name) for name in folders if os.path.islink(os.path.join(base, name))]
            for name in sorted(files):
                path = os.path.join(base, name)
                if names.is_sound(name) and not name.startswith("."):
                    self.found.append((os.path.relpath(path, self.folder), path))
                else:
                    self.others += 1
        for link in links:
            self.follow(link)

    def is_wanted(self, path: str, name: str) -> bool:
        return not name.startswith(".") and os.path.realpath(path) != self.own

    def follow(self, link: str) -> None:
        """Goes through the folder that a link leads to."""
        real = os.path.realpath(link)
        if any(f"{real}/".startswith(f"{top}/") or f"{top}/".startswith(f"{real}/") for top in self.tops):
            return
        if f"{self.own}/".startswith(f"{real}/"):
            self.tell(link, "what is made would lie in it")
            return
        self.tops.append(real)
        self.walk(link)

    def cannot(self, error: OSError) -> None:
        """Notes a folder that cannot be read; the first one ends the run."""
        if error.filename == self.folder:
            raise error
        self.unread.append(os.path.relpath(error.filename, self.folder))
        self.tell(error.filename, error.strerror)

    def is_unread(self, source: str) -> bool:
        """Whether a source lies below a folder that could not be read."""
        return any(source.startswith(folder + "/") for folder in self.unread)

    def tell(self, path: str, why: Optional[str]) -> None:
        self.told.append(f"{shown(os.path.relpath(path, self.folder))}: left out: {why}")


class Named(NamedTuple):
    """The sounds that a list names, the texts that stand there before them, and lines on what is passed over."""
    found: List[Source]
    texts: Dict[str, Dict[str, str]]
    told: List[str]


def of_list(name: str) -> Named:
    """The sounds that a list names; an entry counts from the folder of the call, or else from that of the list. Lines
    of one file are one source."""
    with open(name, "rb") as file:
        entries = entries_of(file.read())
    folder, found = os.path.dirname(name), []
    of_line: Dict[str, Source] = {}
    known: Dict[object, Source] = {}
    used: Set[str] = set()
    numbers: Dict[str, int] = {}
    texts: Dict[str, Dict[str, str]] = {}
    others: Dict[str, None] = {}
    for entry in entries:
        line = entry.name
        if line not in of_line:
            path, key = place_of(line, folder)
            if key not in known:
                known[key] = free(short(line), used, numbers), path
            of_line[line] = known[key]
        found.append(of_line[line])
        if entry.texts:
            texts.setdefault(of_line[line][0], entry.texts)
        others.update(dict.fromkeys(entry.others))
    told = [f"{shown(name)}: what annotate: says is passed over, but for titles: {', '.join(map(shown, others))}"] if others else []
    return Named(found, texts, told)


def place_of(line: str, folder: str) -> Tuple[str, object]:
    """Where a line of a list leads to, and what tells that another line leads there too."""
    for path in (line, os.path.join(folder, line)):
        try:
            there = os.stat(path)
            return path, (there.st_dev, there.st_ino)
        except (OSError, ValueError):
            continue
    return line, line


def short(line: str) -> str:
    """A line as a relative path; an address stays as it is."""
    return line if "://" in line else "/".join(part for part in line.split("/") if part not in ("", ".", "..")) or "_"


def free(wanted: str, used: Set[str], numbers: Dict[str, int]) -> str:
    """A name that no other source has: the one that is wanted, or with a number before it."""
    name = wanted
    while name in used:
        numbers[wanted] = numbers.get(wanted, 1) + 1
        name = f"{numbers[wanted]}/{wanted}"
    used.add(name)
    return name


def trouble_of(path: str) -> Optional[str]:
    """Why a file cannot be a source, or nothing. One that is no regular file is not opened, since that may wait."""
    try:
        return None if stat.S_ISREG(os.stat(path).st_mode) else "is no regular file"
    except OSError as error:
        is_address = "://" in path and not path.startswith(("/", "."))
        return "an address, and nothing is fetched" if is_address else error.strerror
    except ValueError:
        return "is a name that no file can have"
