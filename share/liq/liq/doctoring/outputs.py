"""What is wrong with the files that a script writes."""
import errno
import os
import stat
from typing import Iterable, Iterator, Optional, Set

from liq.doctoring.findings import Finding, Told, weighed
from liq.doctoring.leftovers import LONGEST, temporary_files_of
from liq.doctoring.paths import first_missing, says
from liq.watching.names import shown

LONGEST_PATH = 4095  # bytes of a path that the system takes
IN_PLACE = "it is written in place, so that a failure leaves the front of it"
READ_LATER = "is a pipe: a run waits until another program reads it"
REPORT = ("/dev/stdout", "/dev/fd/1", "/proc/self/fd/1")
ROOM, FULL = 1 << 30, 1 << 20  # bytes of a disk below which a line tells it, and below which it counts as full


def make_file(folder: str) -> None:
    """Makes an empty file in a folder and removes it. It has a name only where the disk has no files without one, so that
    a run that is killed leaves none."""
    try:
        os.close(os.open(folder, os.O_WRONLY | os.O_TMPFILE, 0o600))
    except OSError as error:
        if error.errno not in (errno.EOPNOTSUPP, errno.EISDIR, errno.ENOENT):
            raise
        path = os.path.join(folder, f".doctor{os.getpid()}")
        os.close(os.open(path, os.O_WRONLY | os.O_CREAT | os.O_EXCL, 0o600))
        os.remove(path)


def trouble_of_folder(folder: str) -> Optional[str]:
    """What is wrong with a folder in which an output is to be made: an empty file is made there and removed."""
    try:
        make_file(folder)
        return None
    except OSError as error:
        if error.errno in (errno.EACCES, errno.EPERM):
            return "in its folder this user may make no files"
        return f"its folder {folder} {says(error)}"


def is_mount(path: str) -> bool:
    """Whether something is mounted at a path."""
    try:
        with open("/proc/self/mountinfo", encoding="utf-8", errors="surrogateescape") as table:
            places = [line.split(" ")[4] for line in table]
    except OSError:
        return False
    return os.path.realpath(path).replace(" ", "\\040") in places


def troubles_of_old_file(path: str, folder: str, old: os.stat_result) -> Iterator[str]:
    """What is wrong with a regular file that an output is to replace."""
    try:
        os.close(os.open(path, os.O_WRONLY))
    except OSError as error:
        yield "may not be written by this user" if error.errno == errno.EACCES else says(error)
        return
    here = os.stat(folder)
    is_sticky = here.st_mode & stat.S_ISVTX and os.geteuid() not in (0, old.st_uid, here.st_uid)
    trouble = trouble_of_folder(folder)
    if trouble and "no files" not in trouble:
        yield trouble
    elif trouble or is_sticky or is_mount(path):
        why = trouble or ("in its folder only owners may replace files" if is_sticky else "it is mounted by itself")
        yield f"{why}; {IN_PLACE}"


def troubles_of_device(name: str) -> Iterator[str]:
    """What is wrong with a device that is written. It is opened without waiting, and nothing is written."""
    try:
        os.close(os.open(name, os.O_WRONLY | os.O_NONBLOCK | os.O_NOCTTY))
    except OSError as error:
        yield "has nothing behind it: there is no terminal, or no such device" if error.errno == errno.ENXIO else says(error)


def trouble_of_length(name: str) -> Optional[str]:
    """What is wrong with the length of a name that is written beside, or nothing."""
    path = os.path.realpath(name) if os.path.islink(name) else name
    folder, last = os.path.split(path)
    front = path if len(os.fsencode(last)) <= LONGEST else os.path.join(folder, "liq")
    if len(os.fsencode(front)) + len(".unfinished") <= LONGEST_PATH:
        return None
    kept = IN_PLACE if os.path.isfile(name) else "so it cannot be made"
    size = len(os.fsencode(path))
    return f"has a path of {size} bytes, and its temporary file would have more than {LONGEST_PATH}; {kept}"


def troubles_of_output(name: str) -> Iterator[str]:
    """What is wrong with a file that is written."""
    try:
        old = os.stat(name)
    except FileNotFoundError:
        old = None
    except (OSError, ValueError) as error:
        yield says(error) if isinstance(error, OSError) else "has a name that no file can have"
        return
    path = os.path.realpath(name)
    folder = os.path.dirname(path)
    too_long = trouble_of_length(name) if old is None or stat.S_ISREG(old.st_mode) else None
    if too_long:
        yield too_long
        return
    missing = first_missing(name) if old is None else None
    if missing:
        yield f"cannot be made: there is no folder {shown(missing)}"
    elif name.endswith("/") or name == "" or old and stat.S_ISDIR(old.st_mode):
        yield "is a folder"
    elif old is None:
        trouble = trouble_of_folder(folder)
        if trouble:
            yield trouble
        elif len(os.fsencode(os.path.basename(path))) > 255:
            yield "has a name that is too long for the system"
    elif stat.S_ISREG(old.st_mode):
        yield from troubles_of_old_file(path, folder, old)
    elif os.path.samestat(old, os.stat("/dev/full")):
        yield "is a device that is always full"
    elif stat.S_ISFIFO(old.st_mode):
        yield READ_LATER
    elif not os.access(name, os.W_OK):
        yield "may not be written by this user"
    else:
        yield from troubles_of_device(name)


def is_plain(place: str) -> bool:
    """Whether an output is, or is to be, a regular file."""
    return not os.path.exists(place) or os.path.isfile(place)


def trouble_of_room(folder: str) -> Optional[Finding]:
    """What is wrong with the room on the disk of a folder, or nothing."""
    if not os.path.isdir(folder):
        return None
    free = os.statvfs(folder).f_bavail * os.statvfs(folder).f_frsize
    if free >= ROOM:
        return None
    text = f"folder {shown(folder)}: its disk has {free >> 20} MB free; an hour of an output in stereo takes 635 MB, of 24 bits 953 MB"
    return weighed(text, free >= FULL)


def findings_of_names(names: Iterable[str], places: "dict[str, str]") -> Iterator[str]:
    """What is told of each output, and notes its place."""
    for name in names:
        if name in REPORT:
            yield f"output {name}: stands for where the report goes: a pipe or a terminal gets both, and a regular file is refused with status 4"
            continue
        for trouble in troubles_of_output(name):
            yield weighed(f"output {shown(name)}: {trouble}", trouble == READ_LATER or trouble.endswith(IN_PLACE))
        if "\0" in name:
            continue
        place = os.path.realpath(name)
        if place in places:
            yield Finding(f"outputs {shown(places[place])} and {shown(name)}: are one file, so the second cannot be made")
        places.setdefault(place, name)


def findings_of_outputs(names: Iterable[str], inputs: Set[str]) -> Iterator[str]:
    """What is told of the files that are written; `inputs` are the paths of those that are read."""
    places: "dict[str, str]" = {}
    yield from findings_of_names(names, places)
    for place in places:
        if place in inputs:
            yield Told(f"output {shown(places[place])}: is a file that the call reads, and replaces")
    for place in filter(is_plain, places):
        for path, text in temporary_files_of(place, inputs | set(places)):
            yield Told(f"temporary file {shown(path)}: {text}")
    yield from filter(None, map(trouble_of_room, sorted({os.path.dirname(place) for place in filter(is_plain, places)})))
