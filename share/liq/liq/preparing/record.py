"""What was made before, so that only what changed is made again, and nothing is replaced that somebody else made.

The file has a value of JSON in each line, and a later line counts for more: ["made", name, state] for a file that is
put at a name, written before it stands there, and ["source", name, what was made of it]. So whatever breaks a run
off, the next one knows what is its own. A record may come from elsewhere: names lead nowhere but below the folder.
"""
import errno
import json
import os
import stat
from typing import Any, Dict, List, Optional, Tuple

from liq.preparing import disk, waves
from liq.preparing.sounds import TAGS, state_of

NAME = "prepared.json"
ROOM = ".prepare"      # the folder below OUT in which sounds are made
FORM = ["form", 2]
TEXTS = (*TAGS, "remark")


class Foreign(Exception):
    """A record that is none."""


def line_of(told: List[Any]) -> bytes:
    """A line of the record."""
    return json.dumps(told).encode() + b"\n"


def is_text(value: object) -> bool:
    """Whether a value is a text of UTF-8."""
    return isinstance(value, str) and not any(0xD800 <= ord(c) < 0xE000 for c in value)


def is_path(value: object) -> bool:
    """Whether a value is a path that a file can have."""
    try:
        return isinstance(value, str) and b"\0" not in os.fsencode(value)
    except UnicodeEncodeError:
        return False


def is_name(value: object) -> bool:
    """Whether a value is the name of a file below the folder: relative and normal, without `..`."""
    if not isinstance(value, str) or not is_path(value) or not value or value.startswith("/") or os.path.normpath(value) != value:
        return False
    parts = value.split("/")
    return ".." not in parts and parts[0] not in (".", ROOM, NAME, NAME + ".part")


def is_state(value: object) -> bool:
    return isinstance(value, list) and len(value) == 2 and all(type(number) is int for number in value)


def is_source(told: object) -> bool:
    """Whether a value tells what was made of a source."""
    if not isinstance(told, dict) or not is_state(told.get("state")):
        return False
    parts, loudness = told.get("parts"), told.get("loudness")
    return (type(told.get("rate")) is int and told["rate"] > 0 and told.get("sides") in (1, 2)
            and isinstance(parts, list) and bool(parts) and all(map(is_name, parts))
            and (loudness is None or isinstance(loudness, (int, float))) and isinstance(told.get("whole", False), bool)
            and all(is_text(told.get(name, "")) for name in TEXTS))


class Record:
    """The record of a folder: of each source what was made of it, of each file that was made its state."""

    def __init__(self, out: str, form: waves.Form):
        self.path, self.out, self.form = os.path.join(out, NAME), out, form
        self.sources: Dict[str, Dict[str, Any]] = {}
        self.made: Dict[str, List[int]] = {}
        self.before: Dict[str, List[int]] = {}             # of a file that may not have been replaced yet
        handle = os.open(self.path, os.O_RDWR | os.O_CREAT | os.O_APPEND | os.O_NOFOLLOW | os.O_NONBLOCK, 0o666)
        self.file = open(handle, "ab+", buffering=0)
        try:
            self.take()
        except BaseException:
            self.file.close()
            raise

    def take(self) -> None:
        """Reads the file; a line that broke off is cut."""
        if not stat.S_ISREG(os.fstat(self.file.fileno()).st_mode):
            raise Foreign
        self.file.seek(0)
        data, first = self.file.read(), line_of(FORM)
        if not data.startswith(first[:len(data)]):
            raise Foreign
        whole = data[:data.rfind(b"\n") + 1]
        for line in whole[len(first):].split(b"\n")[:-1]:
            self.read(line)
        self.file.truncate(len(whole))
        if not whole:
            self.note(FORM)

    def read(self, line: bytes) -> None:
        """Takes a line."""
        try:
            told = json.loads(line)
        except (ValueError, RecursionError):
            raise Foreign from None
        if not isinstance(told, list) or len(told) != 3:
            raise Foreign
        if told[0] == "made" and is_name(told[1]) and is_state(told[2]):
            self.expect(told[1], told[2])
        elif told[0] == "source" and is_path(told[1]) and is_source(told[2]):
            self.sources[told[1]] = told[2]
        else:
            raise Foreign

    def expect(self, name: str, state: List[int]) -> None:
        """Takes the state of a file that is to be put at a name; up to that the one before it may stand there."""
        if self.made.get(name, state) != state:
            self.before[name] = self.made[name]
        self.made[name] = state

    def note(self, *told: List[Any]) -> None:
        """Adds lines, all or none."""
        data, before = b"".join(map(line_of, told)), self.file.seek(0, os.SEEK_END)
        if self.file.write(data) != len(data):
            self.file.truncate(before)
            raise OSError(errno.ENOSPC, os.strerror(errno.ENOSPC), self.out)

    def at(self, name: str) -> str:
        return os.path.join(self.out, name)

    def state(self, name: str) -> Optional[List[int]]:
        """The state of a file below the folder; nothing where none is there. A look that fails in another way says nothing
        of the file, so it is the caller's."""
        try:
            return state_of(self.at(name))
        except (FileNotFoundError, NotADirectoryError):
            return None

    def is_gone(self, name: str) -> bool:
        """Whether no file is there, as far as the system lets one look."""
        try:
            return self.state(name) is None
        except OSError:
            return False

    def size(self, name: str) -> int:
        """The bytes of a file below the folder; where the system lets nobody look, those that it had."""
        try:
            return os.path.getsize(self.at(name))
        except OSError:
            return self.made.get(name, [0])[0]

    def has_source(self, name: str) -> bool:
        """Whether a file was made of a source that is still known."""
        return any(name in told["parts"] for told in self.sources.values())

    def is_made(self, name: str) -> bool:
        """Whether a file below the folder is the one that was made last."""
        state = self.state(name)
        return state is not None and state == self.made.get(name)

    def is_own(self, name: str) -> bool:
        """Whether a file below the folder is as it was made, last or before that."""
        state = self.state(name)
        return state is not None and state in (self.made.get(name), self.before.get(name))

    def is_cut(self, name: str) -> bool:
        """Whether a file below the folder is the front of one that was made, as a power cut leaves it."""
        try:
            there = os.lstat(self.at(name))
        except OSError:
            return False
        if name not in self.made or not stat.S_ISREG(there.st_mode) or there.st_size >= self.made[name][0]:
            return False
        if not there.st_size:
            return True
        with open(self.at(name), "rb") as file:
            head = file.read(waves.HEADER)
        return b"RIFF".startswith(head[:4]) and waves.frames_in(self.at(name)) is None

    def is_free(self, name: str) -> bool:
        """Whether a file may be put at a name."""
        return self.is_own(name) or self.is_cut(name) or not os.path.lexists(self.at(name))

    def kept(self, source: str, path: str) -> Optional[Dict[str, Any]]:
        """What was made of a source that is the same as before, in this form; else nothing."""
        told, form = self.sources.get(source), self.form
        if not told or told["state"] != state_of(path):
            return None
        before = waves.Form(told["rate"], told.get("loudness"), told.get("whole", False), form.most)
        return told if before == form else None

    def put(self, pairs: List[Tuple[str, str]], *sources: Tuple[str, Dict[str, Any]]) -> None:
        """Puts files at names that are free, pairs of name and path, and notes of which sources. They, their lines and
        their names are brought to the disk."""
        for name, path in pairs:
            os.makedirs(os.path.dirname(self.at(name)), exist_ok=True)
            disk.synced(path)
        old = [self.is_own(name) or self.is_cut(name) for name, _ in pairs]
        for name, path in pairs:
            self.expect(name, state_of(path))
        self.sources.update(sources)
        self.note(*(["made", name, self.made[name]] for name, _ in pairs), *(["source", *source] for source in sources))
        os.fsync(self.file.fileno())
        for (name, path), is_old in zip(pairs, old):
            if is_old:
                os.replace(path, self.at(name))
            else:
                place_newly(path, self.at(name))
            self.before.pop(name, None)
        for folder in {os.path.dirname(self.at(name)) for name, _ in pairs}:
            disk.synced(folder)

    def remove(self, name: str) -> bool:
        """Removes a file that is as it was made; whether it was."""
        if not self.is_own(name):
            return False
        os.remove(self.at(name))
        self.made.pop(name)
        self.before.pop(name, None)
        return True

    def close(self) -> None:
        """Writes each line once, where there is room for it."""
        self.file.close()
        part = self.path + ".part"
        lines = [FORM] + [["made", *item] for item in [*self.before.items(), *self.made.items()]]
        lines += [["source", *item] for item in self.sources.items()]
        try:
            disk.write(part, map(line_of, lines))
            disk.replace(part, self.path)
        except OSError:                                     # the lines as they were noted say the same
            if os.path.lexists(part):
                os.remove(part)


def place_newly(path: str, target: str) -> None:
    """Puts a file where nothing stands; it fails where something has come there meanwhile."""
    try:
        os.link(path, target)
        os.remove(path)
    except OSError as error:
        if error.errno not in (errno.EPERM, errno.ENOTSUP, errno.EMLINK, errno.ENOSYS):
            raise
        os.close(os.open(target, os.O_WRONLY | os.O_CREAT | os.O_EXCL))      # a disk without links
        os.replace(path, target)
