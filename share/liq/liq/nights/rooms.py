"""Where the parts of a night are made: a folder of its own beside each output, on the disk of that output."""
import errno
import fcntl
import hashlib
import os
import re
import stat
from typing import Dict, Iterable, List, Optional

from liq.nights.failed import Failed, named
from liq.watching.names import shown

LONGEST = 200          # bytes of a name behind which there is room for more
FRONT = ".night-"
# What a night makes in a room. Nothing else is removed there.
OWN = re.compile(r"(?:[0-9]+-[0-9]+\.wav|[0-9]+(?:-[0-9]+)?\.m3u|part\.liq|page|next|titles\.tsv|moves|(?:old|small)-[0-9]+)"
                 r"(?:\.cue|\.start|\.titles\.tsv)?(?:\.unfinished[0-9]*)?")
PAGE = b"<!DOCTYPE html>\n<html lang=en><head><meta charset=utf-8>"


def room_name(name: str) -> str:
    """How the room of an output is called."""
    data = os.fsencode(name)
    if len(data) <= LONGEST:
        return FRONT + name
    return FRONT + os.fsdecode(data[:LONGEST - 20]) + "-" + hashlib.sha256(data).hexdigest()[:16]


def sync(path: str) -> None:
    """Brings a file or a folder to its disk, but for a disk that does not know how."""
    handle = os.open(path, os.O_RDONLY)
    try:
        with named(path):
            os.fsync(handle)
    except OSError as error:
        if error.errno not in (errno.EINVAL, errno.ENOTSUP):
            raise
    finally:
        os.close(handle)


class Room:
    """A folder .night-NAME in which one night may be at work at a time. It is opened without following a link, and
    belongs to this user."""

    def __init__(self, folder: str, name: str):
        self.folder, self.path = folder, os.path.join(folder, room_name(name))
        self.handle = self.taken(name)

    def opened(self) -> Optional[int]:
        """A handle of the folder, which is made if need be; nothing where another night has just removed it."""
        try:
            os.mkdir(self.path, 0o700)
        except FileExistsError:
            pass
        try:
            return os.open(self.path, os.O_RDONLY | os.O_DIRECTORY | os.O_NOFOLLOW)
        except FileNotFoundError:
            return None
        except OSError as error:
            if error.errno not in (errno.ELOOP, errno.ENOTDIR):
                raise
            raise Failed(f"{shown(self.path)}: is no folder, and a night is made there; move it away", 1) from None

    def taken(self, name: str) -> int:
        """A handle of the folder, by which no other night is at work in it, where its disk knows locks."""
        while True:
            handle = self.opened()
            if handle is None:
                continue
            try:
                self.lock(handle, name)
                if os.path.samestat(os.lstat(self.path), os.fstat(handle)):
                    return handle
            except FileNotFoundError:
                pass                            # the other one has just ended
            except BaseException:
                os.close(handle)
                raise
            os.close(handle)

    def lock(self, handle: int, name: str) -> None:
        """Fails where the folder is another user's, or another night is at work in it."""
        if os.fstat(handle).st_uid != os.geteuid():
            raise Failed(f"{shown(self.path)}: belongs to another user, and a night is made there; move it away", 1)
        try:
            fcntl.flock(handle, fcntl.LOCK_EX | fcntl.LOCK_NB)
        except OSError as error:
            if error.errno in (errno.EWOULDBLOCK, errno.EACCES):
                raise Failed(f"{shown(name)}: another night is at work on it", 4) from None

    def names(self) -> List[str]:
        """The files in it that a night made."""
        return [name for name in os.listdir(self.handle) if OWN.fullmatch(name) and self.is_file(name)]

    def is_file(self, name: str) -> bool:
        """Whether a regular file lies there under a name."""
        try:
            return stat.S_ISREG(os.stat(name, dir_fd=self.handle, follow_symlinks=False).st_mode)
        except FileNotFoundError:
            return False

    def clear(self) -> None:
        """Removes what a night made there."""
        for name in self.names():
            os.unlink(name, dir_fd=self.handle)

    def write(self, name: str, data: bytes) -> str:
        """Writes a file whole, and answers its path."""
        flags = os.O_WRONLY | os.O_CREAT | os.O_TRUNC | os.O_NOFOLLOW
        path = os.path.join(self.path, name)
        with named(path), os.fdopen(os.open(name, flags, 0o666, dir_fd=self.handle), "wb") as file:
            file.write(data)
            file.flush()
            os.fsync(file.fileno())
        return path

    def free(self) -> int:
        """The bytes that its disk has left."""
        there = os.fstatvfs(self.handle)
        return there.f_bavail * there.f_frsize

    @property
    def disk(self) -> int:
        """Which disk it lies on."""
        return os.fstat(self.handle).st_dev

    def end(self) -> None:
        """Clears the folder and removes it. It stays where somebody else put something into it."""
        try:
            self.clear()
            os.rmdir(self.path)
        except OSError:
            pass
        os.close(self.handle)


def folder_of(name: str) -> str:
    """The folder in which the file of a name lies or is to lie, as short as the name tells it."""
    folder, real = os.path.dirname(name), os.path.dirname(os.path.realpath(name))
    return folder if os.path.realpath(folder or ".") == real else real


class Rooms:
    """The rooms of a night: one beside the file of each output, and one in each other folder into which it puts
    something small."""

    def __init__(self, outputs: Iterable[str]):
        self.all: List[Room] = []
        self.of: Dict[str, Room] = {}
        try:
            for name in outputs:
                self.of[name] = self.add(folder_of(name), os.path.basename(os.path.realpath(name)))
                self.beside(name + ".cue", os.path.basename(name))
        except BaseException:
            self.end()
            raise

    def add(self, folder: str, name: str) -> Room:
        self.all.append(Room(folder, name))
        return self.all[-1]

    def beside(self, name: str, called: str) -> Room:
        """The room in the folder of a file; one that is called so where there is none."""
        folder = folder_of(name)
        real = os.path.realpath(folder or ".")
        found = (room for room in self.all if os.path.realpath(room.folder or ".") == real)
        for room in found:
            return room
        return self.add(folder, called)

    @property
    def first(self) -> Room:
        return self.all[0]

    def end(self) -> None:
        for room in self.all:
            room.end()


def lying(name: str) -> str:
    """Where the file of an output lies, as short as its name tells it."""
    return os.path.join(folder_of(name), os.path.basename(os.path.realpath(name)))


def part_names(name: str, count: int) -> List[str]:
    """How the files of an output are called that one file does not hold. They lie where the output's file lies."""
    there = lying(name)
    front = there[:-4] if there.endswith(".wav") else there
    return [f"{front}-{k}.wav" for k in range(1, count + 1)]


def numbered(name: str) -> List[str]:
    """The files beside an output that are called as its parts."""
    folder, last = os.path.split(lying(name))
    front = re.escape(last[:-4] if last.endswith(".wav") else last)
    found = [other for other in os.listdir(folder or ".") if re.fullmatch(front + r"-[1-9][0-9]*\.wav", other)]
    found.sort(key=lambda other: (len(other), other))
    return [os.path.join(folder, other) for other in found]


def examine(outputs: List[str], is_long: bool) -> None:
    """Fails where a file stands under a name that the night takes, and no night made it."""
    page = outputs[0] + ".html"
    if os.path.lexists(page) and not is_page(page):
        raise Failed(f"{shown(page)}: stands where the page is to come, and is none; move it away", 1)
    for name in outputs if is_long else []:
        for other in numbered(name):
            if not os.path.exists(other + ".cue"):
                raise Failed(f"{shown(other)}: stands where a part is to come, and no night made it; move it away", 1)


def is_page(path: str) -> bool:
    """Whether a file begins as a page of liq-page."""
    if not os.path.isfile(path):
        return False
    with open(path, "rb") as file:
        return file.read(len(PAGE)) == PAGE
