"""The folder of a cache: which WAV files lie there, which are in use, and which goes first when room is needed.

index.json has a value of JSON in each line, and a later line counts for more: ["sound", key, what ffprobe told],
["made", key, sizes and times of the files, seconds, a remark], ["used", turn, keys] and ["gone", key]. A file counts only once
its line is there. Each run has a folder run-*, with the file `uses`, which it locks while it lives: the keys of what
it uses. What a killed run left is removed by the next one.
"""
import contextlib
import errno
import fcntl
import json
import os
import re
import shutil
import stat
import tempfile
import threading
from typing import Any, Dict, Iterable, Iterator, List, Optional, Set

from liq.preparing import disk, waves

INDEX, LOCK, RUN, USES = "index.json", "lock", "run-", "uses"
FORM = b'["form", 1]\n'
NAME = re.compile(r"[0-9a-f]{32}-[0-9A-Za-z.-]{1,40}\.wav")
SPARE = 1 << 24        # bytes of a disk that are left free
MOST = 100000          # sounds of which the index remembers what ffprobe told


class Foreign(Exception):
    """A folder that is no cache."""


def names_of(key: str, count: int) -> List[str]:
    """How the files of a sound are called."""
    return [f"{key}.wav"] if count == 1 else [f"{key}.{k + 1}.wav" for k in range(count)]


class Entry:
    """What was made of a sound: of each file its size and time, how long all last, when it was used, and a remark on its
    source or nothing."""

    def __init__(self, states: List[List[int]], seconds: float, turn: int, remark: str = ""):
        self.states, self.seconds, self.turn, self.remark = states, seconds, turn, remark
        self.size = sum(size for size, _ in states)


class Shelf:
    """The folder of a cache."""

    def __init__(self, path: str):
        self.path, self.guard = path, threading.RLock()
        self.sounds: Dict[str, Dict[str, Any]] = {}
        self.made: Dict[str, Entry] = {}
        self.turn, self.lines, self.seen = 0, 0, (-1, -1)
        self.busy: Dict[str, int] = {}         # bytes that are reckoned for what is being made here
        self.used: Set[str] = set()
        self.examine()
        self.lock = os.open(self.at(LOCK), os.O_RDWR | os.O_CREAT | os.O_NOFOLLOW, 0o666)
        with self.locked():
            self.clear()
            self.run = tempfile.mkdtemp(prefix=RUN, dir=path)
            os.chmod(self.run, 0o755)
            self.handle = os.open(os.path.join(self.run, USES), os.O_RDWR | os.O_CREAT, 0o666)
            fcntl.flock(self.handle, fcntl.LOCK_EX)
            self.turn += 1

    def at(self, name: str) -> str:
        return os.path.join(self.path, name)

    def examine(self) -> None:
        """Makes the folder, or fails where it holds anything else."""
        os.makedirs(self.path, exist_ok=True)
        others = [name for name in os.listdir(self.path) if name != LOCK and not name.startswith(RUN)]
        if others and not os.path.isfile(self.at(INDEX)):
            raise Foreign
        if os.path.lexists(self.at(INDEX)) and not stat.S_ISREG(os.lstat(self.at(INDEX)).st_mode):
            raise Foreign

    @contextlib.contextmanager
    def locked(self) -> Iterator[None]:
        """Lets no other run, and no other thread of this one, look or change meanwhile; the index is read before."""
        with self.guard:
            fcntl.flock(self.lock, fcntl.LOCK_EX)
            try:
                self.read()
                yield
            finally:
                fcntl.flock(self.lock, fcntl.LOCK_UN)

    def read(self) -> None:
        """Reads the index, where it is another than before; a line that broke off is cut."""
        with open(self.at(INDEX), "ab+") as file:
            there = os.fstat(file.fileno())
            if (there.st_ino, there.st_size) == self.seen:
                return
            file.seek(0)
            data = file.read()
            if not data.startswith(FORM):
                if data and not FORM.startswith(data):
                    self.set_aside()
                    return self.read()
                data = FORM
                file.truncate(0)
                file.write(data)
            whole = data[:data.rfind(b"\n") + 1]
            file.truncate(len(whole))
            file.flush()
            self.seen = there.st_ino, len(whole)
        lines = whole.split(b"\n")[1:-1]
        self.sounds, self.made, self.lines = {}, {}, len(lines)
        for line in lines:
            self.take(line)

    def set_aside(self) -> None:
        """Keeps an index that is none under another name, so that a new one begins. `Foreign` where the folder holds what
        is none of a cache."""
        if not all(NAME.fullmatch(name) or name == LOCK or name.startswith((RUN, INDEX)) for name in os.listdir(self.path)):
            raise Foreign
        os.replace(self.at(INDEX), self.at(INDEX + ".broken"))

    def take(self, line: bytes) -> None:
        """Takes a line; one that is none is passed over, since what it tells can be made again."""
        try:
            told = json.loads(line)
            if told[0] == "sound":
                self.sounds[str(told[1])] = {**told[2], "seconds": float(told[2]["seconds"]), "sides": int(told[2]["sides"])}
            elif told[0] == "made":
                states = [[int(size), int(time)] for size, time in told[2]]
                self.made[str(told[1])] = Entry(states, float(told[3]), self.turn, str(told[4]) if len(told) > 4 else "")
            elif told[0] == "used":
                self.turn = max(self.turn, int(told[1]))
                for key in told[2]:
                    if key in self.made:
                        self.made[key].turn = int(told[1])
            elif told[0] == "gone":
                self.made.pop(told[1], None)
        except (ValueError, TypeError, LookupError, AttributeError, RecursionError):
            return

    def note(self, *told: List[Any]) -> None:
        """Adds lines to the index, whole or not at all."""
        data = b"".join(json.dumps(one).encode() + b"\n" for one in told)
        with open(self.at(INDEX), "ab", buffering=0) as file:
            before = file.seek(0, os.SEEK_END)
            if file.write(data) != len(data):
                file.truncate(before)
                raise OSError(errno.ENOSPC, os.strerror(errno.ENOSPC), self.path)
            self.seen = os.fstat(file.fileno()).st_ino, before + len(data)
        self.lines += len(told)
        for one in data.split(b"\n")[:-1]:
            self.take(one)

    def clear(self) -> None:
        """Removes what killed runs left: their folders, and files without a line."""
        for name in self.runs():
            if self.uses_of(name) is None:
                shutil.rmtree(self.at(name), ignore_errors=True)
        known = {name for key, entry in self.made.items() for name in names_of(key, len(entry.states))}
        for name in os.listdir(self.path):
            if NAME.fullmatch(name) and name not in known:
                self.remove(name)

    def remove(self, name: str) -> None:
        with contextlib.suppress(FileNotFoundError):
            os.remove(self.at(name))

    def runs(self) -> List[str]:
        """The folders of runs."""
        return [name for name in os.listdir(self.path) if name.startswith(RUN) and os.path.isdir(self.at(name))]

    def uses_of(self, run: str) -> Optional[Set[str]]:
        """The keys that a run uses; nothing where it is over."""
        try:
            handle = os.open(os.path.join(self.at(run), USES), os.O_RDONLY)
        except OSError:
            return None
        try:
            fcntl.flock(handle, fcntl.LOCK_EX | fcntl.LOCK_NB)
            return None
        except BlockingIOError:
            with open(handle, encoding="ascii", closefd=False) as file:
                return set(file.read().split())
        finally:
            os.close(handle)

    def is_whole(self, key: str) -> bool:
        """Whether the files of a sound stand there as they were made."""
        states = self.made[key].states
        try:
            return all([there.st_size, there.st_mtime_ns] == state and waves.frames_in(self.at(name)) is not None
                       for name, state in zip(names_of(key, len(states)), states)
                       for there in [os.stat(self.at(name))])
        except OSError:
            return False

    def claim(self, keys: Iterable[str]) -> Set[str]:
        """Those of these that are there, which are in use from now on. What was cut or changed is removed."""
        there = set()
        for key in set(keys):
            if key in self.made and not self.is_whole(key):
                self.throw(key)
            if key in self.made:
                there.add(key)
        self.use(self.used | there)
        if there:
            self.note(["used", self.turn, sorted(there)])
        return there

    def use(self, keys: Set[str]) -> None:
        """Tells other runs what is in use."""
        self.used = set(keys)
        data = "".join(key + "\n" for key in sorted(keys)).encode()
        os.ftruncate(self.handle, 0)
        if os.pwrite(self.handle, data, 0) != len(data):
            raise OSError(errno.ENOSPC, os.strerror(errno.ENOSPC), self.path)

    def throw(self, key: str) -> None:
        """Removes what was made of a sound."""
        for name in names_of(key, len(self.made[key].states)):
            self.remove(name)
        self.note(["gone", key])

    def held(self) -> Set[str]:
        """The keys that any run uses."""
        return self.used | self.held_by_others()

    def size(self) -> int:
        """The bytes of what is there, and of what is being made."""
        return sum(entry.size for entry in self.made.values()) + sum(self.busy.values()) + self.begun_by_others()

    def begun_by_others(self) -> int:
        """The bytes of what other runs are making."""
        return sum(size_of(os.path.join(folder, name)) for run in self.runs() if self.at(run) != self.run
                   for folder, _, names in os.walk(self.at(run)) for name in names)

    def held_by_others(self) -> Set[str]:
        """The keys that other runs use."""
        others = [self.uses_of(name) for name in self.runs() if self.at(name) != self.run]
        return set().union(*(uses for uses in others if uses))

    def room(self, limit: int, keys: Set[str]) -> int:
        """The bytes that this run may have beside what others use, but for these keys."""
        others = self.held_by_others()
        idle = sum(entry.size for key, entry in self.made.items() if key not in others)
        there = os.statvfs(self.path)
        held = sum(self.made[key].size for key in others - keys if key in self.made) + self.begun_by_others()
        return min(limit - held, there.f_bavail * there.f_frsize - SPARE + idle)

    def has_room(self, need: int, limit: int) -> bool:
        """Makes room for so many bytes: the oldest goes first, and never what is in use. Whether there is room then."""
        there = os.statvfs(self.path)
        free = there.f_bavail * there.f_frsize - sum(self.busy.values()) - SPARE
        over = max(self.size() + need - limit, need - free)
        if over <= 0:
            return True
        held = self.held()
        idle = [key for key in self.made if key not in held]
        if sum(self.made[key].size for key in idle) < over:
            return False
        for key in sorted(idle, key=lambda key: self.made[key].turn):
            if over <= 0:
                break
            over -= self.made[key].size
            self.throw(key)
        return True

    def put(self, key: str, parts: List[str], seconds: float, remark: str = "") -> None:
        """Puts what was made of a sound at its names; it is in use then."""
        names, states = names_of(key, len(parts)), []
        for part, name in zip(parts, names):
            there = os.stat(part)
            states.append([there.st_size, there.st_mtime_ns])
            os.replace(part, self.at(name))
        disk.synced(self.path)
        self.use(self.used | {key})
        self.note(["made", key, states, seconds, remark], ["used", self.turn, [key]])

    def end(self) -> None:
        """Uses nothing any more, and writes each line of the index once where there are many."""
        with self.locked():
            shutil.rmtree(self.run, ignore_errors=True)
            if self.lines > 2 * (len(self.sounds) + 2 * len(self.made)) + 100 or len(self.sounds) > MOST:
                self.compact()
        os.close(self.handle)
        os.close(self.lock)

    def compact(self) -> None:
        """Writes the index anew, each line once, where there is room for it."""
        lines: List[List[Any]] = [["sound", key, told] for key, told in list(self.sounds.items())[-MOST:]]
        for key, entry in self.made.items():
            lines += [["made", key, entry.states, entry.seconds, entry.remark], ["used", entry.turn, [key]]]
        path = self.at(INDEX + ".part")
        try:
            disk.write(path, [FORM, *(json.dumps(line).encode() + b"\n" for line in lines)])
            disk.replace(path, self.at(INDEX))
        except OSError:
            self.remove(INDEX + ".part")


def size_of(path: str) -> int:
    """The bytes of a file; none where it has just gone."""
    try:
        return os.lstat(path).st_size
    except FileNotFoundError:
        return 0
