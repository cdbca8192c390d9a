"""One run: what is there already, what is made, several at once, and what is told of it."""
import collections
import concurrent.futures
import contextlib
import errno
import fcntl
import os
import re
import shutil
from typing import Any, Callable, Deque, Dict, List, Optional, Set, Tuple, Union

from liq.failed import Failed
from liq.preparing import lists, names, sounds, sources, waves
from liq.preparing.lists import Size
from liq.preparing.programs import Broken, Programs
from liq.preparing.progress import Progress
from liq.preparing.record import NAME, ROOM, Foreign, Record
from liq.preparing.sources import Source
from liq.reading.companion import Companion
from liq.reading.facts import Facts
from liq.reading.heads import heads_of
from liq.watching.names import shown

AHEAD = 2              # so many sounds for each job are begun before the first one is put in its place


Found = List[Source]                   # the sounds that are there
Running = Deque[Tuple[int, str, "concurrent.futures.Future[Any]"]]
Made = Union[Tuple[sounds.Told, waves.Made, List[int]], Broken, Optional[str]]      # what was made of a sound, or why not


class Taken:
    """The names that are no more free for a source which had some before."""

    def __init__(self, taken: Set[str], record: Record, own: Set[str]):
        self.taken, self.record, self.own = taken, record, own

    def __contains__(self, name: object) -> bool:
        name = str(name)
        if name in self.taken:
            return True
        others = name in self.record.made and name not in self.own and self.record.has_source(name)
        return others or not self.record.is_free(name)


class Work:
    """The making of sounds below a folder, in which one run may be at work at a time."""

    def __init__(self, out: str, form: waves.Form, programs: Programs, companion: Companion):
        self.out, self.form, self.programs, self.companion = out, form, programs, companion
        self.made, self.kept, self.left = 0, 0, 0
        self.told: List[str] = []                           # of sounds that are left out or damaged, and of what was changed
        self.written: List[str] = []
        self.texts: Dict[str, Dict[str, str]] = {}          # of sources the texts that a list has before their names
        self.unseen: Set[str] = set()                       # sources below folders that could not be read
        self.is_unread: Callable[[str], bool] = lambda source: False
        self.lock = locked(out)
        try:
            self.record = Record(out, form)
        except Foreign:
            path = shown(os.path.join(out, NAME))
            raise Failed(f"{path}: is no record of prepare; name a new folder", 4) from None
        self.room = os.path.join(out, ROOM)
        shutil.rmtree(self.room, ignore_errors=True)        # what a run that was killed left
        os.mkdir(self.room)

    def end(self) -> None:
        """Ends what is still running, and clears the folder."""
        self.programs.end()
        shutil.rmtree(self.room, ignore_errors=True)
        self.record.close()
        os.close(self.lock)

    def tell(self, source: str, text: object) -> None:
        self.told.append(f"{shown(source)}: {shown(str(text))}")

    def make(self, number: int, path: str, fine: str) -> Made:
        """Makes the files of a sound in a folder of its own: the sound, what was made, and the state of the file; or why
        not."""
        place = os.path.join(self.room, str(number))
        os.mkdir(place)
        try:
            return waves.made_of(self.programs, path, self.form, fine, place)
        except Broken as error:
            return error
        except FileNotFoundError as error:                  # it has just gone
            if error.filename == path:
                return error.strerror
            raise

    def names_for(self, source: str, taken: Set[str], count: int) -> List[str]:
        """The names of the parts of a source: those that it had before, or new ones."""
        old = self.record.sources.get(source, {}).get("parts", [])
        wanted = re.sub(r"( part \d+)?\.wav$", ".wav", old[0]) if old else names.new_path(source)
        ending = names.plain(os.path.splitext(source)[1])
        front = wanted.removesuffix(".wav")
        one = [wanted] if count == 1 else [f"{front} part {k + 1:02}.wav" for k in range(count)]
        return [names.free(name, Taken(taken, self.record, set(old)), ending) for name in one]

    def found_names(self, source: str, taken: Set[str], count: int) -> List[str]:
        """The names of the parts of a source; none where a look at what stands there fails, which is told."""
        try:
            return self.names_for(source, taken, count)
        except OSError as error:
            self.leave_out(source, error.strerror)
            return []

    def finish(self, number: int, source: str, result: Made, taken: Set[str]) -> None:
        """Puts what was made of a source at its names."""
        if not isinstance(result, tuple):
            self.leave_out(source, result)
        elif new := self.found_names(source, taken, len(result[1].parts)):
            sound, made, state = result
            taken.update(new)
            form = {"rate": self.form.rate, "loudness": self.form.loudness, "whole": self.form.whole}
            told = {"state": state, **form, "sides": sound.sides, "parts": new, **sound.texts(), "remark": made.remark,
                    "estimate": sound.is_estimate}
            self.record.put(list(zip(new, made.parts)), (source, told))
            self.made += 1
        shutil.rmtree(os.path.join(self.room, str(number)), ignore_errors=True)

    def leave_out(self, source: str, why: object) -> None:
        """Tells why nothing is made of a source; what was made before is played as long as it is whole."""
        self.tell(source, f"left out: {why}")
        parts = self.record.sources.get(source, {}).get("parts", [])
        if any(self.record.is_cut(part) or self.record.is_gone(part) for part in parts):
            del self.record.sources[source]

    def is_kept(self, source: str, told: Dict[str, Any]) -> bool:
        """Whether all that was made of a source is there. What was cut is made again, and so is what is gone; what
        somebody changed stays, and is told."""
        changed = [part for part in told["parts"] if not self.record.is_made(part)]
        for part in changed:
            path = self.record.at(part)
            if self.record.is_own(part) or not os.path.lexists(path):
                return False
            if self.record.is_cut(part):
                self.tell(path, "was cut; it is made again")
                return False
            if not self.is_sound(path):
                self.tell(path, "changed by somebody, and no sound: left as it is, and made again under another name")
                return False
        for part in changed:
            self.tell(self.record.at(part), "changed by somebody: left as it is")
        return True

    def look(self, found: Found) -> Tuple[Found, Set[str]]:
        """The sources that are to be made, and the names that the others have."""
        todo: Found = []
        taken: Set[str] = set()
        for source, path in dict(found).items():
            if source in self.unseen:
                taken.update(self.record.sources[source]["parts"])
                continue
            trouble = sources.trouble_of(path)
            if trouble:
                self.leave_out(source, trouble)
                continue
            try:
                kept = self.record.kept(source, path)
                is_kept = kept and self.is_kept(source, kept)
            except OSError as error:
                self.leave_out(source, error.strerror)
                continue
            if kept and is_kept:
                self.mend_remark(source, path, kept)
                self.kept += 1
                taken.update(kept["parts"])
            else:
                todo.append((source, path))
        return todo, taken

    def mend_remark(self, source: str, path: str, told: Dict[str, Any]) -> None:
        """Takes back what an earlier version told of a whole file: that it is damaged, by a length that was an estimate."""
        if not told.get("remark") or "estimate" in told:
            return
        try:
            is_estimate = sounds.looked_at(self.programs, path).is_estimate
        except (Broken, OSError):
            return
        self.record.put([], (source, {**told, "remark": "" if is_estimate else told["remark"], "estimate": is_estimate}))

    def run(self, found: Found, jobs: int) -> None:
        """Makes what is not there yet, several at once."""
        todo, taken = self.look(found)
        if not todo:
            return
        fine = waves.filter_of(self.programs)
        progress = Progress(len(todo))
        running: Running = collections.deque()
        with concurrent.futures.ThreadPoolExecutor(jobs) as pool:
            try:
                for number, (source, path) in enumerate(todo):
                    running.append((number, source, pool.submit(self.make, number, path, fine)))
                    if len(running) == AHEAD * jobs:
                        self.next_one(running, taken, progress)
                while running:
                    self.next_one(running, taken, progress)
            except BaseException:
                self.programs.end()
                raise
            finally:
                progress.clear()

    def next_one(self, running: Running, taken: Set[str], progress: Progress) -> None:
        """Waits for the sound that was begun first."""
        number, source, future = running.popleft()
        self.finish(number, source, future.result(), taken)
        progress.step()

    def is_sound(self, path: str) -> bool:
        """Whether a file is a WAV file with sound in it."""
        return path in heads_of(self.companion, [path])

    def parts(self, source: str) -> List[str]:
        """What was made of a source: the entries of a list."""
        return [self.record.at(part) for part in self.record.sources.get(source, {}).get("parts", [])]

    def sizes(self, found: Found) -> Dict[str, Size]:
        """The sizes of all that was made of these sources, as far as it is there."""
        sizes = {}
        for source in dict(found):
            told = self.record.sources.get(source, {})
            sides = told.get("sides", 2)
            for part, entry in zip(told.get("parts", []), self.parts(source)):
                size = self.record.size(part)
                sizes[entry] = Size(size, max(0, size - waves.HEADER) / (2 * sides * self.form.rate))
        return sizes

    def write(self, name: str, lines: List[str]) -> None:
        """Writes a text below the folder, but over nothing of others, and only where it is another one."""
        data, target = "".join(line + "\n" for line in lines).encode(), self.record.at(name)
        self.written.append(name)
        if not self.record.is_free(name):
            self.left += 1
            self.tell(target, "left as it is, since it was changed or made by somebody else")
            return
        if self.record.is_made(name) and content(target) == data:
            return
        path = os.path.join(self.room, "text")
        with open(path, "wb") as file:
            file.write(data)
        self.record.put([(name, path)])

    def told_of(self, source: str) -> Dict[str, Any]:
        """What is known of a source. The texts of a list count for more than those of the file."""
        told, texts = self.record.sources.get(source), self.texts.get(source)
        return {**told, **(texts or {})} if told else {}

    def artist(self, source: str) -> str:
        return str(self.told_of(source).get("artist", "")).casefold()

    def write_lists(self, found: Found, seed: Optional[int], whole: str, has_folders: bool,
                    limits: Facts) -> Tuple[List[str], Size]:
        """Writes the lists and the titles; answers a line for each list, by the limits of liq, and the size of all."""
        for source in dict(found):
            remark = self.record.sources.get(source, {}).get("remark")
            if remark:
                self.tell(source, remark)
        sizes, lines = self.sizes(found), []

        def mixed(members: List[str]) -> List[str]:
            return members if seed is None else names.mixed(members, seed, self.artist)
        for name, members in lists.lists_of(found, whole, has_folders, mixed).items():
            entries = [entry for member in members for entry in self.parts(member)]
            self.write(name, entries)
            lines.append(lists.line_of(self.record.at(name), entries, sizes, self.form.rate, limits))
        known = [(source, self.told_of(source)) for source in dict(found)]
        self.write(lists.TITLES, [line for source, told in known if any(told.get(text) for text in sounds.TAGS)
                                  for line in lists.titles_of(told, self.parts(source))])
        return lines, Size(sum(size.bytes for size in sizes.values()), sum(size.seconds for size in sizes.values()))

    def long_ones(self, found: Found) -> List[str]:
        """A line for each sound that had to be cut."""
        lines = []
        for source in dict(found):
            told = self.record.sources.get(source, {"parts": []})
            if len(told["parts"]) > 1:
                most = self.form.seconds(told["sides"])
                lines.append(f"{shown(source)}: longer than liq reads ({most // 60}:{most % 60:02}), so it is in "
                             f"{len(told['parts'])} parts; a crossfade would mix the end of one into the next")
        return lines

    def with_unseen(self, found: List[Tuple[str, str]], is_unread: Callable[[str], bool]) -> List[Tuple[str, str]]:
        """The sounds, and at their places those that lie below a folder which could not be read, as far as what was made
        of them is whole."""
        known, self.is_unread = dict(found), is_unread
        self.unseen = {source for source in self.record.sources if source not in known and is_unread(source)
                       and all(os.path.exists(path) and not self.record.is_cut(part)
                               for part, path in zip(self.record.sources[source]["parts"], self.parts(source)))}
        return sorted([*found, *((source, source) for source in self.unseen)], key=order) if self.unseen else found

    def examine(self, found: List[Tuple[str, str]], may_be_gone: bool) -> None:
        """Fails where less than half of the sounds are there that were there before, as where a disk is not mounted."""
        before, now = len(self.record.sources), len(dict(found))
        if before and 2 * now < before and not may_be_gone:
            raise Failed(f"{now} of {before} sounds are there; nothing is changed. Is its disk mounted? --all-gone goes on", 3)

    def gone(self, found: Found) -> List[str]:
        """The sources that are no more there."""
        return sorted(source for source in self.record.sources.keys() - dict(found).keys() if not self.is_unread(source))

    def old_lists(self) -> List[str]:
        """The lists that were made before, and are written no more."""
        return sorted(name for name in self.record.made
                      if name.endswith(".m3u") and name not in self.written and self.record.is_own(name))

    def tell_old_lists(self) -> None:
        """Tells the lists of folders that are gone, or have another name now. A script may still play them."""
        for name in self.old_lists():
            self.tell(self.record.at(name),
                      "is the list of a folder that is gone, and lists what was there; --prune removes it")

    def prune(self, found: Found) -> int:
        """Removes what was made of sources that are no more there, and lists that are no more written, as far as nobody
        changed them; how many files."""
        for source in self.gone(found):
            del self.record.sources[source]
        wanted = {part for told in self.record.sources.values() for part in told["parts"]} | set(self.written)
        removed = [name for name in sorted(self.record.made.keys() - wanted) if self.record.remove(name)]
        for folder in sorted({os.path.dirname(name) for name in removed}, reverse=True):
            while folder:
                with contextlib.suppress(OSError):          # it holds something else
                    os.rmdir(self.record.at(folder))
                folder = os.path.dirname(folder)
        return len(removed)


def order(pair: Tuple[str, str]) -> List[Tuple[bool, str]]:
    """By what sources stand in the order in which a folder is gone through: its files before its folders."""
    *folders, name = pair[0].split("/")
    return [*((True, folder) for folder in folders), (False, name)]


def content(path: str) -> bytes:
    with open(path, "rb") as file:
        return file.read()


def locked(out: str) -> int:
    """A handle by which no other run is at work in a folder, where its disk knows locks."""
    handle = os.open(out, os.O_RDONLY | os.O_DIRECTORY)
    try:
        fcntl.flock(handle, fcntl.LOCK_EX | fcntl.LOCK_NB)
    except OSError as error:
        if error.errno in (errno.EWOULDBLOCK, errno.EACCES):
            os.close(handle)
            raise Failed(f"{shown(out)}: another run of prepare is at work there", 4) from None
    return handle
