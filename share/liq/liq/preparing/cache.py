"""Sounds as WAV files, decoded when they are asked for, in a folder of a bounded size.

Only what is asked for is decoded. The file that was used longest ago is thrown out first, and never one in use by this
run or another. A file stands at its name whole or not at all. One that was cut or changed there is decoded again.
"""
import concurrent.futures
import hashlib
import os
import shutil
from typing import Any, Callable, Dict, Iterable, List, Optional

from liq.preparing import disk, lists, names, sounds, sources, waves
from liq.preparing.programs import Broken, Programs
from liq.preparing.progress import Progress
from liq.preparing.shelf import Foreign, Shelf, names_of
from liq.watching.names import shown

BATCH = 50             # sounds after which what ffprobe told is noted


class Failed(Exception):
    """Why a cache cannot be used, in a line."""


class Full(Failed):
    """What is asked for does not fit into the cache beside what is in use."""


class Cache:
    """A folder of WAV files of one rate, of at most so many bytes. `told` has a line for each sound that is skipped.

    `handle` is the file by which other runs know what is in use: a child that inherits it keeps its sounds."""

    def __init__(self, folder: str, form: waves.Form, limit: int, jobs: Optional[int] = None):
        for program in ("ffmpeg", "ffprobe"):
            if not shutil.which(program):
                raise Failed(f"{program} is missing: install the package ffmpeg")
        if not names.is_held(folder) or folder.startswith("#"):
            raise Failed(f"{shown(folder)}: no list can hold this name")
        self.folder, self.limit, self.form = folder, limit, form
        self.jobs = jobs or min(4, os.cpu_count() or 1)
        self.programs, self.fine, self.count = Programs(), "", 0
        self.keys: Dict[str, Optional[str]] = {}           # of each name its key, or nothing where it is skipped
        self.told: List[str] = []
        try:
            self.shelf = Shelf(folder)
        except Foreign:
            raise Failed(f"{shown(folder)}: holds files of others, and is no cache; name a new folder") from None
        self.handle = self.shelf.handle

    def __enter__(self) -> "Cache":
        return self

    def __exit__(self, *_: object) -> None:
        self.close()

    def close(self) -> None:
        """Ends what is running, and uses nothing any more. What was decoded stays."""
        self.programs.end()
        self.shelf.end()

    def skip(self, name: str, why: object) -> None:
        """Notes that a name has no sound, once."""
        if self.keys.get(name, name) is not None:
            self.told.append(f"{shown(name)}: left out: {shown(str(why))}")
        self.keys[name] = None

    def is_skipped(self, name: str) -> bool:
        """Whether a name was asked for, and has no sound."""
        return self.keys.get(name, "") is None

    def key_of(self, name: str) -> Optional[str]:
        """The key of a file, by its place, size and time; nothing where it cannot be a sound."""
        trouble = sources.trouble_of(name)
        if trouble:
            self.skip(name, trouble)
            return None
        text = "\0".join([os.path.realpath(name), *map(str, sounds.state_of(name))])
        return hashlib.sha256(os.fsencode(text)).hexdigest()[:32]

    def made_key(self, key: str) -> str:
        """The key of what is made of a file in the form of this cache."""
        loud = "" if self.form.loudness is None else f"{self.form.loudness:+.1f}"
        return f"{key}-{self.form.rate}{loud.replace('+', 'p')}"

    def look(self, asked: Iterable[str]) -> None:
        """Finds out what these sounds are, several at once; what is known from an earlier run is not asked again."""
        new = [name for name in dict.fromkeys(asked) if name not in self.keys]
        for name in new:
            try:
                self.keys.setdefault(name, self.key_of(name))
            except OSError as error:
                self.skip(name, error.strerror)
        todo = {key: name for name in new if (key := self.keys[name]) and key not in self.shelf.sounds}
        batch: List[List[Any]] = []

        def done(key: str, name: str, result: object) -> None:
            if isinstance(result, sounds.Told):
                batch.append(["sound", key, {"seconds": result.seconds, "sides": result.sides, "estimate": result.is_estimate,
                                             **result.texts()}])
            else:
                self.skip(name, result)
            if len(batch) >= BATCH:
                self.note(batch)
        self.work(todo, lambda key, name: sounds.looked_at(self.programs, name), done)
        self.note(batch)
        for name in new:
            if self.keys[name] not in self.shelf.sounds:
                self.skip(name, "there is no sound in it")

    def note(self, batch: List[List[Any]]) -> None:
        """Notes what ffprobe told."""
        if batch:
            with self.shelf.locked():
                self.shelf.note(*batch)
            batch.clear()

    def work(self, todo: Dict[str, str], call: Callable[[str, str], object], done: Callable[[str, str, object], None]) -> None:
        """Calls something for each key and name, several at once, and then what is done with its result, or with why
        there is none. Where it breaks off, all that runs is ended."""
        progress = Progress(len(todo))
        with concurrent.futures.ThreadPoolExecutor(self.jobs) as pool:
            futures = {pool.submit(call, key, name): (key, name) for key, name in todo.items()}
            try:
                for future in concurrent.futures.as_completed(futures):
                    try:
                        result = future.result()
                    except Broken as why:
                        result = why
                    done(*futures[future], result)
                    progress.step()
            except BaseException:
                for future in futures:
                    future.cancel()
                self.programs.end()
                self.programs = Programs()
                raise
            finally:
                progress.clear()

    def sound(self, name: str) -> Optional[sounds.Told]:
        """What ffprobe told of a sound; nothing where it is skipped."""
        self.look([name])
        key = self.keys[name]
        told = self.shelf.sounds.get(key) if key else None
        if not told:
            return None
        return sounds.Told(float(told["seconds"]), int(told["sides"]), is_estimate=bool(told.get("estimate")),
                           **{text: str(told.get(text, "")) for text in sounds.TAGS})

    def seconds(self, name: str) -> Optional[float]:
        """How long a sound lasts: to the sample once it was decoded, else as ffprobe tells, which may be an estimate.
        Nothing where it is skipped, 0 where no length is told."""
        sound = self.sound(name)
        entry = self.shelf.made.get(self.made_key(self.keys[name] or "")) if sound else None
        return entry.seconds if entry else sound.seconds if sound else None

    def bytes_of(self, asked: Iterable[str]) -> int:
        """How many bytes the WAV files of these sounds have together, as far as that is known; each file counts once."""
        asked = list(asked)
        self.look(asked)
        total, seen = 0, set()
        for name in asked:
            key, sound = self.keys[name], self.sound(name)
            if key and sound and key not in seen:
                seen.add(key)
                entry = self.shelf.made.get(self.made_key(key))
                total += entry.size if entry else waves.bytes_of(sound, self.form.rate)
        return total

    def has_room(self, asked: Iterable[str]) -> bool:
        """Whether these sounds fit beside what other runs use, as far as their sizes are known."""
        asked = list(asked)
        size = self.bytes_of(asked)
        keys = {self.made_key(key) for name in asked if (key := self.keys.get(name))}
        with self.shelf.locked():
            return size <= self.shelf.room(self.limit, keys)

    def is_crowded(self) -> bool:
        """Whether other runs are at work in it."""
        with self.shelf.locked():
            return bool(self.shelf.held_by_others()) or self.shelf.begun_by_others() > 0

    def fetch(self, asked: Iterable[str]) -> Dict[str, List[str]]:
        """Decodes these sounds: of each name its WAV files, one but for a long sound. They are in use up to `release`. A
        name that is skipped is not in the answer. Full where they do not fit beside what is in use."""
        asked = list(dict.fromkeys(asked))
        self.look(asked)
        wanted = {self.made_key(key): name for name in asked if (key := self.keys[name])}
        with self.shelf.locked():
            there = self.shelf.claim(wanted)
        todo = {key: name for key, name in wanted.items() if key not in there}
        if todo and not self.fine:
            self.fine = waves.filter_of(self.programs)
        broken: Dict[str, object] = {}

        def done(key: str, name: str, result: object) -> None:
            if isinstance(result, Broken):
                broken[key] = result
        self.work(todo, self.make, done)
        return {name: paths for name in asked if (paths := self.paths(name, broken))}

    def paths(self, name: str, broken: Dict[str, object]) -> List[str]:
        """The WAV files of a name."""
        key = self.made_key(self.keys[name] or "")
        if key in broken:
            self.skip(name, broken[key])
        if not self.keys[name]:
            return []
        entry = self.shelf.made[key]
        if entry.remark:
            self.remark(name, entry.remark)
        return [self.shelf.at(one) for one in names_of(key, len(entry.states))]

    def remark(self, name: str, text: str) -> None:
        """Tells what is to be known of a sound, once."""
        line = f"{shown(name)}: {shown(text)}"
        if line not in self.told:
            self.told.append(line)

    def make(self, key: str, name: str) -> None:
        """Decodes a sound, and puts it at its name."""
        sound = self.sound(name)
        if sound is None:
            raise Broken("there is no sound in it")
        place = self.place_for(key, waves.bytes_of(sound, self.form.rate))
        try:
            try:
                _, made, _ = waves.made_of(self.programs, name, self.form, self.fine, place)
                is_same = self.made_key(self.key_of(name) or "") == key
            except FileNotFoundError as error:              # it has just gone
                if error.filename != name:
                    raise
                raise Broken(error.strerror) from None
            if not is_same:
                raise Broken("it changed while it was read")
            for part in made.parts:
                disk.synced(part)
            seconds = sum(waves.frames_in(part) or 0 for part in made.parts) / self.form.rate
            with self.shelf.locked():
                self.shelf.busy.pop(key)
                self.examine(sum(map(os.path.getsize, made.parts)))
                self.shelf.put(key, made.parts, seconds, made.remark)
        finally:
            self.shelf.busy.pop(key, None)
            shutil.rmtree(place, ignore_errors=True)

    def place_for(self, key: str, need: int) -> str:
        """An empty folder in which a sound is decoded, once there is room for it."""
        with self.shelf.locked():
            self.examine(need)
            self.shelf.busy[key] = need
            self.count += 1
            place = os.path.join(self.shelf.run, str(self.count))
            os.mkdir(place)
        return place

    def examine(self, need: int) -> None:
        """Makes room for so many bytes."""
        if not self.shelf.has_room(need, self.limit):
            raise Full(f"{shown(self.folder)}: {self.limit / 1e9:g} GB, or what its disk has free, are too few for the "
                       "sounds of one part")

    def release(self, asked: Optional[Iterable[str]] = None) -> None:
        """Uses these sounds no more, or none at all; their files stay until room is needed."""
        with self.shelf.locked():
            keys = {self.made_key(key) for name in asked or [] if (key := self.keys.get(name))}
            self.shelf.use(set() if asked is None else self.shelf.used - keys)

    def titles(self, asked: Iterable[str]) -> List[str]:
        """Lines of a table of titles for these names, as liq-page reads it."""
        found = []
        for name in asked:
            sound = self.sound(name)
            if sound and any(sound.texts().values()):
                found += lists.titles_of(sound.texts(), [name])
        return found
