"""Renderings of a stretch of the week, into a folder: what a test hears, and what a page plays. They are made as a
night is, in parts where they are long, with the same bytes as the call that begins then."""
import contextlib
import dataclasses
import os
import re
import shutil
import subprocess
import threading
from typing import Dict, List, NamedTuple, Optional

from liq.heard import Cue, Recorded
from liq.nights import long_lists, parts
from liq.nights.failed import KEPT, Failed
from liq.nights.library import DECODED, Library
from liq.nights.rooms import Rooms
from liq.nights.station import Station as Script
from liq.nights.words import CACHE, LONGEST
from liq.nights.work import Ended, Night, title_of
from liq.pages.titles import NoTitles, Titles, read_titles
from liq.reading.companion import Companion, NoAnswer
from liq.reading.facts import Facts
from liq.watching.names import shown
from liq.watching.runs import starter

TITLES = "titles.tsv"
SCRIPT = "station.liq"     # the copy of a script in the folder of a rendering


class Broken(NoAnswer):
    """The rendering was ended by who asked for it."""


class Heads(Script):
    """A script whose outputs are written elsewhere, so that it does not matter what stands at their names."""

    def examine(self) -> None:
        for name in self.outputs:
            if name in self.lists or name in self.singles:
                raise Failed(f"the output {shown(name)} has the name of a list or a sound", 1)


class Stretch(Night):
    """A stretch of the week that is rendered. It prints nothing, and hears no signal: `end` ends it, from any
    thread."""

    lock: threading.Lock

    def __init__(self, *words: object) -> None:
        super().__init__(*words)                            # type: ignore[arg-type]
        self.lock, self.child, self.is_over = threading.Lock(), None, False
        self.printed = b""
        self.gaps_of: Dict[str, int] = dict.fromkeys(self.station.outputs, 0)
        self.cues_of: Dict[str, List[Cue]] = {name: [] for name in self.station.outputs}

    child: "Optional[subprocess.Popen[bytes]]"

    def called(self, words: List[str], before: float, share: float) -> Ended:
        with self.lock:
            if self.is_over:
                raise Broken("the rendering was ended", 1)
            self.child = subprocess.Popen(words, stdin=subprocess.DEVNULL, stdout=subprocess.PIPE,
                                          stderr=subprocess.PIPE, pass_fds=self.handles(), preexec_fn=starter(True))
        self.printed, said = self.child.communicate()
        if self.is_over:
            raise Broken("the rendering was ended", 1)
        return Ended(self.child.returncode, self.printed, said)

    def end(self) -> None:
        """Ends it: what waits for it gets `Broken`."""
        with self.lock:
            self.is_over = True
            if self.child is not None and self.child.poll() is None:
                self.child.kill()

    def tell(self, line: str) -> None:
        pass

    def finish(self, names: Dict[str, str], frames: int, gaps: int) -> None:
        counts = [int(count) for count in re.findall(rb" gaps (\d+)$", self.printed, re.M)] if gaps else []
        for name, count in zip(names, counts):
            self.gaps_of[name] += count
        first = self.done
        super().finish(names, frames, gaps)
        for name, path in names.items():
            self.cues_of[name] += [Cue(first + at, title_of(rest) or "") for at, rest in parts.cues(path + ".cue")]


class Asked(NamedTuple):
    """What is rendered: the file of a script, the program and the companion, and what the script sets and plays."""
    file: str
    program: str
    companion: Companion
    facts: Facts


def whole_facts(companion: Companion, facts: Facts) -> Facts:
    """The facts, with lists that are longer than liq reads, as a night has them."""
    try:
        return long_lists.whole(companion, facts)
    except Failed as error:
        raise NoAnswer(str(error), error.status) from None


def library_of(facts: Facts) -> Library:
    """The sounds of a script: those that liq reads, and those that the cache of nights decodes, where there is a use
    for it and ffmpeg is installed."""
    names = {entry for one in facts.lists for entry in one.entries}
    if not any(facts.sounds[name].state in DECODED for name in names):
        return Library(facts)
    from liq.preparing import cache, waves
    home = os.environ.get("XDG_CACHE_HOME") or os.path.join(os.environ.get("HOME") or "/var", ".cache")
    folder = os.path.abspath(os.path.join(home, "liq", "sounds"))
    try:
        os.makedirs(os.path.dirname(folder), exist_ok=True)
        form = waves.Form(facts.rate, None, False, facts.file_most)
        return Library(facts, cache.Cache(folder, form, int(CACHE * 1e9)))
    except (cache.Failed, OSError):
        return Library(facts)


def elsewhere(asked: Asked, folder: str) -> Script:
    """The script with its outputs in a folder."""
    old = Heads(asked.file, asked.companion, asked.facts, LONGEST)
    names = {name: os.path.join(folder, f"{k}.wav") for k, name in enumerate(old.outputs)}
    path = os.path.join(folder, SCRIPT)
    with open(path, "wb") as file:
        file.write(old.renamed(names))
    outputs = tuple(dataclasses.replace(output, name=names[output.name]) for output in asked.facts.outputs)
    return Heads(path, asked.companion, dataclasses.replace(asked.facts, outputs=outputs), LONGEST)


class Rendering:
    """A stretch of the week as it was rendered: of each output what was recorded, and the titles of its files."""

    def __init__(self, asked: Asked, second: int, seconds: float, folder: str):
        self.asked, self.second, self.seconds, self.folder = asked, second, seconds, folder
        self.lock, self.is_over = threading.Lock(), False
        self.work: Optional[Stretch] = None
        self.outputs: Dict[str, Recorded] = {}
        self.titles = Titles({})
        self.told: List[str] = []

    def make(self) -> None:
        """Renders it; `NoAnswer` where that fails, with nothing left in the folder, and `Broken` where `end` was
        called."""
        os.makedirs(self.folder, mode=0o700)
        try:
            self.render()
        except (Failed, OSError, NoAnswer) as error:
            shutil.rmtree(self.folder, ignore_errors=True)
            raise answer_of(error) from None

    def end(self) -> None:
        """Ends it, from any thread."""
        with self.lock:
            self.is_over = True
            if self.work is not None:
                self.work.end()

    def render(self) -> None:
        """Renders the parts, and keeps their files."""
        library = library_of(self.asked.facts)
        try:
            script = elsewhere(self.asked, self.folder)
            made = Rooms(script.outputs)
            try:
                work = Stretch(script, self.asked.program, self.second, self.seconds, made, library)
                with self.lock:
                    self.work = work
                    if self.is_over:
                        work.end()
                work.run(False)
                self.keep(work)
            finally:
                made.end()
            self.titles, self.told = self.titles_of(library), library.told()
        finally:
            if library.cache is not None:
                library.cache.close()

    def keep(self, work: Stretch) -> None:
        """Takes the files of the parts out of the room in which they were made."""
        for output, name in zip(self.asked.facts.outputs, work.station.outputs):
            paths: List[str] = []
            for k, made in enumerate(work.parts[name]):
                paths.append(os.path.join(self.folder, f"{name[:-4].rsplit('/', 1)[-1]}-{k}.wav"))
                os.rename(made, paths[-1])
            frames = sum(parts.Wave(path).frames for path in paths)
            self.outputs[output.name] = Recorded(tuple(paths), frames, work.station.rate, output.bits,
                                                 work.gaps_of[name], tuple(work.cues_of[name]))

    def titles_of(self, library: Library) -> Titles:
        """The titles that stand beside the lists, and those of what was decoded."""
        tables = dict.fromkeys(os.path.join(os.path.dirname(one.name), TITLES) for one in self.asked.facts.lists)
        names = sorted({name for name, _ in library.names.values()})
        lines = library.cache.titles(names) if names and library.cache is not None else []
        if lines:
            tables[os.path.join(self.folder, TITLES)] = None
            with open(os.path.join(self.folder, TITLES), "w", encoding="utf-8", errors="surrogateescape") as file:
                file.writelines(line + "\n" for line in lines)
        return titles_in([path for path in tables if os.path.isfile(path)])

    @property
    def bytes(self) -> int:
        """The bytes of its sounds on the disk."""
        return sum(os.path.getsize(path) for one in self.outputs.values() for path in one.paths if os.path.exists(path))

    def drop(self) -> None:
        """Removes its sounds. What else is known of it stays."""
        shutil.rmtree(self.folder, ignore_errors=True)

    def recorded(self, output: str) -> Recorded:
        """What an output recorded, which is rendered once more where its sounds were removed."""
        if not os.path.isdir(self.folder):
            self.make()
        return self.outputs[output]


def titles_in(paths: List[str]) -> Titles:
    """The titles of these tables, without those that are none."""
    found = Titles({})
    for path in paths:
        with contextlib.suppress(NoTitles, OSError):
            found.told.update(read_titles([path]).told)
    return found


def answer_of(error: Exception) -> NoAnswer:
    """Why there is no rendering, without the words on outputs that a night keeps."""
    if isinstance(error, NoAnswer):
        return error
    if isinstance(error, Failed):
        return NoAnswer(str(error).replace(f"; {KEPT}", ""), error.status)
    name = getattr(error, "filename", None)
    return NoAnswer(f"{shown(str(name or 'a temporary folder'))}: {getattr(error, 'strerror', error)}", 4)
