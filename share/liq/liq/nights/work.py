"""The rendering of a night, part by part. Its length is whole ticks; lengths are counted in samples."""
import datetime
import math
import os
import re
import signal
from typing import Dict, Iterator, List, NamedTuple, Optional, Tuple

from liq.nights import lacking, memory, parts, places, putting, rooms, starts, titles
from liq.nights.copies import Copies
from liq.nights.failed import KEPT, Crowded, Failed, NoMemory
from liq.nights.library import Library
from liq.nights.lists import Turns
from liq.nights.station import Station
from liq.watching.names import shown
from liq.watching.progress import Line
from liq.watching.runs import Run, signal_of

WEEK = 604800
SPARE = 1 << 20                 # bytes by which the sounds of a call stay below what they may have
SHARE = 0.5                     # of a part that is left where it may
LESS = 0.6                      # of its sounds that a part has if memory was refused for them
OVER = 0.05                     # of its length by which a part may be longer, so that no short one is left
LEAST = 60                      # seconds below which a part is not shortened for its sounds
LATE = 10                       # seconds of a track that a crossfade may have mixed into the next one
WORDS = {3: "a file could not be read", 4: "something could not be written",
         5: "memory was refused; a shorter --part takes less"}


class Ended(NamedTuple):
    """How a call of the program ended: its status, what it printed and said, and the signal that broke it off."""
    status: int
    printed: bytes
    said: bytes
    stopped: Optional[int] = None


def time_text(second: int) -> str:
    """A second of the week as liq reads it."""
    second %= WEEK
    return f"{second // 86400 + 1}:{second // 3600 % 24:02}:{second // 60 % 60:02}:{second % 60:02}"


def long_text(seconds: float) -> str:
    return f"{int(seconds) // 3600}:{int(seconds) // 60 % 60:02}:{int(seconds) % 60:02}"


class Night:
    """A night of a station, from a second of the week on, whose parts are made in rooms. `moment` is when it begins on
    the clock of the wall, where that is known."""

    def __init__(self, station: Station, program: str, start: int, seconds: float, made: rooms.Rooms, library: Library,
                 moment: Optional[datetime.datetime] = None):
        self.station, self.program, self.start, self.rooms = station, program, start, made
        self.library, self.moment = library, moment
        self.whole = max(1, round(seconds * station.rate / station.tick)) * station.tick
        self.turns = {name: Turns(name, one.entries, library) for name, one in station.lists.items()}
        self.copies = Copies(self.turns, station.singles, library)
        self.places: Optional[places.Places] = None         # where the lists were left, if that is kept
        self.done, self.gaps = 0, 0
        self.bound = station.facts.most - SPARE             # bytes of the sounds of a part
        self.borders: List[int] = []                        # where parts begin, but for the first
        self.parts: Dict[str, List[str]] = {name: [] for name in station.outputs}
        self.blocks: Dict[str, int] = {}                    # bytes of an instant of each output, once they are known
        self.tracks = 0                                     # how many cues have a name
        self.played: Dict[str, None] = {}                   # the names in the cues
        self.titles: List[str] = []                         # the lines of a table of them
        self.empty, self.silence = "", ""                   # a list and a file that stand in for files that are not there
        self.line = Line(os.path.basename(station.outputs[0]))

    def go_on(self, is_dated: bool = False) -> List[str]:
        """Goes on where the night before left the lists, and keeps where this one leaves them; what is to be told. The
        start of a night that is dated tells whether it is the same night once more."""
        start = self.moment.isoformat() if self.moment and is_dated else None
        self.places = places.Places(places.path_of(self.station.outputs[0]), start)
        return self.places.go_on(self.turns)

    def size(self, entries: Dict[str, List[str]]) -> int:
        """What the sounds count for that a call plays with these entries."""
        sounds = self.station.facts.sounds
        found = {name: [entry for entry in one if entry in sounds] for name, one in entries.items()}
        return self.copies.size(found, [name for name in self.station.singles if name in sounds])

    def most(self) -> int:
        """The bytes that the sounds of the next part may have."""
        free = memory.for_sounds()
        return self.bound if free is None else min(self.bound, free)

    def shorten(self, size: int) -> bool:
        """Takes less than so many bytes of sounds from now on; whether a part can."""
        self.bound = int(LESS * size)
        return self.size(self.entries(self.wanted())[1]) < size

    def wanted(self) -> float:
        """How many seconds the next part is to have: what is left is divided evenly."""
        left = (self.whole - self.done) / self.station.rate
        longest = min(self.station.longest, self.station.limit())
        return min(self.evenly(left, longest * (1 + OVER)), self.station.limit())

    def evenly(self, left: float, longest: float) -> float:
        """The seconds of each of as few equal parts as no longer ones make; whole ones where parts end by the clock."""
        seconds = left / max(1, math.ceil(left / longest))
        by_clock = len(self.station.outputs) > 1 and 1 < seconds < left
        return math.ceil(seconds) if by_clock else seconds

    def entries(self, seconds: float) -> Tuple[float, Dict[str, List[str]]]:
        """How long the next part is, and the entries of its lists: as many as a script may play, and memory holds."""
        most, left = self.most(), (self.whole - self.done) / self.station.rate
        while True:
            needs = self.station.needs(seconds)
            found = {name: turns.next_ones(*needs[name][:2]) if name in needs else turns.next_ones(seconds)
                     for name, turns in self.turns.items()}
            size, names = self.size(found), [entry for entries in found.values() for entry in entries]
            has_room = self.library.has_room(names)
            if size <= most and has_room:
                return seconds, found
            if seconds < LEAST and size > self.station.facts.most - SPARE:
                raise Failed("the sounds that a minute may play are more than a script may have", 1)
            if seconds >= LEAST:
                seconds = self.evenly(left, 0.8 * seconds)
            elif has_room or not self.library.wait(names):
                return seconds, found

    def examine_room(self) -> None:
        """Fails where a disk has no room for what is left of the night, as far as that is known."""
        need: Dict[int, int] = {}
        for name, room in self.rooms.of.items():
            size = (self.whole - self.done) * self.blocks.get(name, self.station.width)
            need[room.disk] = need.get(room.disk, 0) + size
        for room in self.rooms.of.values():
            if room.free() < need[room.disk]:
                raise Failed(f"{disk_of(room)}, and {size_text(need[room.disk])} more are needed; {KEPT}", 4)

    def part(self) -> None:
        """Renders one more part. Where no track begins in it, it is rendered anew and twice as long, as far as it may
        be."""
        seconds = self.wanted()
        while not self.is_ended(seconds):
            seconds *= 2

    def is_ended(self, wanted: float) -> bool:
        """Renders a part of so many seconds, and ends it; not where it may end at a track if it is longer."""
        number, rate, tick = len(self.borders) + 1, self.station.rate, self.station.tick
        left = self.whole - self.done
        names = {name: os.path.join(room.path, f"{k}-{number}.wav")
                 for k, (name, room) in enumerate(self.rooms.of.items())}
        seconds, written, size = self.write_lists(wanted)
        ticks = -(-left // tick) if seconds * rate >= left else max(1, int(seconds * rate) // tick)
        script = self.rooms.first.write("part.liq", self.station.renamed({**names, **written, **self.stand_ins()}, self.empty))
        try:
            gaps, frames = self.render(script, names, ticks), min(ticks * tick, left)
        except NoMemory:
            if not self.shorten(size):
                raise
            return self.is_ended(wanted)
        border = self.border(names, frames)
        if not border and 2 * wanted <= self.station.limit() and wanted == seconds:
            return False
        frames = border or frames
        if gaps and -(-frames // tick) < ticks:             # some of them may lie behind the border
            gaps = self.render(script, names, -(-frames // tick))
        self.finish(names, frames, gaps)
        return True

    def write_lists(self, wanted: float) -> Tuple[float, Dict[str, str], int]:
        """Writes the lists of a part; how long it can be, their names, and the bytes of its sounds. A sound that cannot
        be decoded is left out, and others are taken for it; so it is for one that is shorter than it says."""
        seconds, found = self.entries(wanted)
        while True:
            names = [entry for entries in found.values() for entry in entries]
            try:
                files, before = self.library.files(names), found
            except Crowded:
                files, before = {}, {}
            seconds, found = self.entries(wanted)
            if all(name in files for name in names) and found == before:
                break
        written = {}
        for k, (name, entries) in enumerate(found.items()):
            written[name] = self.rooms.first.write(f"{k}.m3u", self.copies.text(name, entries, files))
        return seconds, written, self.size(found)

    def stand_ins(self) -> Dict[str, str]:
        """Writes what stands in for files that cannot be played; of each file the name of that."""
        lack = self.station.lack
        if lack.files:
            self.empty = self.rooms.first.write(lacking.EMPTY, b"")
            self.silence = self.rooms.first.write(lacking.SILENT, lacking.silence(self.station.rate))
        return lack.names(self.empty, self.silence)

    def render(self, script: str, names: Dict[str, str], ticks: int) -> int:
        """Renders so many ticks, and answers at how many instants there was nothing to play."""
        words = [self.program, "render", script, str(ticks), "--cues", f"--start={self.begin()}", *self.station.window]
        try:
            run = self.called(words, self.done / self.whole, ticks * self.station.tick / self.whole)
        except PermissionError as error:
            raise Failed(f"{shown(self.program)}: {error.strerror}; {KEPT}", 126) from None
        if run.stopped:
            raise Failed(f"broken off; {KEPT}", 128 + run.stopped)
        if run.status:
            said = shown(run.said.decode("utf-8", "surrogateescape").strip()) or self.why(run.status)
            text = f"part {len(self.borders) + 1}: {said}; {KEPT}"
            raise NoMemory(text) if run.status == 5 else Failed(text, signal_of(run.status))
        for name, path in names.items():
            wave = parts.Wave(path)
            self.blocks[name] = wave.block
            if (wave.rate, wave.frames) != (self.station.rate, ticks * self.station.tick):
                raise Failed(f"liq wrote another length than it was asked for; {KEPT}", 1)
        return sum(map(int, re.findall(rb" gaps (\d+)$", run.printed, re.M)))

    def called(self, words: List[str], before: float, share: float) -> Ended:
        """How a call of the program ended, which was watched: so much of the night was done before it, and a share of it
        is its part."""
        run = Run(words, True, lambda seen: self.line.show(seen, before, share), self.line.clear, ends_with_us=True,
                  pass_fds=self.handles())
        return Ended(run.status, run.printed, run.said, run.stopped)

    def tell(self, line: str) -> None:
        """Prints a line on a part."""
        print(line, flush=True)

    def handles(self) -> List[int]:
        """What the renderer holds as long as it runs: the locks of the rooms, and that of the cache."""
        cache = self.library.cache
        return [room.handle for room in self.rooms.all] + ([cache.handle] if cache is not None else [])

    def why(self, status: int) -> str:
        """What is known of an end of which liq says nothing."""
        text = WORDS.get(status, f"liq ends with status {status}")
        if status < 0:
            text = f"liq was ended by the signal {signal.Signals(-status).name}"
        if status == -signal.SIGKILL:
            text += ", as the system does where no memory is left; a shorter --part takes less"
        if status == 4:
            text += "; " + "; ".join(disk_of(room) for room in {room.disk: room for room in self.rooms.all}.values())
        return text

    def begin(self) -> str:
        """The time at which the next part begins."""
        return time_text(self.start + self.done // self.station.rate)

    def border(self, names: Dict[str, str], frames: int) -> Optional[int]:
        """Where a part of so many instants ends: where a track begins, behind a whole one and late if it may; nothing
        where none begins in it. The last part, and one of several outputs, ends where it is over."""
        if self.done + frames >= self.whole or len(names) > 1:
            return frames
        cues = parts.cues(next(iter(names.values())) + ".cue")
        starts = [(at, self.is_whole(before, at)) for before, (at, rest) in zip(cues, cues[1:])
                  if at < frames and self.library.name_of(title_of(rest) or "")[1]]
        for late, wanted in ((SHARE * frames, True), (SHARE * frames, False), (0, True), (0, False)):
            found = [at for at, is_whole in starts if at > late and (is_whole or not wanted)]
            if found:
                return found[-1]
        return None

    def is_whole(self, cue: Tuple[int, bytes], end: int) -> bool:
        """Whether the track of a cue is over at an instant, but for what a crossfade takes of it."""
        at, rest = cue
        seconds = self.library.seconds(self.library.name_of(title_of(rest) or "")[0])
        return seconds is None or end - at >= (seconds - LATE) * self.station.rate

    def finish(self, names: Dict[str, str], frames: int, gaps: int) -> None:
        """Ends a part at its border, and notes where the lists are."""
        played: List[str] = []
        for path in names.values():
            if parts.Wave(path).frames > frames:
                parts.cut(path, frames)
            played += [name for _, rest in parts.cues(path + ".cue") if (name := title_of(rest)) and name != self.silence]
        self.tracks += len(played)
        self.played.update(dict.fromkeys(self.library.name_of(title)[0] for title in played))
        for turns in self.turns.values():
            turns.follow(self.copies.played(turns.name, played))
        for name, path in names.items():
            self.parts[name].append(path)
            self.name_cues(path + ".cue")
        number, begin = len(self.borders) + 1, self.begin()
        self.done += frames
        self.gaps += gaps
        if self.done < self.whole:
            self.borders.append(self.done)
        self.tell(f"part {number}: from {begin}, {long_text(frames / self.station.rate)}, "
                  f"{len(played)} track{'s' * (len(played) != 1)}")

    def name_cues(self, path: str) -> None:
        """Puts the entries of the lists into a cue file, in place of the files that were decoded for them. Silence has no
        name."""
        if not self.library.names and not self.silence:
            return
        lines = [(at, b" " + self.library.name_of(title)[0].encode(errors="surrogateescape")
                  if (title := title_of(rest)) and title != self.silence else rest if not title else b"")
                 for at, rest in parts.cues(path)]
        parts.write_cues(path, lines)

    def run(self, is_anyway: bool) -> None:
        """Renders all parts."""
        while self.done < self.whole:
            if not is_anyway:
                self.examine_room()
            self.part()

    def name_titles(self) -> List[str]:
        """Takes the titles of what is played: those of the tables beside the lists, and those of what was decoded; a line
        for each table that cannot be read."""
        self.titles, told = titles.lines_of(titles.tables_of(self.station.lists), self.played)
        known = {line.partition("\t")[0] for line in self.titles}
        self.titles += self.library.titles(name for name in self.played if name not in known)
        return told

    def put(self) -> List[List[str]]:
        """Puts what was made at its names; answers for each output the names of its files. A rendering comes behind
        what stands beside it, so that whoever sees it finds that."""
        groups, files = [], []
        for name, paths in self.parts.items():
            room, group = self.rooms.of[name], [name]
            if parts.fits(parts.Wave(path).size for path in paths):
                paths = [parts.join(paths)]
            else:
                group = rooms.part_names(name, len(paths))
            for path, target, begin in zip(paths, group, self.begins()):
                made = os.path.basename(path)
                beside = starts.written(room, made, begin) + titles.written(room, made, target, self.titles)
                files += [(room, made + ending, target + ending) for ending in [*beside, ".cue", ""]]
            groups.append(group)
        if self.places:
            self.rooms.first.write("next", self.places.text_of(self.turns).encode())
            files.append((self.rooms.first, "next", self.places.free_path()))
        putting.put(self.rooms, files, putting.hear_no_more)
        return groups

    def begins(self) -> Iterator[Optional[datetime.datetime]]:
        """When the parts begin by the clock of the wall, as far as that is known."""
        for border in [0, *self.borders]:
            yield starts.later(self.moment, border / self.station.rate) if self.moment else None


def title_of(rest: bytes) -> Optional[str]:
    """The name in the rest of a cue's line, or nothing."""
    return rest[1:].decode("utf-8", "replace") if rest else None


def size_text(size: int) -> str:
    """Bytes, for people."""
    return f"{size / 1e9:.2f} GB" if size >= 1e8 else f"{size / 1e6:.2f} MB" if size >= 1e5 else f"{size / 1e3:.1f} KB"


def disk_of(room: rooms.Room) -> str:
    return f"the disk of {shown(room.folder or '.')} has {size_text(room.free())} free"
