"""Stations of several shapes, each rendered by threads and judged by its promise. tests/threads calls `tries`.

What a run leaves follows from its trace: docs/buffers.md and docs/streams.md say what each clock plays, given what its
buffers answered. It is worked out here cell by cell, over the sources of lib/meaning.py. A chunk that is got has to be
there first, so the clock that feeds it makes its ticks up to that one before the reader goes on; where two clocks wait
for one another so, no order of the ticks has the trace. `shapes` has the stations.
"""
import os
import random
import re
import subprocess
import tempfile
from typing import NamedTuple

from lib.common import content, sound
from lib.meaning import Cell, Choice, Crossfade, Leaf, Source, Tone

RATE, FRAME, TICKS, SECONDS, SEED = 8000, 8, 60, 60, 7
SETTINGS = 'set("frame.audio.samplerate", 8000)\nset("frame.duration", 0.001)\n'
FILES = {f"t{number}.wav": 13 + 7 * (number % 5) for number in range(30)}  # how many samples each file of the list has


class Unlawful(Exception):
    """Why no record explains a trace."""


class Queue(NamedTuple):
    """A buffer: what it waits for in samples, what it holds in chunks, and the names of the clocks at its two ends."""
    prefill: int
    capacity: int
    fed_by: str
    read_by: str


class Reader(Source):
    """The reader of a buffer, in a clock or in a crossfade of it: at the begin of a tick of its own it takes chunks."""

    def __init__(self, record, number):
        self.text, self.record, self.number, self.at, self.held, self.plays = "", record, number, 0, [], False

    def takes(self):
        """Takes chunks up to what is wanted, and begins or stops to play."""
        prefill = self.record.queues[self.number].prefill
        while len(self.held) < (FRAME if self.plays else prefill):
            chunk = self.record.take(self.number)
            if chunk is None:
                break
            self.held += chunk
        if not self.plays and len(self.held) >= prefill:
            self.plays, self.held[0] = True, self.held[0]._replace(first=True)
        elif not self.held:
            self.plays = False

    def slot(self):
        if self.at % FRAME == 0:
            self.takes()
        return self.held[0] if self.plays and self.held else None

    def go_on(self, gives):
        self.at += 1
        self.held = self.held[1:] if gives else self.held


class Clock:
    """A clock: its outputs, by name, and what it feeds to which buffer. A source of both stands in both."""

    def __init__(self, outputs, feeds):
        self.outputs, self.feeds, self.made, self.is_busy = outputs, feeds, 0, False
        self.played = {name: [] for name in outputs}

    def make_tick(self, record):
        if self.is_busy:
            raise Unlawful("no order of the ticks has this trace")
        if self.made == record.ticks:
            raise Unlawful("a chunk is got that nobody put")
        self.is_busy = True
        roots, chunks = {id(source): source for source in [*self.outputs.values(), *self.feeds.values()]}, {}
        for _ in range(FRAME):
            for name, source in self.outputs.items():
                self.played[name].append(source.offer())
            for number, source in self.feeds.items():
                chunks.setdefault(number, []).append(source.offer())
            for source in roots.values():
                source.commit(True)
        for number, cells in chunks.items():
            record.put(number, [cell for cell in cells if cell is not None])
        self.made, self.is_busy = self.made + 1, False


class Record:
    """A run as its trace tells it: for each buffer its windows, each the answers to its puts and to its takes."""

    def __init__(self, shape, ticks, window, windows):
        self.ticks, self.window, self.windows, self.queues = ticks, window, windows, shape.queues
        self.accepted, self.got = [[] for _ in windows], [0 for _ in windows]
        self.left = [[list(map(list, answers)) for answers in told] for told in windows]
        self.clocks = shape.clocks(self)

    def answer(self, number, side):
        """The next answer of the window in which the clock at this end of a buffer is: 0 its puts, 1 its takes."""
        queue = self.queues[number]
        clock = self.clocks[queue.read_by if side else queue.fed_by]
        answers = self.left[number][clock.made // self.window][side]
        if not answers:
            raise Unlawful("a window has fewer calls than its ticks")
        answer = answers.pop(0)
        if queue.fed_by == queue.read_by:
            held = len(self.accepted[number]) - self.got[number]
            if answer != ("GE"[held == 0] if side else "AF"[held == queue.capacity]):
                raise Unlawful("the answers are not those of this clock's list")
        return answer

    def put(self, number, chunk):
        if chunk and self.answer(number, 0) == "A":
            self.accepted[number].append(chunk)

    def take(self, number):
        if self.answer(number, 1) == "E":
            return None
        at = self.got[number]
        while len(self.accepted[number]) <= at:
            self.clocks[self.queues[number].fed_by].make_tick(self)
        self.got[number] += 1
        return self.accepted[number][at]

    def make(self):
        for number, told in enumerate(self.windows):
            waiting = 0
            for puts, takes in told:
                if not is_history(puts, takes, waiting, self.queues[number].capacity):
                    raise Unlawful("a window is no history of a queue")
                waiting += puts.count("A") - takes.count("G")
        for tick in range(self.ticks):
            for clock in self.clocks.values():
                if clock.made <= tick:
                    clock.make_tick(self)
        if any(answers for told in self.left for window in told for answers in window):
            raise Unlawful("a window has more calls than its ticks")


def is_history(puts, takes, waiting, capacity):
    """Whether a queue with so many chunks answers these puts and takes so in some order of both."""
    kept, got = [waiting], [0]
    for answer in puts:
        kept.append(kept[-1] + (answer == "A"))
    for answer in takes:
        got.append(got[-1] + (answer == "G"))
    reached, seen = [(0, 0)], {(0, 0)}
    while reached:
        put, take = reached.pop()
        held = kept[put] - got[take]
        if put < len(puts) and (puts[put] == "A") == (held < capacity) and (put + 1, take) not in seen:
            seen.add((put + 1, take))
            reached.append((put + 1, take))
        if take < len(takes) and (takes[take] == "G") == (held > 0) and (put, take + 1) not in seen:
            seen.add((put, take + 1))
            reached.append((put, take + 1))
    return (len(puts), len(takes)) in seen


class Shape(NamedTuple):
    """A station: its name, its script, its outputs in the order of the script, its buffers, and how its clocks are made
    for a record."""
    name: str
    script: str
    outputs: list
    queues: list
    clocks: object


def tracks():
    """The list: each file, one after another, with samples that no other one has."""
    at, made = 0, []
    for name, length in FILES.items():
        made.append([Cell(at + j + 1, -at - j - 1, j == 0, name) for j in range(length)])
        at += length
    return Leaf("", made)


def other():
    """A file as long as a run, with other samples."""
    return Leaf("", [[Cell(10000 + at, -10000 - at, at == 0, "other.wav") for at in range(TICKS * FRAME)]])


def safe(source):
    """`mksafe`, which goes over to its source as soon as that plays."""
    return Choice("fallback", [source, Tone("", lambda at: 0, lambda at: at == 0)], [True, True], False)


def output(name, source):
    return f'output.file(%wav, "{name}", {source})\n'


def heard(name, source, clock):
    """An output of a clock, silent where this source plays nothing."""
    return output(name, f'clock(id="{clock}", mksafe({source}))')


def shapes(capacity, gathers):
    """The stations, with buffers that hold so many chunks and wait for so many."""
    def queue(fed_by, read_by):
        return Queue(gathers * FRAME, capacity, fed_by, read_by)

    def buffer(source):
        return f"buffer(buffer=0.00{gathers}, max=0.00{capacity}, {source})"
    music = 's = mksafe(playlist("tracks.m3u"))\n' + output("fed", "s")

    def a_ring(record):
        return {"a": Clock({"A": safe(Reader(record, 1))}, {0: tracks()}),
                "b": Clock({"C": safe(Reader(record, 0))}, {1: other()})}
    yield Shape("a ring", 'x = clock(id="a", playlist("tracks.m3u"))\nu = clock(id="b", single("other.wav"))\n'
                f"y = {buffer('x')}\nz = {buffer('u')}\n" + heard("A", "z", "a") + heard("C", "y", "b"),
                ["A", "C"], [queue("a", "b"), queue("b", "a")], a_ring)

    def one_behind_another(record):
        music, middle = tracks(), safe(Reader(record, 0))
        return {"main": Clock({"fed": music}, {0: music}), "b": Clock({"middle": middle}, {1: middle}),
                "c": Clock({"last": safe(Reader(record, 1))}, {})}
    yield Shape("two buffers, one behind another", music + f't = clock(id="b", mksafe({buffer("s")}))\n'
                + output("middle", "t") + heard("last", buffer("t"), "c"),
                ["fed", "middle", "last"], [queue("main", "b"), queue("b", "c")], one_behind_another)

    def side_by_side(record):
        music = tracks()
        return {"main": Clock({"fed": music}, {0: music, 1: music}),
                "b": Clock({"one": safe(Reader(record, 0)), "two": safe(Reader(record, 1))}, {})}
    yield Shape("two buffers, side by side", music + heard("one", buffer("s"), "b") + heard("two", buffer("s"), "b"),
                ["fed", "one", "two"], [queue("main", "b"), queue("main", "b")], side_by_side)

    def within(record):
        music = tracks()
        return {"main": Clock({"fed": music, "late": safe(Reader(record, 0))}, {0: music, 1: music}),
                "b": Clock({"read": safe(Reader(record, 1))}, {})}
    yield Shape("a buffer within one clock",
                music + output("late", f"mksafe({buffer('s')})") + heard("read", buffer("s"), "b"),
                ["fed", "late", "read"], [queue("main", "main"), queue("main", "b")], within)

    def faded(record):
        music = tracks()
        return {"main": Clock({"fed": music}, {0: music}),
                "b": Clock({"read": safe(Crossfade("0.0005", Reader(record, 0)))}, {})}
    yield Shape("a crossfade over a reader", music + heard("read", f"crossfade(duration=0.0005, {buffer('s')})", "b"),
                ["fed", "read"], [queue("main", "b")], faded)


def packed(cells):
    """The file of an output: what it played of both sides, and nothing where it had no cell."""
    return sound([side for cell in cells for side in ((cell.left, cell.right) if cell else (0, 0))], 2, RATE)


def cues(cells):
    starts = [(at, cell.title) for at, cell in enumerate(cells) if cell and cell.first]
    return "".join(f"{at}\n" if title is None else f"{at} {title}\n" for at, title in starts).encode()


def windows_of(trace, shape, window):
    """For each buffer its windows; the line of the trace that is outside its form, where one is."""
    lines, buffers = trace.split("\n"), len(shape.queues)
    count = -(-TICKS // window)
    told = [[] for _ in range(buffers)]
    if lines[0] != f"liq trace 1 {TICKS} {window} {buffers}":
        return 0
    for at in range(1, count * buffers + 1):
        number, buffer = divmod(at - 1, buffers)
        form = rf"window {number} buffer {buffer} puts (-|[AF]+) takes (-|[GE]+)"
        found = re.fullmatch(form, lines[at]) if at < len(lines) - 1 else None
        if not found:
            return at
        told[buffer].append(tuple(answers.strip("-") for answers in found.groups()))
    return told if lines[count * buffers + 1:] == [""] else count * buffers + 1


def told_by(trace, shape, window):
    """The report and the files that follow of a trace, by name; in place of them the line that refuses it."""
    windows = windows_of(trace, shape, window)
    if isinstance(windows, int):
        return f"E32 not a trace: line {windows}\n"
    record = Record(shape, TICKS, window, windows)
    try:
        record.make()
    except Unlawful:
        return "E33 trace does not fit\n"
    played = {name: cells for clock in record.clocks.values() for name, cells in clock.played.items()}
    gaps = {name: played[name].count(None) for name in shape.outputs}
    report = "".join(f"output {name} samples {TICKS * FRAME} gaps {gaps[name]}\n" for name in shape.outputs)
    for number, told in enumerate(windows):
        puts, takes = ("".join(answers) for answers in zip(*told))
        report += (f"buffer {number} accepted {puts.count('A')} full {puts.count('F')} "
                   f"got {takes.count('G')} empty {takes.count('E')}\n")
    files = {name: packed(played[name]) for name in shape.outputs}
    return report, files, {name + ".cue": cues(played[name]) for name in shape.outputs}


def prepare(place, shape):
    """Writes the script, the list and the sounds."""
    at = 0
    for name, length in FILES.items():
        samples = [side for j in range(at + 1, at + length + 1) for side in (j, -j)]
        write(os.path.join(place, name), sound(samples, 2, RATE))
        at += length
    samples = [side for j in range(10000, 10000 + TICKS * FRAME) for side in (j, -j)]
    write(os.path.join(place, "other.wav"), sound(samples, 2, RATE))
    write(os.path.join(place, "tracks.m3u"), "".join(f"{name}\n" for name in FILES).encode())
    write(os.path.join(place, "station.liq"), (SETTINGS + shape.script).encode())


def write(path, data):
    with open(path, "wb") as file:
        file.write(data)


def called(place, names, *words):
    """How a call ended: its report and these files, which are removed then; or its line, or its status."""
    done = subprocess.run(words, cwd=place, stdin=subprocess.DEVNULL, capture_output=True, text=True, timeout=SECONDS,
                          check=False)
    paths = {name: os.path.join(place, name) for name in names}
    left = {name: content(path) for name, path in paths.items() if os.path.exists(path)}
    for name in left:
        os.remove(paths[name])
    if done.returncode not in (0, 1):
        return f"status {done.returncode}, {done.stderr}{left}"
    return f"{done.stdout}{left or ''}{done.stderr}" if done.returncode else (done.stdout, left)


def changed(trace, chance):
    """A trace of which one to three letters of its answers are others."""
    letters = [at for at, letter in enumerate(trace) if letter in "AFGE" and at > trace.index("\n")]
    for at in chance.sample(letters, min(len(letters), chance.randint(1, 3))):
        other_one = {"A": "F", "F": "A", "G": "E", "E": "G"}[trace[at]]
        trace = trace[:at] + other_one + trace[at + 1:]
    return trace


def fault_of(program, place, shape, window, chance, seen):
    """What is wrong with a run of a shape, with its replay, or with that of a trace that is nearly so; None where
    nothing is. Whether the last of these was refused is put into `seen`."""
    cue_files = [name + ".cue" for name in shape.outputs]
    ran = called(place, shape.outputs + cue_files + ["run.trace"], program, "render", "station.liq", str(TICKS),
                 f"--window={window}", "--cues", "--trace=run.trace")
    if isinstance(ran, str):
        return ran
    report, left = ran
    trace = left.pop("run.trace").decode("latin-1")
    told = told_by(trace, shape, window)
    if isinstance(told, str):
        return f"no record explains the trace {trace!r}: {told}"
    if report != told[0]:
        return f"the report is {report!r}, and not {told[0]!r}"
    wrong = [name for name, data in {**told[1], **told[2]}.items() if left.get(name) != data]
    if wrong:
        return f"{', '.join(wrong)}: not what follows of the trace {trace!r}"
    for one in (trace, changed(trace, chance)):
        write(os.path.join(place, "one.trace"), one.encode())
        wanted = told_by(one, shape, window)
        found = called(place, shape.outputs + cue_files, program, "replay", "station.liq", str(TICKS), "one.trace")
        if found != (wanted if isinstance(wanted, str) else wanted[:2]):
            return f"the replay of {one!r} is {found!r:.300}"
    seen.add(isinstance(wanted, str))
    return None


def tries(program):
    """Each shape, with buffers of one chunk and ones that wait for two, in windows of several lengths: a line and a
    fault of each."""
    chance, seen = random.Random(SEED), set()
    for capacity, gathers in ((1, 1), (4, 2)):
        for shape in shapes(capacity, gathers):
            with tempfile.TemporaryDirectory(prefix="liq-threads-") as place:
                prepare(place, shape)
                for window in (1, 3, 16, 1000):
                    name = f"{shape.name}, window {window}, capacity {capacity}, prefill {gathers}"
                    yield name, fault_of(program, place, shape, window, chance, seen)
    yield "traces that are nearly one of a run", None if len(seen) == 2 else "all are refused, or none"
