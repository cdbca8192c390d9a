"""Stations by chance whose sounds tell the file and the place of each sample, so that what was played is read off the
output. tests/cues and tests/page call it."""
import os
import struct
import subprocess
from array import array
from typing import NamedTuple

from lib.common import sound

RATE, FILES, LONGEST = 8000, 8, 4000  # hertz, audio files, samples of a file


class Station(NamedTuple):
    """A script, its lists by name, and the lengths of its audio files f0.wav, f1.wav and so on, in samples."""
    script: str
    lists: dict
    lengths: list

    @property
    def is_safe(self):
        return "mksafe" in self.script

    @property
    def has_blanks(self):
        return "mksafe" in self.script or "blank()" in self.script


class Stretch(NamedTuple):
    """A stretch in which one file is played: instants, the file's number, and the first and the last place in it."""
    start: int
    end: int
    file: int
    first: int
    last: int


def predicate(rng):
    """A predicate that changes from second to second, or never."""
    often = " or ".join(f"{s}s-{s + 1}s" for s in sorted(rng.sample(range(59), rng.randint(3, 9))))
    early, late = sorted(rng.sample(range(60), 2))
    return rng.choice([often, often, "true", f"{early}s-{late}s", f"{early % 20}s-{early % 20 + 2}s",
                       f"not {early % 12}s-{early % 12 + 3}s", "true"])


def station_by_chance(rng, shared):
    """A station of switches, lists, files and silence; with `shared` several of its sources play the same files, so that
    a file may be left in two places at once."""
    lists = {"a.m3u": [0, 5, 2], "b.m3u": [5, 6, 4]} if shared else {"a.m3u": [0, 1, 2], "b.m3u": [3, 4]}
    sources = ['playlist("a.m3u")', 'playlist("b.m3u")', 'single("f5.wav")', 'single("f6.wav")', "fail()", "blank()"]
    rng.shuffle(sources)
    pairs = ", ".join(f"({{{predicate(rng)}}}, {source})" for source in sources[:rng.randint(2, 4)])
    source = f"switch(track_sensitive={rng.choice(['true', 'false', 'false'])}, [{pairs}])"
    if rng.random() < 0.3:
        source = f'rotate([{source}, single("f7.wav")])'
    if rng.random() < 0.5:
        source = f"amplify(0.5, {source})"
    if rng.random() < 0.5:
        wanted, source = "", f"mksafe({source})"
    else:
        wanted = "fallible=true, "
    script = f'set("frame.audio.samplerate", {RATE})\noutput.file(%wav, {wanted}"o.wav", mean({source}))\n'
    return Station(script, lists, [rng.randint(300, LONGEST - 100) for _ in range(FILES)])


def marked(file, length):
    """Samples that tell their file and their place in it."""
    return [file * LONGEST + place + 1 for place in range(length)]


def noise(rng, length):
    """Samples of no zeros."""
    return [value >> 2 or 1 for value in array("h", rng.randbytes(2 * length))]


def write_file(folder, name, data):
    with open(os.path.join(folder, name), "wb") as file:
        file.write(data if isinstance(data, bytes) else data.encode())


def write_station(folder, station, samples_of):
    """Writes a station's lists and files; `samples_of` gives the samples of a file of this number and length."""
    for k, length in enumerate(station.lengths):
        write_file(folder, f"f{k}.wav", sound(samples_of(k, length), rate=RATE))
    for name, entries in station.lists.items():
        write_file(folder, name, "".join(f"f{entry}.wav\n" for entry in entries))


def render(program, folder, script, seconds, *options):
    """Renders a script with cue files, and gives what the program said."""
    write_file(folder, "s.liq", script)
    words = [program, "render", "s.liq", str(25 * seconds), "--one-thread", "--cues", *options]
    return subprocess.run(words, cwd=folder, stdout=subprocess.PIPE, stderr=subprocess.PIPE, check=False)


def samples_in(folder, name):
    """The samples of an output in mono."""
    with open(os.path.join(folder, name), "rb") as file:
        data = file.read()[44:]
    return struct.unpack(f"<{len(data) // 2}h", data)


def stretches_of(samples):
    """What marked samples say was played."""
    starts = [n for n, (before, value) in enumerate(zip((0, *samples), samples)) if value and (value != before + 1 or before == 0)]
    ends = [n for n, (value, after) in enumerate(zip(samples, (*samples[1:], 0)), 1) if value and after != value + 1]
    found = []
    for start, end in zip(starts, ends):
        file, first = divmod(samples[start] - 1, LONGEST)
        found.append(Stretch(start, end, file, first, (samples[end - 1] - 1) % LONGEST))
    return found


def cues_in(folder, name):
    """The pairs (instant, name or None) of a cue file."""
    with open(os.path.join(folder, name), encoding="utf-8") as file:
        lines = [line.rstrip("\n").partition(" ") for line in file]
    return [(int(number), text if blank else None) for number, blank, text in lines]


def wrong_cues(station, samples, stretches, cues):
    """What is wrong with a cue file: its starts with titles have to be those of the stretches, and those without have to
    stand in silence, one at the begin of each where the station is never without a source."""
    titled = [(start, name) for start, name in cues if name is not None]
    untitled = [start for start, name in cues if name is None]
    wanted = [(s.start, f"f{s.file}.wav") for s in stretches]
    if titled != wanted:
        k = next((k for k, (a, b) in enumerate(zip(titled, wanted)) if a != b), min(len(titled), len(wanted)))
        return f"start {k} is {titled[k:k + 1]} and not {wanted[k:k + 1]}"
    if any(samples[start] for start in untitled):
        return "a start without a title stands in a sound"
    if not station.has_blanks and untitled:
        return "a start without a title where there is no blank"
    begins = [n for n, value in enumerate(samples) if not value and (n == 0 or samples[n - 1])]
    if station.is_safe and not set(begins) <= set(untitled):
        return "a silence does not begin with a start"
    if [start for start, _ in cues] != sorted({start for start, _ in cues}):
        return "its starts do not grow"
    return ""
