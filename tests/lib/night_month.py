"""A month of nights by a faked clock, of encoded files that change from day to day and while a night is rendered.

Two stations over one cache: one plays two lists that share songs, in parts, and the other one fades a list whose songs are
brought to one loudness. Each song has a tone of its own, so that what is heard is compared with what the cue files name.
"""
import csv
import datetime
import json
import os
import random
import shutil
import subprocess
import threading
import time
from array import array
from typing import Any, Dict, Iterator, List, Optional, Set, Tuple

from lib.common import TOP, content
from lib.night_place import NIGHT
from lib.stations import cues_in, write_file

FIRST, ZONE = datetime.date(2026, 10, 5), "Europe/Berlin"      # the clocks go back on 25 October
RATE, SONGS, HOURS, CACHE = 22050, 44, 0.1, 0.03               # hours of a night, GB of the cache
LOW, STEP = 300, 40                                            # song k has a tone of 300 + 40 k Hz
FORMS = {"mp3": ("-c:a", "libmp3lame", "-b:a", "64k"), "flac": ("-c:a", "flac"), "ogg": ("-c:a", "libvorbis"),
         "m4a": ("-c:a", "aac", "-b:a", "64k"), "wav": ("-c:a", "pcm_u8"),
         "vbr": ("-c:a", "libmp3lame", "-q:a", "2", "-write_xing", "0", "-id3v2_version", "0")}
NAMES = {3: "it's \"so\"", 5: "$(true) 100%", 8: "-dash", 11: "a\tb", 14: "K\u00e4the \u6b4c", 17: "x" * 150, 20: "back\\slash"}
STATIONS = {
    "one": ('radio = switch([({2m-4m}, playlist("rock.m3u")), ({true}, playlist("all.m3u"))])', ("--part=0.04",)),
    "two": ('radio = crossfade(duration=2., playlist("faded.m3u"))', ("--loudness=-18",))}
PAGE = os.path.join(TOP, "bin", "liq-page")
Rows = List[Tuple[int, float, str]]            # of each track that began its night, its second in it, and its file


class Song:
    """A file with a tone. It was touched in some nights, in which nothing is said of when it comes."""

    def __init__(self, number: int, form: str, name: str):
        ending = {"vbr": "mp3"}.get(form, form)
        self.number, self.form, self.name = number, form, f"music/{name}.{ending}"
        self.touched: Set[int] = set()
        self.story: List[str] = []             # what was done to it


class Songs:
    """A folder of songs that somebody changes from night to night."""

    def __init__(self, folder: str, seed: int, names: Dict[int, str]):
        self.folder, self.chance, self.names = folder, random.Random(seed), names
        self.songs: List[Song] = []
        self.gone: List[Song] = []
        self.cut: Set[str] = set()
        self.night, self.changes = 0, 0
        os.mkdir(self.path("music"))
        for k in range(SONGS):
            self.songs.append(self.made(k, list(FORMS)[k % len(FORMS)]))

    def path(self, *names: str) -> str:
        return os.path.join(self.folder, *names)

    def made(self, number: int, form: str) -> Song:
        """Makes a song of six to eleven seconds. One of the form vbr is silent for the most part, so that its length is
        told far too long."""
        song, seconds = Song(number, form, self.names.get(number, f"song {number:02}")), 6 + number % 6
        tone = f"sine=f={LOW + STEP * number}:r={RATE}:d={seconds}"
        graph = f"{tone}[a];anullsrc=r={RATE}:cl=mono:d=6[b];[b][a]concat=n=2:v=0:a=1" if form == "vbr" else tone
        part = self.path("part." + song.name.rpartition(".")[2])
        subprocess.run(["ffmpeg", "-v", "error", "-y", "-filter_complex", graph, "-ar", str(RATE),
                        "-metadata", f"title=Song {number}", *FORMS[form], part], check=True, stdin=subprocess.DEVNULL)
        os.replace(part, self.path(song.name))
        return song

    @staticmethod
    def is_readable(path: str) -> bool:
        """Whether something can be heard of a file."""
        done = subprocess.run(["ffmpeg", "-v", "error", "-i", path, "-f", "s16le", "-"], stdout=subprocess.PIPE,
                              stderr=subprocess.DEVNULL, stdin=subprocess.DEVNULL, check=False)
        return len(done.stdout) > 0

    def change(self) -> None:
        """Removes, renames, replaces, cuts or adds a song."""
        what, song = self.chance.choice("remove rename replace cut cut add add".split()), self.chance.choice(self.songs)
        path = self.path(song.name)
        song.touched.update((self.night - 1, self.night, self.night + 1))
        song.story.append(f"{what} in night {self.night}")
        self.changes += 1
        if what == "remove" and len(self.songs) > SONGS - 8:
            os.remove(path)
            self.songs.remove(song)
            self.gone.append(song)
        elif what == "rename":
            folder, _, last = song.name.partition("/")
            song.name = f"{folder}/{self.night} {last}" if len(last) < 180 else song.name
            song.touched.update(range(self.night + 2))
            os.rename(path, self.path(song.name))
        elif what == "replace":
            self.songs[self.songs.index(song)] = other = self.made(song.number, song.form)
            os.replace(self.path(other.name), path)
            other.name, other.touched, other.story = song.name, song.touched, song.story
        elif what == "cut":
            data = content(path)
            write_file(self.folder, "part", data[:len(data) * 3 // 5])
            os.replace(self.path("part"), path)
            self.cut.add(song.name)
            # nothing can be read of an m4a, nor of an ogg that was cut before
            song.touched.update(() if self.is_readable(path) else range(self.night - 1, 1000))
        elif self.gone:
            back = self.gone.pop(0)
            self.songs.append(self.made(back.number, back.form))
            self.songs[-1].touched.update(range(self.night + 2))


class Month(Songs):
    """The folder of two stations, and what was played of it."""

    def __init__(self, program: str, folder: str, seed: int = 1):
        super().__init__(folder, seed, NAMES)
        self.program, self.heard = program, 0
        self.found: List[str] = []
        self.rows: Dict[str, Rows] = {name: [] for name in ("all", "rock", "faded")}
        self.sizes: List[int] = []
        for name, (script, _) in STATIONS.items():
            write_file(folder, f"{name}.liq", f'set("frame.audio.samplerate", {RATE})\n{script}\n'
                       f'output.file(%wav, "{name}.wav", mean(mksafe(radio)))\n')

    def lists(self) -> None:
        """Writes the lists, each in an order that one more song leaves as it is."""
        names = sorted(self.songs, key=lambda song: (song.number * 7919 % 101, song.number))
        for name, wanted in (("all", names), ("rock", [song for song in names if song.number % 3 == 0]), ("faded", names[::-1])):
            write_file(self.folder, f"{name}.m3u", "".join(song.name + "\n" for song in wanted))

    def meanwhile(self, is_over: threading.Event) -> None:
        """Changes a song or two while a night is rendered."""
        for _ in range(2):
            if not is_over.wait(self.chance.uniform(0.1, 1.5)):
                self.change()

    def call(self, station: str, start: str, clock: str) -> Tuple[int, List[str], str]:
        """Renders a night by a faked clock: its status, its lines, and what it says."""
        options = (*STATIONS[station][1], "--go-on", f"--cache={self.path('cache')}", f"--cache-size={CACHE}", "--report=nights.jsonl")
        done = subprocess.run(["faketime", "-f", f"@{clock}", NIGHT, f"--program={self.program}", *options, f"--start={start}",
                               f"{station}.liq", str(HOURS)], cwd=self.folder, capture_output=True, text=True, check=False,
                              stdin=subprocess.DEVNULL, errors="surrogateescape", timeout=900,
                              env={**os.environ, "TZ": ZONE, "NO_FAKE_STAT": "1"})
        return done.returncode, done.stdout.split("\n")[:-1], done.stderr

    def wants(self, what: str, got: object, wanted: object) -> None:
        if got != wanted:
            self.found.append(f"night {self.night}, {what}: {str(got)[:300]}, wanted {str(wanted)[:300]}")

    def day(self, number: int) -> None:
        """A day: two changes, the nights of both stations, and on each second day more changes while they are rendered."""
        self.night, date = number, FIRST + datetime.timedelta(number)
        for _ in range(2 if number else 0):
            self.change()
        self.lists()
        for station in STATIONS:
            is_over = threading.Event()
            changer = threading.Thread(target=self.meanwhile, args=(is_over,))
            if number % 2:
                changer.start()
            status, lines, said = self.call(station, "today:20:00", f"{date} 16:00:00")
            is_over.set()
            if number % 2:
                changer.join()
            self.wants(f"the end of {station}", (status, said), (0, ""))
            if status == 0:
                self.examine(station, date, lines)
        if number % 10 == 9:
            self.once_more(date)
        self.sizes.append(sum(os.path.getsize(os.path.join(base, name)) for base, _, names in os.walk(self.folder) for name in names))
        self.wants("what is left", [name for name in os.listdir(self.folder) if name.startswith(".night-")], [])
        cached = [os.path.getsize(self.path("cache", name)) for name in os.listdir(self.path("cache")) if name.endswith(".wav")]
        self.wants("the cache", sum(cached) <= CACHE * 1e9, True)

    def once_more(self, date: datetime.date) -> None:
        """The same night once more, after the clock was set back by an hour, plays the same."""
        before = cues_in(self.folder, "one.wav.cue")
        status, lines, said = self.call("one", "today:20:00", f"{date} 15:00:00")
        self.wants("once more", (status, said), (0, ""))
        again = cues_in(self.folder, "one.wav.cue")
        if all(self.night not in song.touched for song in self.songs):
            self.wants("what is played once more", again, before)
        else:
            self.wants("what begins once more", again[0], before[0])
        for name in ("all", "rock"):                        # it is this one that is heard
            self.rows[name] = [row for row in self.rows[name] if row[0] != self.night]
        self.examine("one", date, lines)

    def examine(self, station: str, date: datetime.date, lines: List[str]) -> None:
        """Compares a night with its cue file, its log and its clock, and notes what was played."""
        self.wants("the last line", lines[-1][:11].split(" ")[0], "0:06:00")
        self.wants("its page", lines[-1].partition("; page ")[2].split(";")[0], f"{station}.wav.html")
        self.wants("its start", content(self.path(f"{station}.wav.start")).decode()[:19], f"{date}T20:00:00")
        cues = [(at / RATE, name) for at, name in cues_in(self.folder, f"{station}.wav.cue")]
        self.compare_log(list(self.log_of(station, date)), [(at, name.replace("\t", " ")) for at, name in cues if name])
        if station == "two":
            self.rows["faded"] += [(self.night, at, name) for at, name in cues if name]
            return
        orders = {name: content(self.path(f"{name}.m3u")).decode(errors="surrogateescape").split("\n")[:-1] for name in ("rock", "all")}
        for at, name in cues:
            whose = self.list_of(at, name, orders)
            if name and whose:
                self.rows[whose].append((self.night, at, name))
            for song in self.songs if name and not whose else ():
                song.touched.update({self.night} if song.name == name else ())
        self.hear(cues)

    def list_of(self, at: float, file: str, orders: Dict[str, List[str]]) -> Optional[str]:
        """Of which list a track was played that begins at a second of its night. A switch may come a second late, so that then
        it is the list that goes on with it. Nothing where both have it, and what one of them played last is no entry now."""
        due = "rock" if 120 <= at < 240 else "all"
        having = [name for name, order in orders.items() if file in order]
        if not (120 <= at < 121.2 or 240 <= at < 241.2) or not having:
            return due
        lasts = {name: self.rows[name][-1][2] if self.rows[name] else "" for name in having}
        if len(having) > 1 and any(last not in orders[name] for name, last in lasts.items()):
            return None

        def steps(name: str) -> Tuple[int, bool]:
            order = orders[name]
            return (order.index(file) - order.index(lasts[name])) % len(order), name != due
        return having[0] if len(having) == 1 else min(having, key=steps)

    def compare_log(self, rows: List[Tuple[int, str]], cues: List[Tuple[float, str]]) -> None:
        """Compares the log with the cue file: the same files, in the same seconds."""
        self.wants("the files of the log", [name for _, name in rows], [name for _, name in cues])
        self.wants("the seconds of the log", [at for (second, _), (at, _) in zip(rows, cues) if abs(second - at) > 1], [])

    def log_of(self, station: str, date: datetime.date) -> Iterator[Tuple[int, str]]:
        """The second of the night and the file of each row of the log for royalties."""
        done = subprocess.run([PAGE, "--as=log", f"--start={date}:20:00", f"{station}.wav"], cwd=self.folder, capture_output=True,
                              text=True, check=False, errors="surrogateescape",
                              env={**os.environ, "LIQ_PROGRAMS": os.path.dirname(self.program)})
        begin = datetime.datetime.combine(date, datetime.time(20))
        for row in list(csv.reader(done.stdout.split("\n")[:-1]))[1:]:
            at = datetime.datetime.fromisoformat(f"{row[0]} {row[1]}")
            yield round((at - begin).total_seconds()), row[8]

    def hear(self, cues: List[Tuple[float, str]]) -> None:
        """Compares the tone that is heard at the end of each track with that of the file which the cue names."""
        samples = array("h", content(self.path("one.wav"))[44:])
        tones = {song.name: LOW + STEP * song.number for song in self.songs if self.night not in song.touched}
        for (at, name), (end, _) in zip(cues, cues[1:]):
            if name not in tones or end - at < 7 or name in self.cut:
                continue
            piece = samples[int((end - 1.2) * RATE):int((end - 0.7) * RATE)]
            heard = sum((a < 0) != (b < 0) for a, b in zip(piece, piece[1:]))
            self.heard += 1
            if abs(heard - tones[name]) > 12:
                self.found.append(f"night {self.night}, at {at:.1f} s: {heard} Hz are heard, and {name} has {tones[name]}")

    def order(self) -> None:
        """Each song that stays comes before another one comes again, list by list, over all nights."""
        touched = {song.name: song.touched for song in self.songs}
        rock = {song.name: song.touched for song in self.songs if song.number % 3 == 0}
        for name, rows in self.rows.items():
            self.found += [f"{name}: {line}; {self.stories(line)}" for line in out_of_order(rows, rock if name == "rock" else touched)]

    def stories(self, line: str) -> str:
        """What was done to the songs that a line names."""
        return "; ".join(f"{song.name}: {', '.join(song.story)}" for song in self.songs if song.story and song.name in line)


def out_of_order(rows: Rows, touched: Dict[str, Set[int]]) -> Iterator[str]:
    """A line for each song that comes again before another one has come which was there all the time. Of each song the
    nights are given in which it was touched."""
    last: Dict[str, int] = {}
    for at, (night, second, file) in enumerate(rows):
        if file in last and file in touched:
            between, nights = {row[2] for row in rows[last[file]:at]}, set(range(rows[last[file]][0] - 1, night + 1))
            due = sorted(other for other in touched.keys() - between if not touched[other] & nights)
            if due:
                yield f"{file} comes again in night {night} at {second:.1f} s, and not yet {due[:3]}"
        last[file] = at


def month(program: str, folder: str, nights: int) -> Tuple[List[str], str]:
    """Renders so many nights of both stations: what is wrong, and a line on what was seen."""
    one, begin = Month(program, folder), time.monotonic()
    for number in range(nights):
        one.day(number)
    one.order()
    told: List[Dict[str, Any]] = [json.loads(line) for line in content(one.path("nights.jsonl")).splitlines()]
    small, large = min(one.sizes[2:] or [0]) / 1e6, max(one.sizes[2:] or [0]) / 1e6
    if large > 1.2 * small:
        one.found.append(f"the disk grows: {[size // 1000000 for size in one.sizes]} MB")
    tracks = sum(map(len, one.rows.values()))
    line = (f"{nights} days: {len(told)} nights, {sum(row['status'] == 0 for row in told)} with status 0; {tracks} tracks, each as "
            f"in the log; {one.heard} tones heard; {one.changes} changes, {len(one.cut)} files cut; {small:.0f} to {large:.0f} MB; "
            f"{time.monotonic() - begin:.0f} s")
    return one.found, line


def trouble() -> Optional[str]:
    """Why no month can be made here; nothing where it can be."""
    missing = [name for name in ("faketime", "ffmpeg") if not shutil.which(name)]
    return f"{missing[0]} is missing" if missing else None
