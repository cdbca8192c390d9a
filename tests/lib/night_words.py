"""Runs of tests/night on its words: when it begins, which script a date plays, where lists go on, what stops it."""
import ast
import datetime
import glob
import os
import shlex
import shutil
import subprocess
import sys
import time

from lib.common import TOP, content, header, left_samples
from lib.night_files import in_folder
from lib.night_place import NIGHT, RATE
from lib.place import Skipped
from lib.stations import cues_in, write_file

sys.path.insert(0, os.path.join(TOP, "share", "liq"))
from liq.nights import dates, memory, words, work  # noqa: E402
from liq.nights.library import Library  # noqa: E402
from liq.nights.rooms import Rooms  # noqa: E402
from liq.nights.station import Station  # noqa: E402
from liq.reading import patience  # noqa: E402
from liq.reading.companion import companion_of  # noqa: E402

UNITS = os.path.join(TOP, "share", "liq", "systemd")
FRIDAY = datetime.datetime(2026, 12, 4, 15, 30, 10)
TIMES = (("5:20:00:00", 4, 20, "2026-12-04"), ("4:20:00:00", 3, 20, "2026-12-10"),
         ("now", 4, 15.5 + 10 / 3600, "2026-12-04"), ("today:20:00", 4, 20, "2026-12-04"),
         ("tomorrow:06:30:00", 5, 6.5, "2026-12-05"), ("friday:20:00", 4, 20, "2026-12-04"),
         ("monday:00:00", 0, 0, "2026-12-07"))
NO_TIMES = ("8:00:00:00", "today", "today:24:00", "today:8:00", "Friday:20:00", "later:20:00", "today:20:00:60", "",
            "now:20:00")


def wrong_times():
    """Each form of --start is a second of the week and a date."""
    found = []
    for text, day, hours, date in TIMES:
        wanted = words.When(round(day * 86400 + hours * 3600), datetime.date.fromisoformat(date))
        if words.read_when(text, FRIDAY)[:2] != wanted[:2]:
            found.append(f"{text} is {words.read_when(text, FRIDAY)}")
    return found + [f"{text} is a time" for text in NO_TIMES if words.read_when(text, FRIDAY)]


def starts_and_words(place):
    """Starts by name are right on a Friday, and a call with one renders."""
    place.found += wrong_times()
    lines = place.night("--start=monday:23:59:00", "f", "0.01")
    place.wants("the start", lines[0].split(",")[0], "part 1: from 1:23:59:00")
    for option in ("--start=later", "--cache-size=0", "--loudness=18", "--calendar="):
        place.wants(option, place.run(option, "f", "1")[0], 2)


def calendar_of(place):
    return in_folder(place, lambda: dates.Calendar("dates"))


def a_calendar(place):
    """A date has its script, by the year before each year; what is wrong in a calendar is told with its line."""
    write_file(place.folder, "dates", "# dates\n\n12-24 christmas eve.liq\n2026-12-24\tthis.liq\n02-29 leap.liq\n")
    for name in ("christmas eve.liq", "this.liq", "leap.liq"):
        write_file(place.folder, name, "")
    calendar = calendar_of(place)
    for date, script in (("2026-12-24", "this.liq"), ("2027-12-24", "christmas eve.liq"), ("2026-12-25", "usual"),
                         ("2028-02-29", "leap.liq")):
        named = in_folder(place, lambda: calendar.script(datetime.date.fromisoformat(date), "usual"))
        place.wants(date, named, script)
    os.remove(place.path("leap.liq"))
    place.wants("what is missing", in_folder(place, lambda: len(calendar.missing())), 1)
    form = "is no date; one is as 2026-12-24, or as 12-24 for each year"
    for text, wanted in (("x y", f"1: x {form}"), ("\n2026-02-29 f", f"2: 2026-02-29 {form}"),
                         ("12-24", "1: no script stands behind the date"),
                         ("12-24 f\n12-24 g", "2: 12-24 has a script in line 1 already")):
        write_file(place.folder, "dates", text)
        status, lines, said = place.run("--calendar=dates", "f", "0.01")
        place.wants(text, (status, said, lines[:1]), (0, "", [f"dates:{wanted}; the line is passed over"]))
        place.wants("by --strict", place.run("--strict", "--calendar=dates", "f", "0.01")[0], 1)
    place.wants("none", place.run("--calendar=none", "f", "0.01")[1][:1],
                ["none: No such file or directory; the usual script is played"])
    write_file(place.folder, "dates", f"{FRIDAY.date().isoformat()} gone.liq\n")
    place.wants("a script that is gone", calendar_of(place).script(FRIDAY.date(), "usual"), "usual")
    write_file(place.folder, "g", content(place.path("f")).replace(b"A.wav", b"G.wav"))
    today = datetime.date.today()
    write_file(place.folder, "dates", f"{today} g\n{today + datetime.timedelta(1)} g\n")      # midnight may be near
    lines = place.night("--calendar=dates", "--start=today:20:00", "f", "0.01")
    place.wants("the night of today", (lines[0].split(" ", 1)[1], lines[-1].split(";")[0]),
                ("is played by g", "0:00:36 in 1 part: G.wav"))


def lists_go_on(place):
    """Three nights by --go-on are the list in its order, without an entry lost or played twice, in parts too."""
    names = []
    for call in (("--part=0.02", "f", "0.05"), ("f", "0.02"), ("--start=3:00:00:00", "f", "0.04")):
        place.night("--go-on", *call)
        names += [name for _, name in cues_in(place.folder, "A.wav.cue")]
    place.wants("the names", names, [f"t{[0, 1, 2, 3, 4, 5, 6, 7, 2, 2][k % 10]}.wav" for k in range(len(names))])
    place.wants("enough of them", len(names) > 12, True)
    count = len(names)
    write_file(place.folder, "m.m3u", "".join(f"t{k}.wav\n" for k in (7, 6, 5, 4, 3, 2, 1, 0)))
    place.night("--go-on", "f", "0.01")
    first = f"t{[0, 1, 2, 3, 4, 5, 6, 7, 2, 2][count % 10]}.wav"
    place.wants("in a list of another order", cues_in(place.folder, "A.wav.cue")[0][1], first)
    write_file(place.folder, "m.m3u", "t0.wav\n")
    status, lines, said = place.run("--go-on", "f", "0.01")
    place.wants("where it is no entry", (status, said, [line for line in lines if "is no entry now" in line][:1] != []),
                (0, "", True))
    kept = content(place.path("A.wav.next"))
    place.run("--go-on", "f", "0.01", program=place.slow("exit 5"))
    place.wants("after a night that failed", content(place.path("A.wav.next")), kept)
    write_file(place.folder, "m.m3u", "")
    place.wants("an empty list", place.run("--go-on", "f", "0.01")[0], 1)
    place.wants("after an empty list", content(place.path("A.wav.next")), kept)
    write_file(place.folder, "m.m3u", "t0.wav\n")


def what_stops_and_what_is_told(place):
    """An entry that is skipped is told, in the last line and on the page; by --strict it stops the night, and so does a
    list without an entry in any case."""
    write_file(place.folder, "m.m3u", "t0.wav\ngone.wav\nt1.wav\n")
    lines = place.night("f", "0.02")
    place.wants("the last line", lines[-1].partition("; found ")[2],
                "2: list m.m3u: 2 entries are played, 1 is skipped, ..")
    place.wants("what is played", {name for _, name in cues_in(place.folder, "A.wav.cue")}, {"t0.wav", "t1.wav"})
    place.wants("the page", b"Found before: " in content(place.path("A.wav.html")), True)
    status, _, said = place.run("--strict", "f", "0.02")
    place.wants("by --strict", (status, said.split(":")[1]), (1, " nothing is rendered, as by --strict"))
    write_file(place.folder, "m.m3u", "gone.wav\n")
    status, _, said = place.run("f", "0.02")
    place.wants("a list without an entry", (status, said.split(":")[1]), (1, " nothing is rendered"))


def station_in(place, longest):
    companion = companion_of(place.program)
    return Station("f", companion, companion.files("f"), longest)


def a_reader_that_is_slow(place):
    """The reader of scripts may take as long as it makes progress, and one that stands still is ended."""
    old, patience.LOOK = patience.LOOK, 0.2
    reads = "while [ $k -lt 30 ]; do k=$((k + 1)); read line < f; sleep 0.1; done; echo done"
    try:
        for text, told in ((f"k=0; {reads}", "done"), ("sleep 20", "no answer")):
            begin = time.monotonic()
            try:
                done = patience.run(["sh", "-c", text], 1, folder=place.folder)
                got = done.stdout.decode().strip()
            except subprocess.TimeoutExpired:
                got = "no answer"
            place.wants(text, (got, time.monotonic() - begin < 15), (told, True))
    finally:
        patience.LOOK = old


def parts_by_memory(place):
    """Where less memory is free than the sounds of the night take, it is parts that take no more, and the bytes are
    those of one call; parts are of about the same length."""
    wanted, _ = place.call(22500)
    old, free = memory.for_sounds, 2500000
    memory.for_sounds = lambda: free
    sizes = []

    def call():
        station, made = station_in(place, 6 * 3600), Rooms(["A.wav"])
        night = work.Night(station, place.program, 0, 900, made, Library(station.facts))
        entries = night.entries

        def noted(seconds):
            found = entries(seconds)
            sizes.append(night.size(found[1]))
            return found
        night.entries = noted
        with open(os.devnull, "w", encoding="utf-8") as sys.stdout:
            night.run(False)
        sys.stdout = sys.__stdout__
        night.put()
        made.end()
        return night
    night = in_folder(place, call)
    memory.for_sounds = old
    place.wants("the bytes", place.made() == wanted, True)
    place.wants("several parts, each within memory", (len(night.borders) > 3, max(sizes) <= free), (True, True))
    lengths = [(b - a) / RATE for a, b in zip([0, *night.borders], [*night.borders, night.whole])]
    place.wants("no short part", min(lengths) > 0.4 * max(lengths), True)
    night.done, night.whole = 0, 12 * 3600 * RATE
    night.station = replace_longest(night.station, 6 * 3600)
    place.wants("twelve hours", (night.wanted(), night.evenly(6 * 3600 + 100, 6.3 * 3600)), (21600, 21700))


def a_part_that_is_refused_memory(place):
    """A part for which memory was refused is made anew with fewer sounds, as long as it can be."""
    wanted, _ = place.call(22500)
    once = place.path("slow", "once")
    program = place.slow(f"[ -e '{once}' ] || {{ touch '{once}'; exit 5; }}")
    status, lines, said = place.run("f", "0.25", program=program)
    place.wants("the end", (status, said), (0, ""))
    place.wants("several parts", len(lines) > 3, True)
    place.wants("the bytes", place.made() == wanted, True)


def replace_longest(station, longest):
    station.longest, station.limit = longest, lambda: 24 * 3600
    return station


def entries_are_decoded(place):
    """Entries that liq does not read are decoded, those alone that a part plays; one that cannot be is skipped and
    told. Cue files have the entries' names, and the cache stays within its size."""
    if not shutil.which("ffmpeg"):
        raise Skipped("ffmpeg is missing")
    for k in range(6):                                  # of 8 bits
        data = bytes([100 + k]) * (20 * RATE)
        write_file(place.folder, f"e{k}.wav", header(len(data), rate=RATE, width=1) + data)
    write_file(place.folder, "junk.mp3", "junk")
    write_file(place.folder, "m.m3u", "e0.wav\njunk.mp3\nt0.wav\n" + "".join(f"e{k}.wav\n" for k in range(1, 6)))
    options = (f"--cache={place.path('cache')}", "--cache-size=0.002")
    lines = place.night(*options, "f", "0.0111")
    decoded = [name for name in os.listdir(place.path("cache")) if name.endswith(".wav")]
    place.wants("what is decoded", len(decoded), 2)
    place.wants("what is told", lines[-1].partition("; found ")[2].split(": left out")[0], "1: junk.mp3")
    place.wants("the cues", cues_in(place.folder, "A.wav.cue"), [(0, "e0.wav"), (160000, "t0.wav")])
    place.night(*options, "--part=0.02", "f", "0.0388")
    place.wants("the names", [name for _, name in cues_in(place.folder, "A.wav.cue")],
                ["e0.wav", "t0.wav", *(f"e{k}.wav" for k in range(1, 6))])
    place.wants("the samples", [round(left_samples(place.path("A.wav"))[k * 160000 + 80000] / 256) for k in (0, 2, 6)],
                [100 - 128, 101 - 128, 105 - 128])
    size = sum(os.path.getsize(place.path("cache", name)) for name in os.listdir(place.path("cache")))
    place.wants("the cache", size < 2100000, True)
    status, _, said = place.run(f"--cache={place.path('small')}", "--cache-size=0.0003", "f", "0.0388")
    place.wants("a cache that is too small", (status, said.startswith("night: ")), (4, True))


def settings_of_any_form(place):
    """What a script sets is what it means, however it is written."""
    wanted, _ = place.call(2250)
    text = content(place.path("f")).decode().replace(f", {RATE})", ", 2 * 4000)")
    write_file(place.folder, "f", '# set("frame.audio.samplerate", 192000)\nset("frame.duration", 0.08)\n'
               + 'set("frame.duration", 0.04)\n' + text)
    status, _, said = place.run("--part=0.01", "f", "0.025")
    place.wants("the night", (status, said), (0, ""))
    place.wants("the bytes", place.made() == wanted, True)


def units_are_right(place):
    """systemd takes the units of share/liq/systemd. Each wants its disk, and those of the air are begun again."""
    if not shutil.which("systemd-analyze"):
        raise Skipped("systemd-analyze is missing")
    for path in glob.glob(os.path.join(UNITS, "*")):
        text = content(path).decode().replace("/usr/bin/liq-", os.path.join(TOP, "bin", "liq-"))
        write_file(place.folder, os.path.basename(path), text)
        place.wants(f"a disk that is not mounted is no failure by {os.path.basename(path)}", "ConditionPath" in text, False)
    for name, is_kept in (("liq-night@", False), ("liq-prepare@", False), ("liq-air@", True), ("liq-station@", True)):
        place.wants(f"the mounts of {name}", called_by(f"{name}.service", "RequiresMountsFor") != [], True)
        place.wants(f"whether {name} is begun again", called_by(f"{name}.service", "Restart"), ["always"] * is_kept)
    names = sorted(name.replace("@.", "@f.") for name in os.listdir(place.folder)
                   if name.endswith((".service", ".timer")))
    for name in names:
        os.symlink(name.replace("@f.", "@."), place.path(name))
    place.wants("units", len(names) >= 3, True)
    done = subprocess.run(["systemd-analyze", "verify", "--man=no", *map(place.path, names)], capture_output=True,
                          text=True, check=False, env={**os.environ, "SYSTEMD_UNIT_PATH": place.folder + ":"})
    mine = [line for line in done.stderr.split("\n") if "liq-night" in line]
    place.wants("what it says", (done.returncode, mine), (0, []))


def called_by(unit, key="ExecStart"):
    """The values of a key of a unit, of the station `station`."""
    text = content(os.path.join(UNITS, unit)).decode().replace("%i", "station")
    return [line.partition("=")[2] for line in text.split("\n") if line.startswith(key + "=")]


def a_finding_reaches_the_mail(place):
    """By the units of systemd root has a mail on a night in which something is found, which ends with 0, and none on another one."""
    mailer = "liq-night-mail@station.service"
    for end in ("OnFailure", "OnSuccess"):
        place.wants(f"{end} of a night", called_by("liq-night@.service", end), [mailer])
    os.rename(place.path("f"), place.path("station.liq"))
    os.mkdir(place.path("bin"))
    for name, text in (("journalctl", "cat lines"), ("mail", 'printf "%s\\n" "$*" > sent; cat >> sent')):
        write_file(place.folder, f"bin/{name}", f"#!/bin/sh\n{text}\n")
        os.chmod(place.path("bin", name), 0o755)
    command, *words = shlex.split(called_by("liq-night@.service")[0])
    place.wants("the command", (os.path.basename(command), words[-2:]), ("liq-night", ["station.liq", "12"]))
    for lists, wanted in (("t0.wav\n", ""), ("t0.wav\ngone.wav\n", "-s station: success root\n")):
        write_file(place.folder, "m.m3u", lists)
        status, lines, said = place.run(*words[:-1], "0.01")
        write_file(place.folder, "lines", "".join(line + "\n" for line in lines))
        place.wants("the night", (status, said, os.path.exists(place.path("sent"))), (0, "", False))
        subprocess.run(shlex.split(called_by("liq-night-mail@.service")[0].replace("$$", "$")), cwd=place.folder, check=True,
                       env={"PATH": place.path("bin") + ":/usr/bin:/bin", "MONITOR_SERVICE_RESULT": "success", "MONITOR_INVOCATION_ID": "x"})
        sent = content(place.path("sent")).decode() if os.path.exists(place.path("sent")) else ""
        place.wants("the mail", (sent[:len(wanted)] if wanted else sent, "list m.m3u skips gone.wav" in sent), (wanted, bool(wanted)))


def an_older_python(place):
    """All modules are Python 3.9, and are imported by it where it is there."""
    paths = glob.glob(os.path.join(TOP, "share", "liq", "**", "*.py"), recursive=True)
    for path in [*paths, *glob.glob(os.path.join(TOP, "bin", "liq-*"))]:
        text = content(path)
        if text.startswith(b"#!/bin/sh"):
            continue
        try:
            ast.parse(text, path, feature_version=(3, 9))
        except SyntaxError as error:
            place.found.append(str(error))
    others = glob.glob(os.path.expanduser("~/.pyenv/versions/3.9*/bin/python3.9"))
    python = next(filter(None, map(python_of, ("python3.9", *others))), None)
    if not python:
        raise Skipped("python3.9 is missing, so no module is imported by it")
    names = sorted(os.path.relpath(path, os.path.join(TOP, "share", "liq"))[:-3].replace("/", ".") for path in paths)
    code = "import importlib, sys\nfor name in sys.argv[1:]: importlib.import_module(name.replace('.__init__', ''))"
    done = subprocess.run([python, "-B", "-c", code, *names], capture_output=True, text=True, check=False,
                          env={**os.environ, "PYTHONPATH": os.path.join(TOP, "share", "liq")})
    place.wants("the imports", (done.returncode, done.stderr), (0, ""))
    done = subprocess.run([python, NIGHT, f"--program={place.program}", "f", "0.01"], cwd=place.folder,
                          capture_output=True, text=True, check=False)
    place.wants("a night", (done.returncode, done.stderr), (0, ""))


def unused_and_unknown_names(place):
    """Where pyflakes is installed it finds nothing in the commands, their modules, the tools and the tests."""
    if not shutil.which("pyflakes3"):
        raise Skipped("pyflakes3 is missing")
    paths = [path for folder in ("bin", "share/liq", "tests", "tools", "bench")
             for path in glob.glob(os.path.join(TOP, folder, "**", "*"), recursive=True) if is_python(path)]
    done = subprocess.run(["pyflakes3", *paths], capture_output=True, text=True, check=False)
    place.found += done.stdout.split("\n")[:-1] + done.stderr.split("\n")[:-1]
    place.wants("some were looked at", len(paths) > 100, True)


def types_that_differ(place):
    """Where Debian's mypy is installed it finds nothing in the modules and the commands; other ones find other things."""
    mypy = shutil.which("mypy")
    if not mypy or " 1.0." not in subprocess.run([mypy, "--version"], capture_output=True, text=True, check=False).stdout:
        raise Skipped("mypy 1.0 is missing")
    modules = os.path.join(TOP, "share", "liq")
    commands = [path for path in glob.glob(os.path.join(TOP, "bin", "*")) if is_python(path)]
    for options, paths in ((["--explicit-package-bases", "--namespace-packages"], ["."]),
                           (["--scripts-are-modules"], commands)):
        done = subprocess.run([mypy, "--no-error-summary", "--cache-dir", os.path.join(place.folder, "mypy"), *options,
                               *paths], cwd=modules, capture_output=True, text=True, check=False)
        place.found += [line for line in (done.stdout + done.stderr).split("\n") if ": error: " in line]
        place.wants("the status of mypy", done.returncode, 0)


def is_python(path):
    """Whether a file is a module or a command of Python."""
    if not os.path.isfile(path) or path.endswith(".pyc"):
        return False
    with open(path, "rb") as file:
        first = file.readline()
    return path.endswith(".py") or first.startswith(b"#!") and b"python" in first


def python_of(name):
    """The path of a Python that runs."""
    path = shutil.which(name)
    if path and subprocess.run([path, "-c", "0"], capture_output=True, check=False).returncode == 0:
        return path
    return None


TWO_CLOCKS = """radio = mksafe(playlist("m.m3u"))
jingle = {}
output.file(%wav, "A.wav", mean(radio))
output.file(%wav, "B.wav", clock(id="other", mean(mksafe(jingle))))"""


def windows_of_a_night(place):
    """Where no source is a buffer a night has windows of 1000 ticks, with the bytes, cues and report of the windows
    that a call has by itself and of one thread; with a buffer it leaves them to liq."""
    told = place.path("told")
    program = place.slow(f"echo \"$*\" >> '{told}'")
    for jingle, wanted in (('single("j.wav")', ["--window=1000"]), ("buffer(radio)", [])):
        place.script(TWO_CLOCKS.format(jingle))
        write_file(place.folder, "told", "")
        status, _, said = place.run("f", "0.02", program=program)
        place.wants(f"a night of {jingle}", (status, said), (0, ""))
        calls = content(told).decode().split("\n")[:-1]
        place.wants(f"the windows of {jingle}",
                    [[word for word in call.split() if word.startswith("--window")] for call in calls], [wanted])
        if wanted:
            made = [place.made(name) for name in ("A.wav", "B.wav")]
            for options in ((), ("--one-thread",), ("--window=1",), ("--window=1000",)):
                place.call(1800, *options)
                place.wants(f"the bytes of {options}", [place.made(name) for name in ("A.wav", "B.wav")] == made, True)
    os.remove(told)


RUNS = (starts_and_words, a_calendar, lists_go_on, windows_of_a_night, what_stops_and_what_is_told, parts_by_memory, a_reader_that_is_slow,
        a_part_that_is_refused_memory, entries_are_decoded, settings_of_any_form, units_are_right, a_finding_reaches_the_mail, an_older_python,
        unused_and_unknown_names, types_that_differ)
