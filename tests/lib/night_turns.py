"""Runs of tests/night on what a night plays next: lists that share songs, the same night once more, and what is gone."""
import collections
import csv
import datetime
import http.server
import json
import os
import resource
import shutil
import subprocess
import sys
import threading

from lib.common import TOP, content, header, left_samples, sound
from lib.night_files import mounted
from lib.night_place import NIGHT, RATE, SECONDS
from lib.place import Skipped
from lib.stations import cues_in, write_file

sys.path.insert(0, os.path.join(TOP, "share", "liq"))
from liq.reading.programs import beside  # noqa: E402

PAGE = os.path.join(TOP, "bin", "liq-page")
TODAY = "--start=today:20:00"
BERLIN = "CET-1CEST,M3.5.0,M10.5.0/3"          # a time zone, for the library of C


def short_songs(place, count, seconds=2):
    """Makes songs s00.wav and so on, each of a value of its own."""
    names = [f"s{k:02}.wav" for k in range(count)]
    for k, name in enumerate(names):
        write_file(place.folder, name, sound([100 * (k + 1)] * (seconds * RATE), rate=RATE))
    return names


def played(place, name="A.wav.cue"):
    """The titles of a cue file; none where there was no night."""
    return [title for _, title in cues_in(place.folder, name) if title] if os.path.exists(place.path(name)) else []


def held(place, name):
    """The bytes of a file; none where it is not there."""
    return content(place.path(name)) if os.path.exists(place.path(name)) else b""


def lists_that_share(place):
    """A list of all songs and one of some, by turns, and a single that is a song of both: each goes on behind its own
    song, so that no song comes again before its list is over."""
    names = short_songs(place, 14)
    some = names[5:9]
    write_file(place.folder, "all.m3u", "".join(name + "\n" for name in names))
    write_file(place.folder, "some.m3u", "".join(name + "\n" for name in some))
    place.script('radio = switch([({0s-6s or 20s-26s or 40s-46s}, playlist("some.m3u")), ({30s-31s}, single("s06.wav")), '
                 '({true}, playlist("all.m3u"))])\noutput.file(%wav, "A.wav", mean(mksafe(radio)))')
    of_all, of_some = [], []
    for night in range(14):
        place.night("--go-on", "--start=1:00:00:00", "--part=0.004", "f", "0.0086")
        for at, title in cues_in(place.folder, "A.wav.cue"):
            second = at // RATE % 60
            if not 30 <= second <= 31:
                (of_some if second % 20 < 6 else of_all).append(title)
    for what, found, songs in (("all", of_all, names), ("some", of_some, some)):
        steps = collections.Counter((songs.index(b) - songs.index(a)) % len(songs) for a, b in zip(found, found[1:]))
        place.wants(f"the steps in the list of {what}", dict(steps), {1: len(found) - 1})
        place.wants(f"songs of {what} that are played", set(found), set(songs))


def a_length_that_is_told_too_long(place):
    """Sounds that are shorter than ffprobe tells: the list does not begin anew within a part, and nothing is called
    damaged that is whole."""
    if not shutil.which("ffmpeg"):
        raise Skipped("ffmpeg is missing")
    loud = "anoisesrc=d=4:c=white:r=44100:a=0.4"
    for k in range(9):
        graph = f"anullsrc=r=44100:cl=mono:d=8[a];{loud}:s={k}[b];[a][b]concat=n=2:v=0:a=1"
        subprocess.run(["ffmpeg", "-v", "error", "-y", "-filter_complex", graph, "-c:a", "libmp3lame", "-q:a", "2",
                        "-write_xing", "0", "-id3v2_version", "0", place.path(f"v{k}.mp3")], check=True)
    write_file(place.folder, "m.m3u", "".join(f"v{k}.mp3\n" for k in range(9)))
    lines = place.night("--go-on", f"--cache={place.path('cache')}", "--start=1:00:00:00", "f", "0.0217")
    place.wants("what is played", played(place), [f"v{k}.mp3" for k in range(7)])
    place.wants("what is found", "; found" in lines[-1], False)


def the_same_night_once_more(place):
    """A night with a start that is rendered twice plays the same, also where a later one was made meanwhile; that one stays, and the
    next one goes on behind it."""
    first = place.night("--go-on", TODAY, "f", "0.02") and played(place)
    again = place.night("--go-on", TODAY, "f", "0.02") and played(place)
    place.wants("the same night", again, first)
    place.night("--go-on", "--start=tomorrow:20:00", "f", "0.02")
    place.wants("the night behind it", played(place)[:1], [f"t{len(first)}.wav"])
    place.wants("its start", held(place, "A.wav.start").decode()[:19],
                f"{datetime.date.today() + datetime.timedelta(1)}T20:00:00")
    behind = played(place)
    for start, wanted in ((TODAY, first), ("--start=tomorrow:20:00", behind), (TODAY, first)):
        place.night("--go-on", start, "f", "0.02")
        place.wants(f"once more of {start}", played(place), wanted)
    place.night("--go-on", f"--start={datetime.date.today() + datetime.timedelta(2)}:20:00", "f", "0.01")
    place.wants("the night behind both", played(place)[:1], [f"t{(len(first) + len(behind)) % 10}.wav"])
    place.night("--go-on", "f", "0.01")
    place.wants("a night without a start", played(place)[:1] != first[:1], True)


# A night whose files may have so many bytes.
SMALL = """import sys
sys.path.insert(0, {modules!r})
from liq.command import run
from liq.nights import parts
from liq.nights.command import main
parts.MOST = {most}
run(main, "", "night")
"""


def clocks_that_are_changed(place):
    """A night in which the clocks are set forward or back has each part at its moment, with the hour of that; the night of the day after
    goes on behind it."""
    code = SMALL.format(modules=os.path.join(TOP, "share", "liq"), most=500000)
    for first, moments in (("2026-03-29:01:59:50", ("2026-03-29T01:59:50+01:00", "2026-03-29T03:00:")),
                           ("2026-10-25:02:59:50", ("2026-10-25T02:59:50+02:00", "2026-10-25T02:00:"))):
        names = []
        for start, hours in ((first, "0.02"), (first[:10].replace("-29", "-30").replace("-25", "-26") + ":20:00", "0.01")):
            words = [f"--program={place.program}", f"--start={start}", "--go-on", "--part=0.006", "f", hours]
            done = subprocess.run([sys.executable, "-X", "utf8", "-c", code, *words], cwd=place.folder, capture_output=True, text=True,
                                  check=False, stdin=subprocess.DEVNULL, env={**os.environ, "TZ": BERLIN})
            place.wants(f"the night of {start}", (done.returncode, done.stderr), (0, ""))
            found = [name for name in ("A-1.wav", "A-2.wav", "A-3.wav") if os.path.exists(place.path(name))]
            if hours == "0.02":
                told = [held(place, name + ".start").decode().strip() for name in found]
                seconds = [datetime.datetime.fromisoformat(text).timestamp() for text in told]
                lengths = [(len(held(place, name)) - 44) / (2 * RATE) for name in found]
                place.wants("the parts", (len(found) > 1, told[0], told[1][:len(moments[1])]), (True, *moments))
                place.wants("their moments", [round(b - a, 4) for a, b in zip(seconds, seconds[1:])], [round(length, 4) for length in lengths[:-1]])
                names += [title for name in found for title in played(place, name + ".cue")]
            else:
                names += played(place)
        place.wants("what is played", names, [f"t{[0, 1, 2, 3, 4, 5, 6, 7, 2, 2][k % 10]}.wav" for k in range(len(names))])
        for name in os.listdir(place.folder):
            if name.startswith("A"):
                os.remove(place.path(name))


def a_day_of_another_script(place):
    """Where a calendar plays another script between two nights, its lists are where they were left."""
    write_file(place.folder, "x.m3u", "t5.wav\nt6.wav\n")
    write_file(place.folder, "g", content(place.path("f")).replace(b"m.m3u", b"x.m3u"))
    place.night("--go-on", TODAY, "f", "0.01")
    place.night("--go-on", "--start=tomorrow:20:00", "g", "0.01")
    place.night("--go-on", "--start=now", "f", "0.01")
    place.wants("what goes on", played(place)[:1], ["t2.wav"])


def what_cannot_be_read(place):
    """Entries that cannot be read, and a list that is gone where another source stands behind it, cost no night."""
    os.mkdir(place.path("folder.wav"))
    os.symlink("loop.wav", place.path("loop.wav"))
    write_file(place.folder, "m.m3u", f"t0.wav\nfolder.wav\nloop.wav\n{'x' * 300}.wav\nt1.wav\n")
    lines = place.night("f", "0.02")
    place.wants("what is played", set(played(place)), {"t0.wav", "t1.wav"})
    place.wants("what is found", "; found " in lines[-1], True)
    place.script('radio = fallback([playlist("gone.m3u"), playlist("m.m3u")])\n'
                 'output.file(%wav, "A.wav", mean(mksafe(radio)))')
    lines = place.run("f", "0.02")[1]
    place.wants("behind a list that is gone", set(played(place)), {"t0.wav", "t1.wav"})
    place.wants("what is told", [line for line in lines if "list gone.m3u: is not there; what stands" in line] != [], True)
    place.wants("by --strict", place.run("--strict", "f", "0.02")[0], 1)
    os.remove(place.path("m.m3u"))
    place.wants("where nothing is left", place.run("f", "0.02")[0], 1)


LACKING = (
    # what a radio is made of, how it goes on, and the songs that are heard; a file of single is not there
    ('switch(track_sensitive=false, [({0s-5s or 30s-35s}, single("none.wav")), ({true}, playlist("m.m3u"))])',
     "what stands beside it is played", True),
    ('rotate([single("none.wav"), playlist("m.m3u")])', "what stands beside it is played", True),
    ('random([single("none.wav"), playlist("m.m3u")])', "what stands beside it is played", True),
    ('fallback([playlist("m.m3u"), single("none.wav")])', "silence stands in for it", False),
    ('fallback([switch([({0s-5s}, single("none.wav"))]), playlist("m.m3u"), single("none.wav")])',
     "what stands beside it is played, or silence stands in for it", False),
    ('switch([({0s-5s}, clip("none.wav")), ({true}, clip("t0.wav"))])', "silence stands in for it", True))


def a_single_that_is_gone(place):
    """A file of a single that cannot be read costs no night where something else is played: what stands beside it is, or silence
    stands in for it, and a line says which. Where nothing else is played, there is no night."""
    write_file(place.folder, "m.m3u", "t0.wav\nt1.wav\n")
    for source, how, is_safe in LACKING:
        radio = f"mksafe({source})" if is_safe else source
        place.script(f'def clip(name) = single(name) end\nj = "none.wav"\noutput.file(%wav, "A.wav", {radio})')
        lines = place.night("f", "0.02")
        place.wants(f"what is told of {source}", f"audio file none.wav: is not there; {how}" in lines, True)
        place.wants(f"what is played by {source}", set(played(place)) <= {"t0.wav", "t1.wav"} and played(place) != [], True)
        samples = left_samples(place.path("A.wav")) if os.path.exists(place.path("A.wav")) else []
        place.wants(f"seconds of silence in {source}", samples.count(0) // RATE in ((5, 6) if "clip" in source else (0,)), True)
        place.wants("by --strict", place.run("--strict", "f", "0.02")[0], 1)
    os.mkdir(place.path("none.wav"))
    place.script('j = "none.wav"\noutput.file(%wav, "A.wav", mksafe(switch([({0s-5s}, single(j)), ({true}, playlist("m.m3u"))])))')
    lines = place.night("--part=0.01", "f", "0.02")
    place.wants("of a folder", lines[0], "audio file none.wav: is a folder; what stands beside it is played")
    place.wants("what is found", lines[-1].partition("; found ")[2][:27], "1: audio file none.wav: is ")
    place.lies("afterwards", "A.wav", "A.wav.cue", "A.wav.html", "none.wav")
    place.script('output.file(%wav, "A.wav", mksafe(single("none.wav")))')
    place.wants("where nothing else is played", place.run("f", "0.02")[0], 1)


def a_script_that_is_refused(place):
    """With --go-on the script that was rendered last is played where the new one is refused, or is not there."""
    place.night("--go-on", TODAY, "f", "0.01")
    good = content(place.path("f"))
    for text in (b"radio = ", good.replace(b"mksafe", b""), good.replace(b"m.m3u", b"none.m3u")):
        write_file(place.folder, "f", text)
        lines = place.night("--go-on", TODAY, "f", "0.01")
        told = [line for line in lines if line.startswith("f: ") and line.endswith("f.last, which was rendered last, is played")]
        place.wants(f"what is told of {text[-60:]}", len(told), 1)
        place.wants("without --go-on", place.run(TODAY, "f", "0.01")[0], 1)
    os.remove(place.path("f"))
    place.night("--go-on", TODAY, "f", "0.01")
    place.wants("the script that is kept", held(place, "f.last"), good)


def what_was_next_is_gone(place):
    """Where the entry that was next is taken out of a list, and others before it, the list goes on with the one that came then."""
    names = short_songs(place, 12)
    write_file(place.folder, "m.m3u", "".join(name + "\n" for name in names))
    place.night("--go-on", TODAY, "f", "0.0028")
    place.wants("the first night", played(place), names[:6])
    write_file(place.folder, "m.m3u", "".join(name + "\n" for name in names if name not in (*names[1:4], *names[6:8])))
    lines = place.night("--go-on", "--start=tomorrow:20:00", "f", "0.0028")
    place.wants("the night behind it", played(place), [*names[8:], names[0], names[4]])
    place.wants("what is told", [line for line in lines if line.endswith("s06.wav was next, and is no entry now; it goes on with s08.wav")] != [],
                True)


def a_list_that_loses_most(place):
    """Where a list loses its middle, with what was next and far more behind it, it goes on with the first one behind that, so that no
    song comes again before those that are left."""
    names = short_songs(place, 60)
    write_file(place.folder, "m.m3u", "".join(name + "\n" for name in names))
    place.night("--go-on", TODAY, "f", "0.0166")
    place.wants("the first night", played(place), names[:30])
    write_file(place.folder, "m.m3u", "".join(name + "\n" for name in names[:10] + names[53:]))
    place.night("--go-on", "--start=tomorrow:20:00", "f", "0.005")
    place.wants("the night behind it", played(place), [*names[53:], names[0], names[1]])


def places_that_are_none(place):
    """An empty or broken NAME.next is told and kept under another name; the night is there."""
    for k, text in enumerate((b"", b"my notes", b"\0" * 512, b'{"is": "lists of a night", "next": {"m.m3u": {"entry": "t0.wav", '
                              b'"place": 1e999}}}', b"[" * 100000)):
        write_file(place.folder, "A.wav.next", text)
        lines = place.night("--go-on", "--start=1:00:00:00", "f", "0.01")
        place.wants(f"what is told of {text[:20]}", [line for line in lines if line.startswith("A.wav.next: is none of a night")] != [],
                    True)
        place.wants("what is kept", held(place, f"A.wav.next.kept{k + 1}"), text)
        place.night("--go-on", "--start=1:00:00:00", "f", "0.01")
        place.wants("the next night", played(place)[:1], ["t2.wav"])


def two_nights_over_one_cache(place):
    """Two stations at the same time over a cache that holds the sounds of one: both have their nights."""
    if not shutil.which("ffmpeg"):
        raise Skipped("ffmpeg is missing")
    scripts = []
    for station in "ab":
        names = []
        for k in range(7):
            names.append(f"{station}{k}.wav")
            data = bytes([100 + k]) * (20 * RATE)
            write_file(place.folder, names[-1], header(len(data), rate=RATE, width=1) + data)
        write_file(place.folder, f"{station}.m3u", "".join(name + "\n" for name in names))
        text = content(place.path("f")).decode()
        write_file(place.folder, station, text.replace("m.m3u", f"{station}.m3u").replace("A.wav", f"{station.upper()}.wav"))
        scripts.append(station)
    program = place.slow("sleep 2")
    runs = [subprocess.Popen([NIGHT, program, f"--cache={place.path('cache')}", "--cache-size=0.0017", script, "0.0333"],
                             cwd=place.folder, stdin=subprocess.DEVNULL, stdout=subprocess.PIPE, stderr=subprocess.PIPE, text=True)
            for script in scripts]
    for script, run in zip(scripts, runs):
        _, said = run.communicate(timeout=SECONDS)
        place.wants(f"the night of {script}", (run.returncode, said), (0, ""))
        place.wants("what is played", played(place, f"{script.upper()}.wav.cue"), [f"{script}{k}.wav" for k in range(6)])


def a_cache_of_zeros(place):
    """A cache whose index was never written, so that it is zeros, costs no night."""
    if not shutil.which("ffmpeg"):
        raise Skipped("ffmpeg is missing")
    subprocess.run(["ffmpeg", "-v", "error", "-y", "-f", "lavfi", "-i", f"sine=d=4:r={RATE}", place.path("c.flac")], check=True)
    write_file(place.folder, "m.m3u", "c.flac\n")
    os.mkdir(place.path("cache"))
    write_file(place.folder, "cache/index.json", b"\0" * 4096)
    place.night(f"--cache={place.path('cache')}", "f", "0.002")
    place.wants("what is played", set(played(place)), {"c.flac"})


def a_name_with_a_tab(place):
    """A decoded entry whose name has a TAB, and one of several lists, cost no page; titles stand beside the rendering."""
    if not shutil.which("ffmpeg"):
        raise Skipped("ffmpeg is missing")
    for name, title in (("a\tb.flac", "Tab"), ("c.flac", "Song")):
        subprocess.run(["ffmpeg", "-v", "error", "-y", "-f", "lavfi", "-i", f"sine=d=4:r={RATE}", "-metadata", f"title={title}",
                        place.path(name)], check=True)
    write_file(place.folder, "m.m3u", "a\tb.flac\nc.flac\n")
    write_file(place.folder, "n.m3u", "c.flac\n")
    place.script('output.file(%wav, "A.wav", mean(mksafe(rotate([playlist("m.m3u"), playlist("n.m3u")]))))')
    lines = place.night(f"--cache={place.path('cache')}", "f", "0.01")
    place.wants("the page", lines[-1].partition("; page ")[2], "A.wav.html")
    place.wants("the titles", held(place, "A.wav.titles.tsv"), b"c.flac\t\tSong\t\t\t\n")
    place.wants("the page has them", b"Song</bdi>" in held(place, "A.wav.html"), True)
    place.wants("the log has them", [row[4] for row in log_of(place)], ["", "Song", "Song", "Song", "", "Song", "Song", "Song", ""])
    place.script('output.file(%wav, "A.wav", mean(mksafe(crossfade(duration=4., playlist("l.m3u")))))')
    for name, seconds in (("u.wav", 20), ("v.wav", 23)):
        write_file(place.folder, name, sound([n * (2 * seconds + 7) % 9001 - 4500 for n in range(seconds * RATE)], rate=RATE))
    write_file(place.folder, "l.m3u", "u.wav\nv.wav\n")
    place.night("f", "0.01")
    place.wants("seconds in which a faded track is heard", [row[2] for row in log_of(place)], ["20.0", "20.0", "1.0"])


def log_of(place):
    """The rows of the log for royalties, without its head."""
    done = subprocess.run([PAGE, "--as=log", "--start=2026-12-01:20:00", "A.wav"], cwd=place.folder, capture_output=True, text=True,
                          check=False, env={**os.environ, "LIQ_PROGRAMS": os.path.dirname(place.program)})
    return list(csv.reader(done.stdout.split("\n")[1:-1]))


def what_is_damaged_is_told(place):
    """A sound that is cut, and is played as far as it goes, is told by each night; nothing of it is lost in another way."""
    if not shutil.which("ffmpeg"):
        raise Skipped("ffmpeg is missing")
    subprocess.run(["ffmpeg", "-v", "error", "-y", "-f", "lavfi", "-i", f"sine=d=20:r={RATE}", place.path("whole.mp3")], check=True)
    write_file(place.folder, "cut.mp3", content(place.path("whole.mp3"))[:9 * len(content(place.path("whole.mp3"))) // 20])
    write_file(place.folder, "m.m3u", "whole.mp3\ncut.mp3\n")
    for _ in range(2):
        lines = place.night(f"--cache={place.path('cache')}", "f", "0.01")
        place.wants("what is found", lines[-1].partition("; found ")[2][:21], "1: cut.mp3: damaged: ")
        place.wants("what is played", played(place), ["whole.mp3", "cut.mp3", "whole.mp3"])


def a_night_asks_for_heads(place):
    """A night reads the heads of sounds, and as a whole only those that it plays: here a library of 30 GB."""
    names = short_songs(place, 4)
    for k in range(120):
        write_file(place.folder, f"l{k}.wav", header(250 << 20, rate=RATE))
        os.truncate(place.path(f"l{k}.wav"), 44 + (250 << 20))
    write_file(place.folder, "m.m3u", "".join(name + "\n" for name in [*names, *(f"l{k}.wav" for k in range(120))]))
    before = resource.getrusage(resource.RUSAGE_CHILDREN)
    place.night("f", "0.001")
    after = resource.getrusage(resource.RUSAGE_CHILDREN)
    place.wants("what is played", played(place), names[:2])
    seconds = after.ru_utime + after.ru_stime - before.ru_utime - before.ru_stime
    place.wants("seconds of a processor", seconds < 6, True)


def a_night_asks_once(place):
    """A night asks its companion each question once; the page, which is a program of its own, asks for the week again."""
    place.slow()
    own = place.path("slow", "about_program")
    os.unlink(own)
    write_file(place.folder, "slow/about_program",
               f"#!/bin/sh\necho \"$1 $2\" >>'{place.path('asked')}'\nexec '{beside(place.program, 'about_program')}' \"$@\"\n")
    os.chmod(own, 0o755)
    done = place.run("f", "0.01", program=f"--program={place.path('slow', 'liq_program')}")
    place.wants("the night", (done[0], done[2]), (0, ""))
    asked = content(place.path("asked")).decode().split("\n")[:-1]
    place.wants("what is asked of the script", sorted(line for line in asked if line.endswith(" f")),
                ["files f", "tokens f", "week f", "week f"])


def one_loudness_for_all(place):
    """With --loudness each entry of a list has that loudness, a WAV file too; what a single plays stays as it is."""
    if not shutil.which("ffmpeg"):
        raise Skipped("ffmpeg is missing")
    for name, volume in (("loud.wav", 0.8), ("soft.flac", 0.05), ("soft.wav", 0.05)):
        subprocess.run(["ffmpeg", "-v", "error", "-y", "-f", "lavfi", "-i", f"sine=f=700:d=20:r={RATE},volume={8 * volume}", "-c:a",
                        "flac" if name.endswith("flac") else "pcm_s16le", place.path(name)], check=True)
    write_file(place.folder, "m.m3u", "loud.wav\nsoft.flac\nsoft.wav\n")
    place.night(f"--cache={place.path('cache')}", "--loudness=-23", "f", "0.0166")
    samples = left_samples(place.path("A.wav"))
    peaks = [max(samples[at * RATE:(at + 15) * RATE]) for at in (2, 22, 42)]
    place.wants("the peaks are alike", max(peaks) < 1.1 * min(peaks), True)
    place.wants("the names", played(place), ["loud.wav", "soft.flac", "soft.wav"])


def a_report(place):
    """--report has a line of JSON for each call, --quiet prints only what is found, and --call calls an address."""
    calls = []

    class Handler(http.server.BaseHTTPRequestHandler):
        """Notes what is called."""

        def do_GET(self):
            """Answers 200."""
            calls.append(self.path)
            self.send_response(200)
            self.end_headers()

        def log_message(self, *_):
            """Says nothing."""
    server = http.server.HTTPServer(("127.0.0.1", 0), Handler)
    threading.Thread(target=server.serve_forever, daemon=True).start()
    words = ("--quiet", "--report=r", f"--call=http://127.0.0.1:{server.server_port}/done", TODAY, "f")
    place.wants("a quiet night", place.run(*words, "0.01"), (0, [], ""))
    write_file(place.folder, "m.m3u", "t0.wav\ngone.wav\n")
    status, lines, said = place.run(*words, "0.01")
    place.wants("a finding", (status, said, lines[0]), (0, "", "list m.m3u: 1 entry is played, 1 is skipped"))
    write_file(place.folder, "f", "x = y\n")
    place.wants("no night", place.run(*words, "0.01")[0], 1)
    told = [json.loads(line) for line in content(place.path("r")).decode().split("\n")[:-1]]
    place.wants("the report", [(one["status"], one.get("tracks"), one.get("skipped"), len(one["found"])) for one in told],
                [(0, 2, 0, 0), (0, 2, 1, 2), (1, None, None, 4)])
    place.wants("what is called", calls, ["/done", "/done"])
    server.shutdown()
    place.script('output.file(%wav, "A.wav", mean(mksafe(playlist("m.m3u"))))')
    status, _, said = place.run("--report=/dev/full", "--call=http://127.0.0.1:1/x", "f", "0.01")
    place.wants("where it cannot be noted or called", (status, said.count("\n")), (0, 2))


def behind_a_crossfade(place):
    """Behind a crossfade only what is played is decoded, and what is played is the list in its order, in parts too."""
    if not shutil.which("ffmpeg"):
        raise Skipped("ffmpeg is missing")
    names = [f"e{k:02}.wav" for k in range(30)]
    for k, name in enumerate(names):
        data = bytes([100 + k]) * ((9 + k % 5) * RATE)
        write_file(place.folder, name, header(len(data), rate=RATE, width=1) + data)
    write_file(place.folder, "m.m3u", "".join(name + "\n" for name in names))
    place.script('output.file(%wav, "A.wav", mean(mksafe(crossfade(duration=3., playlist("m.m3u")))))')
    place.night(f"--cache={place.path('cache')}", "f", "0.03")
    found = played(place)
    place.wants("what is played", found, names[:len(found)])
    decoded = [name for name in os.listdir(place.path("cache")) if name.endswith(".wav")]
    place.wants("what is decoded", len(found) <= len(decoded) <= len(found) + 3, True)
    shutil.rmtree(place.path("cache"))
    place.night("--go-on", f"--cache={place.path('cache')}", "--part=0.01", "f", "0.04")
    parts_played = played(place)
    steps = {(names.index(b) - names.index(a)) % len(names) for a, b in zip(parts_played, parts_played[1:])}
    place.wants("the steps in parts", steps, {1})


def an_entry_that_goes(place):
    """A file that goes away while it is decoded costs no night, only itself."""
    if not shutil.which("ffmpeg"):
        raise Skipped("ffmpeg is missing")
    for k in range(3):
        data = bytes([100 + k]) * (20 * RATE)
        write_file(place.folder, f"e{k}.wav", header(len(data), rate=RATE, width=1) + data)
    write_file(place.folder, "m.m3u", "e0.wav\ne1.wav\ne2.wav\n")
    os.mkdir(place.path("bin"))
    write_file(place.folder, "bin/ffmpeg", f"#!/bin/sh\nrm -f '{place.path('e1.wav')}'\nexec {shutil.which('ffmpeg')} \"$@\"\n")
    os.chmod(place.path("bin/ffmpeg"), 0o755)
    status, lines, said = place.run(f"--cache={place.path('cache')}", "f", "0.01",
                                    env={**os.environ, "PATH": place.path("bin") + ":" + os.environ["PATH"]})
    place.wants("the end", (status, said), (0, ""))
    place.wants("what is played", set(played(place)), {"e0.wav", "e2.wav"})
    place.wants("what is told", "e1.wav: left out: No such file or directory" in lines, True)


def parts_are_joined_where_they_lie(place):
    """Parts become one file where the disk has room for the night and for little more."""
    os.mkdir(place.path("d"))
    place.script('output.file(%wav, "d/A.wav", mksafe(playlist("m.m3u")))')
    call = f"'{NIGHT}' '--program={place.program}' --part=0.0756 f 0.15"
    printed, said = mounted(place, f"mount -t tmpfs -o size=21m none d || exit 99; {call} >&2; echo $?; stat -c %s d/A.wav; "
                            "cp d/A.wav B.wav; cp d/A.wav.cue B.wav.cue")
    place.wants("the end", (printed, said.count("part ") > 1), (f"0\n{44 + 540 * RATE * 4}\n", True))
    os.mkdir(place.path("e"))
    place.script('output.file(%wav, "e/A.wav", mksafe(playlist("m.m3u")))')
    place.call_to("e/A.wav", 13500)
    for name in ("B.wav", "B.wav.cue"):
        place.wants(f"the bytes of {name}", held(place, name) == held(place, name.replace("B", "e/A")), True)


# A night to which calls are refused once A.wav is replaced: those of a function whose words are meant.
REFUSING = """import builtins, fcntl, os, sys
sys.argv = {words!r}
replace, done = os.replace, []
def replacing(*words, **more):
    if os.fsdecode(words[1]).endswith("A.wav"):
        done.append(1)
    return replace(*words, **more)
def refused(call, is_meant):
    def refusing(*words, **more):
        if done and is_meant(*words, **more):
            raise OSError(5, "refused")
        return call(*words, **more)
    return refusing
os.replace = replacing
{function} = refused({function}, lambda *words, **more: {meant})
exec(compile(open(sys.argv[0]).read(), sys.argv[0], "exec"), dict(__name__="__main__", __file__=sys.argv[0]))
"""


def refused_behind_the_replacing(place):
    """Where the system refuses a call behind the replacing, the night is there, and the status says so; so it is with the calls that
    end the use of a cache."""
    data = bytes([100]) * (4 * RATE)
    write_file(place.folder, "e.wav", header(len(data), rate=RATE, width=1) + data)
    write_file(place.folder, "m.m3u", "e.wav\nt0.wav\n")
    has_cache = bool(shutil.which("ffmpeg"))
    if has_cache:                               # a sound of which a line is told behind the replacing
        whole = content(place.path("t7.wav"))
        subprocess.run(["ffmpeg", "-v", "error", "-f", "wav", "-i", "pipe:0", place.path("c.mp3")], input=whole, check=True)
        write_file(place.folder, "c.mp3", content(place.path("c.mp3"))[:20000])
        write_file(place.folder, "m.m3u", "e.wav\nc.mp3\nt0.wav\n")
    words = [NIGHT, f"--program={place.program}", "--cache=cache", "f", "0.003"]
    for function, meant in (("os.unlink", "True"), ("os.listdir", "True"), ("os.rmdir", "True"), ("fcntl.flock", "True"),
                            ("builtins.print", "'damaged' in words[0] and 'file' not in more"),
                            ("builtins.open", "set('wa+') & set(words[1] if len(words) > 1 else '')")):
        write_file(place.folder, "A.wav", "old")
        code = REFUSING.format(words=words, function=function, meant=meant)
        done = subprocess.run([sys.executable, "-X", "utf8", "-c", code], cwd=place.folder, capture_output=True, text=True,
                              check=False, stdin=subprocess.DEVNULL)
        wanted = "night: standard output: refused" if function == "builtins.print" and has_cache else ""
        place.wants(f"where {function} is refused", (done.returncode, held(place, "A.wav")[:4], done.stderr.partition(";")[0]),
                    (0, b"RIFF", wanted))
        place.wants("what is played", played(place)[:1], ["e.wav"] if has_cache else ["t0.wav"])
        shutil.rmtree(place.path(".night-A.wav"), ignore_errors=True)


RUNS = (lists_that_share, a_length_that_is_told_too_long, the_same_night_once_more, clocks_that_are_changed, a_day_of_another_script,
        what_cannot_be_read, a_single_that_is_gone, a_script_that_is_refused, what_was_next_is_gone, a_list_that_loses_most, places_that_are_none, a_cache_of_zeros, a_name_with_a_tab, an_entry_that_goes,
        what_is_damaged_is_told, a_night_asks_for_heads, a_night_asks_once, one_loudness_for_all, a_report, behind_a_crossfade,
        two_nights_over_one_cache,
        parts_are_joined_where_they_lie, refused_behind_the_replacing)
