"""The examples that the pages show, each run as it stands there. tests/run calls each of `checks`. The tables of calls
and of faults have tests of their own, and so have the recipes (lib/documents.py, tests/faults).

A script is taken from its page, with the lines that the page shows beside it; what the page says in words is written
here.
"""
import os
import re
import subprocess
import sys
import tempfile

from lib.common import content, left_samples, sound
from lib.documents import copy_examples, text_of
from lib.workloads import tracks_of

SECONDS = 60
SLOW = 'set("frame.audio.samplerate", 8000)\n'


def script_of(page, number):
    """The script of this number on a page, counted from 0."""
    return re.findall(r"^```liquidsoap\n(.*?)^```$", text_of(page), flags=re.M | re.S)[number]


def shown_below(page, words):
    """The indented lines that a page shows behind these words."""
    behind = text_of(page).split(words, 1)[1]
    lines = re.search(r"^    (?:.*\n(?:    |$))+", behind, flags=re.M)
    return "".join(line[4:] + "\n" for line in lines[0].rstrip("\n").split("\n"))


class Place:
    """A folder in which the program runs, and what is found to be otherwise than on the page."""

    def __init__(self, program, folder):
        self.program, self.folder, self.found = program, folder, []

    def path(self, name):
        return os.path.join(self.folder, name)

    def write(self, name, data):
        with open(self.path(name), "wb") as file:
            file.write(data if isinstance(data, bytes) else data.encode())

    def call(self, *words):
        """How a call ended: its status, and what it printed on both streams."""
        done = subprocess.run([self.program, *words], cwd=self.folder, stdin=subprocess.DEVNULL, capture_output=True,
                              text=True, timeout=SECONDS, check=False)
        return done.returncode, done.stdout + done.stderr

    def wants(self, what, got, wanted):
        if got != wanted:
            self.found.append(f"{what}: {got!r:.300}, and not {wanted!r:.300}")

    def says(self, line, *words, status=0):
        """A call ends with this status, and prints this."""
        self.wants(" ".join(words), self.call(*words), (status, line))

    def reports(self, wanted, *words):
        """A call ends well, and its report has these lines among others."""
        status, told = self.call(*words)
        self.wants(" ".join(words), (status, [line for line in wanted if line not in told.split("\n")]), (0, []))


def readme_differs(place):
    """The first station is examples/safe.liq; it is accepted and played, and refused without the jingle."""
    page = text_of("README.md")
    script = script_of("README.md", 0)
    copy_examples(place.path("examples"))
    place.folder = place.path("examples")
    subprocess.run([sys.executable, "sounds.py"], cwd=place.folder, check=True, stdout=subprocess.DEVNULL)
    place.wants("examples/safe.liq has the script", script.strip() in content(place.path("safe.liq")).decode(), True)
    place.write("f", script)
    for words in (("check", "f"), ("render", "f", "250")):
        status, told = place.call(*words)
        place.wants(" ".join(words), (status, f"    {told.strip()}" in page), (0, True))
    place.write("f", script.replace(', single("jingle.wav")', ""))
    refusal = re.search(r"Without the jingle the script is refused: `([^`]*)`", page)[1]
    place.says(refusal + "\n", "check", "f", status=1)


def architecture_differs(place):
    """The script that is followed through the crates, and the three that are refused."""
    page, script = text_of("docs/architecture.md"), script_of("docs/architecture.md", 0)
    place.write("L", "B\n")
    place.write("B", sound([1, 2, 3]))
    place.write("f", script)
    place.says(re.search(r"the report is `([^`]*)`", page)[1] + "\n", "check", "f")
    place.says("output A samples 1764 gaps 0\n", "render", "f", "1")
    place.wants("the file A", content(place.path("A")), sound([1, 1, 2, 2, 3, 3] * 588, 2))
    place.wants("its bytes", str(len(content(place.path("A")))) in page, True)
    for other, line in ((script.replace(', single("B")', ""), "E25 fallible output A"),
                        (script.replace('playlist("L")', "1"), "E12 statement 1: types clash"),
                        (script, "E20 missing file B")):
        place.write("f", other)
        if line.startswith("E20"):
            os.remove(place.path("B"))
        place.wants(f"that the page has {line}", f"`{line}`" in page, True)
        place.says(line + "\n", "check", "f", status=1)


def clocks_differ(place):
    """The clocks of the script that is accepted, the refusals of the one that is not, and the station of two clocks."""
    place.write("B", sound([1, 2, 3]))
    place.write("f", script_of("docs/clocks.md", 0))
    place.says("output A clock main infallible\noutput C clock b infallible\n", "check", "f")
    refused = script_of("docs/clocks.md", 1)
    place.write("f", refused)
    line = re.search(r"The report is `([^`]*)`", text_of("docs/clocks.md"))[1]
    place.says(f"E26 {line}\n", "check", "f", status=1)
    place.write("f", refused.replace('output.file(%wav, "A", ', "x = ")[:-2] + '\noutput.file(%wav, "A", blank())\n')
    place.says("E27 crossfade 1 lies in its own clock\n", "check", "f", status=1)
    place.write("music.m3u", "B\n")
    place.write("f", script_of("docs/clocks.md", 2))
    place.says("output main.wav clock main infallible\noutput copy.wav clock copy infallible\n"
               "buffer 0 from main to copy pre 44100 capacity 250\n", "check", "f")
    place.reports(["output main.wav samples 17640 gaps 0", "output copy.wav samples 17640 gaps 0"], "render", "f", "10")


def typing_differs(place):
    """The two scripts that are typed by hand: the first has types, and the second none, at its third statement."""
    place.write("f", script_of("docs/typing.md", 0))
    place.says("E17 no output\n", "check", "f", status=1)
    place.write("f", script_of("docs/typing.md", 1))
    place.says("E12 statement 3: types clash\n", "check", "f", status=1)
    second = script_of("docs/typing.md", 1).split("\n")
    place.write("f", "\n".join(second[:2]).replace("[1]", "[blank()]") + "\n")
    place.says("E17 no output\n", "check", "f", status=1)


def liquidsoap_differs(place):
    """The station that means the same in Liquidsoap: in the first five minutes of an hour jingles, and then music."""
    place.write("music.m3u", "B\n")
    place.write("jingles.m3u", "C\n")
    place.write("B", sound([1, 2, 3]))
    place.write("C", sound([70, 80]))
    place.write("f", script_of("docs/liquidsoap.md", 0))
    place.says("output radio.wav clock main infallible\n", "check", "f")
    for start, front in (("1:00:04:59", [70, 80, 70]), ("1:00:05:00", [1, 2, 3, 1])):
        place.says("output radio.wav samples 1764 gaps 0\n", "render", "f", "1", f"--start={start}")
        place.wants(f"what is played at {start}", left_samples(place.path("radio.wav"))[:len(front)], front)


def cues_differ(place):
    """The cue file of two ticks of four instants, and that of a fallback to a source without a file."""
    page = " ".join(text_of("docs/formats.md").split())
    script = re.search(r"file of `(output\.file[^`]*)` over ticks of four instants", page)[1]
    place.write("a.wav", sound([1, 2, 3, 4], rate=8000))
    place.write("b.wav", sound([5, 6], rate=8000))
    place.write("L", "a.wav\nb.wav\n")
    ticks = SLOW + 'set("frame.duration", 0.0005)\n'
    place.write("f", f"{ticks}{script}\n")
    place.says("output A samples 8 gaps 0\n", "render", "f", "2", "--cues")
    shown = shown_below("docs/formats.md", "has an empty file.")
    place.wants("the cue file", content(place.path("A.cue")).decode(), shown)
    place.wants("what is played", left_samples(place.path("A")), [1, 2, 3, 4, 5, 6, 1, 2])
    place.write("L", "a.wav\nx\n")
    place.write("x", sound([9], rate=8000))
    place.write("f", ticks + 'output.file(%wav, "A", mksafe(playlist(loop=false, "L")))\n')
    place.says("output A samples 8 gaps 0\n", "render", "f", "2", "--cues")
    place.wants("the cue file of a fallback", content(place.path("A.cue")), b"0 a.wav\n4 x\n5\n")


def traces_differ(place):
    """Which traces are accepted, and of the others the first line that is outside."""
    page = text_of("docs/formats.md")
    place.write("B", sound([1, 2, 3], rate=8000))
    ticks = SLOW + 'set("frame.duration", 0.001)\ns = single("B")\noutput.file(%wav, "A", s)\n'
    place.write("f", ticks + 'output.file(%wav, "C", clock(id="b", mksafe(buffer(buffer=0.002, max=0.01, s))))\n')
    trace = shown_below("docs/formats.md", "first of two takes, has the trace")
    head = trace.split("\n")[0] + "\n"
    report = "output A samples 8 gaps 0\noutput C samples 8 gaps 0\nbuffer 0 accepted 1 full 0 got 1 empty 1\n"
    outside = [head + "window 0 buffer 0 puts A takes X\n", trace[:-1], trace[:-1] + "\r\n", head]
    rows = [(trace, 0, report)] + [(text, 1, "E32 not a trace: line 1\n") for text in outside]
    rows += [(trace + "x", 1, "E32 not a trace: line 2\n")]
    refused = ["window 0 buffer 0 puts A takes G", "window 0 buffer 0 puts F takes E"]
    rows += [(head + text + "\n", 1, "E33 trace does not fit\n") for text in refused]
    for answers in ("puts A takes G", "puts F takes E", "puts A takes X"):
        place.wants(f"that the page has {answers}", answers in page, True)
    for text, status, told in rows:
        place.write("T", text.encode())
        place.says(told, "replay", "f", "1", "T", status=status)
    for number, window in ((0, 16), (1, 1)):
        shown = re.findall(r"^    liq trace 1 4 .*\n(?:    window .*\n)+", page, flags=re.M)[number].replace("    ", "")
        place.write("f", ticks + 'x = mksafe(buffer(buffer=0., max=0.001, s))\n')
        place.wants("the status", place.call("render", "f", "4", f"--window={window}", "--trace=T")[0], 0)
        place.wants(f"the trace in windows of {window}", content(place.path("T")).decode(), shown)


def buffers_differ(place):
    """The record of a buffer of one chunk in docs/buffers.md is one of a run, and so is that of the rounds; the trace
    of a ring in which each takes what the other one gives in the same tick is refused."""
    place.write("B", sound([1, 2, 3], rate=8000))
    ticks = SLOW + 'set("frame.duration", 0.001)\n'
    place.write("f", ticks + 's = single("B")\noutput.file(%wav, "A", s)\n'
                'output.file(%wav, "C", clock(id="b", mksafe(buffer(buffer=0., max=0.001, s))))\n')
    late, round_by_round = ("AF", "EG"), ("AA", "GG")
    for (puts, takes), played in ((late, [0] * 8 + [1, 2, 3, 1, 2, 3, 1, 2]), (round_by_round, [1, 2, 3] * 5 + [1])):
        place.write("T", f"liq trace 1 2 16 1\nwindow 0 buffer 0 puts {puts} takes {takes}\n")
        place.reports([f"buffer 0 accepted {puts.count('A')} full {puts.count('F')} got {takes.count('G')} "
                       f"empty {takes.count('E')}"], "replay", "f", "2", "T")
        place.wants(f"what is played where the takes are {takes}", left_samples(place.path("C")), played)
    place.reports(["buffer 0 accepted 2 full 0 got 2 empty 0"], "render", "f", "2", "--one-thread")
    place.write("f", ticks + 'x = clock(id="a", single("B"))\nu = clock(id="b", single("B"))\n'
                "y = buffer(buffer=0., max=0.01, x)\nz = buffer(buffer=0., max=0.01, u)\n"
                'output.file(%wav, "A", clock(id="a", mksafe(z)))\noutput.file(%wav, "C", clock(id="b", mksafe(y)))\n')
    for other, status in (("G", 1), ("E", 0)):
        lines = [f"window 0 buffer {number} puts A takes {take}\n" for number, take in enumerate(("G", other))]
        place.write("T", "liq trace 1 1 1 2\n" + "".join(lines))
        place.wants(f"the status of a ring with {other}", place.call("replay", "f", "1", "T")[0], status)


def workload_differs(place):
    """The script that the page shows for three files, rendered over the files of seed 1, has the sums of `make 1 3`."""
    page = text_of("docs/formats.md")
    place.write("make.liq", re.search(r"each line ends with LF:\n\n```\n(.*?)```", page, flags=re.S)[1])
    for number, track in enumerate(tracks_of(1, 3)):
        place.write(f"t{number}.wav", sound(track, rate=8000))
    place.write("all.m3u", "t0.wav\nt1.wav\nt2.wav\n")
    told = shown_below("docs/formats.md", "as `make 1 3` shows:")
    place.says(told, "make", "1", "3")
    place.wants("render make.liq", place.call("render", "make.liq", "500"), (0, re.sub(r" sum -?\d+", "", told)))
    sums = [2 * sum(left_samples(place.path(name + ".wav"))) for name in ("one", "two")]
    place.wants("the sums", sums, [int(number) for number in re.findall(r"sum (-?\d+)", told)])


def streams_differ(place):
    """What docs/streams.md tells in numbers: sums, gains, a crossfade, a list, a sequence, rotate and random."""
    for name, samples in (("x", [80] * 6), ("y", [0] * 5), ("five", [5]), ("six", [6, 7]), ("minus", [-3]),
                          ("loud", [20000]), ("sides", [1, -1, 0]), ("12", [1, 2]), ("3", [3])):
        place.write(name, sound(samples, rate=8000))
    for name, entries in (("L", "x\ny\n"), ("K", "12\n3\n"), ("five.m3u", "five\n")):
        place.write(name, entries)
    items = re.search(r"So the items are ([\d ]*) and so on", text_of("docs/streams.md"))[1]
    rows = [('crossfade(duration=0.0005, playlist("L"))', [int(item) for item in items.split()]),
            ('playlist("K")', [1, 2, 3, 1, 2, 3, 1, 2]),
            ('playlist(loop=false, "K")', [1, 2, 3, 0, 0]),
            ('sequence([fail(), playlist(loop=false, "five.m3u"), blank()])', [5, 0, 0, 0]),
            ('rotate([single("five"), single("six")])', [5, 6, 7, 5, 6, 7]),
            ('random(seed=3, [single("five"), single("six")])', [6, 7, 6, 7, 6, 7, 5]),
            ('add([single("minus"), blank()])', [-1]),
            ('add(normalize=false, [single("minus"), blank()])', [-3]),
            ('amplify(0.5, single("minus"))', [-1]),
            ('amplify(2., single("loud"))', [32767]),
            ('amplify(1000000000., single("sides"))', [32767, -32768, 0])]
    for source, played in rows:
        place.write("f", f'{SLOW}output.file(%wav, "A", mksafe({source}))\n')
        place.says("output A samples 320 gaps 0\n", "render", "f", "1")
        place.wants(f"what {source} plays", left_samples(place.path("A"))[:len(played)], played)


def evaluation_differs(place):
    """Of statements that each double a list the eighteenth is too much work, and the seventeenth is not."""
    line = "E15 statement 18: too much work"
    place.wants(f"that the page has {line}", f"`{line}`" in text_of("docs/evaluation.md"), True)
    for number, told in ((17, "E17 no output"), (18, line)):
        place.write("f", "x = [1, 1]\n" + "x = [x, x]\n" * (number - 1))
        place.says(told + "\n", "check", "f", status=1)


def run_in_a_folder(check):
    def differs(program):
        with tempfile.TemporaryDirectory(prefix="liq-page-") as folder:
            place = Place(program, folder)
            check(place)
            return place.found
    return differs


checks = {f"shown/{name}": run_in_a_folder(check) for name, check in (
    ("README", readme_differs), ("architecture", architecture_differs), ("clocks", clocks_differ),
    ("typing", typing_differs), ("liquidsoap", liquidsoap_differs), ("cues", cues_differ), ("traces", traces_differ),
    ("buffers", buffers_differ), ("workload", workload_differs), ("streams", streams_differ),
    ("evaluation", evaluation_differs))}
