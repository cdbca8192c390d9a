"""What the server of liq-try answers: the runs of tests/try without a browser."""
import os
import resource
import shutil
import signal
import subprocess
import sys
import threading
import time

from lib.common import TOP, content
from lib.try_page import LIVE, SET, STATION

LATE = 2.0             # seconds within which a change is seen on a machine with other work; a second on one without
FRIDAY = 4 * 86400 + 20 * 3600


def the_verdict_follows_the_file(page):
    """A mistake, its place and its help; and back."""
    state = page.start()
    if (state["verdict"], state["isSafe"], state["marks"][0]["sort"]) != ("taken", True, "silent"):
        yield f"it begins with {state}"
    page.write("station.liq", STATION.replace("fallback", "fallbak"))
    state, took = page.later(state["number"], lambda other: other["verdict"] == "refused")
    mark = state["marks"][0]
    if (mark["sort"], mark["line"], mark["text"][:3], "`fallback`" in mark["help"]) != ("fault", 5, "E08", True) or took > LATE:
        yield f"after {took:.1f} s a mistake is {mark}"
    if state["lines"][4][1] != ["fallbak", 0]:
        yield f"its line is {state['lines'][4]}"
    page.write("station.liq", STATION)
    state, took = page.later(state["number"], lambda other: other["verdict"] == "taken")
    if state["verdict"] != "taken" or took > LATE:
        yield f"after {took:.1f} s it is {state['verdict']}"
    page.write("station.liq", STATION.replace("fallback([radio, single(\"jingle.wav\")])", "radio"))
    state, _ = page.later(state["number"], lambda other: other["verdict"] == "refused")
    if state["marks"][0]["text"] != "E25 fallible output radio.wav" or state["week"] is None:
        yield f"an output that may fall silent is {state['marks'][:1]}, {state['week']}"


def lists_and_sounds_are_followed(page):
    """An entry more, a sound that is removed, one that comes."""
    state = page.whole(page.start())
    if (state["sounds"]["used"], state["sounds"]["all"]) != (4, 4):
        yield f"it begins with {state['sounds']}"
    page.write("music.m3u", "one.wav\ntwo.wav\ngone.wav\n")
    state, took = page.later(state["number"], lambda other: other["sounds"] and other["sounds"]["all"] == 5)
    if "gone.wav" not in str(state["sounds"]["found"]) or took > 2 * LATE:
        yield f"after {took:.1f} s: {state['sounds']}"
    shutil.copy(os.path.join(page.folder, "one.wav"), os.path.join(page.folder, "gone.wav"))
    state, took = page.later(state["number"], lambda other: other["sounds"] and other["sounds"]["used"] == 5)
    if state["sounds"]["used"] != 5 or took > 2 * LATE:
        yield f"after {took:.1f} s a new sound: {state['sounds']}"
    os.remove(os.path.join(page.folder, "news.wav"))
    state, took = page.later(state["number"], lambda other: other["verdict"] == "refused")
    if state["line"] != "E20 missing file news.wav" or took > 2 * LATE:
        yield f"after {took:.1f} s without a sound: {state['line']}"


def the_week_is_told(page):
    """The spans of each case, an hour of it, and the next change."""
    state = page.start()
    switch = state["week"]["switches"][0]
    names, counts = [each["name"] for each in switch["cases"]], [each["count"] for each in switch["cases"]]
    if (switch["line"], names, counts, switch["none"]["count"]) != (4, ["news.wav", "music.m3u"], [112, 112], 8):
        yield f"the switch is {switch}"
    if switch["cases"][0]["spans"][0] != [21600, 21720] or switch["none"]["spans"][0] != [0, 21600]:
        yield f"its spans are {switch['cases'][0]['spans'][:2]}, {switch['none']['spans'][:2]}"
    hour = page.told(f"hour?at={FRIDAY + 60}&switch=0")
    if hour != {"first": FRIDAY, "cases": [[[FRIDAY, FRIDAY + 120]], [[FRIDAY + 120, FRIDAY + 3600]]], "none": [], "next": FRIDAY + 120}:
        yield f"the hour is {hour}"
    if page.told("hour?at=604799&switch=0")["next"] != 21600:
        yield "the week does not go round"
    page.write("station.liq", SET + 'output.file(%wav, "o.wav", mksafe(switch([({5s-6s}, single("jingle.wav")), ({true}, single("one.wav"))])))\n')
    state, _ = page.later(state["number"], lambda other: other["week"]["switches"][0]["cases"][0]["count"] == 10080)
    hour = page.told(f"hour?at={FRIDAY + 6}&switch=0")
    if state["week"]["switches"][0]["cases"][0]["spans"] is not None or hour["cases"][0][1] != [FRIDAY + 65, FRIDAY + 66] or hour["next"] != FRIDAY + 65:
        yield f"of a switch of seconds: {hour['next']}, {hour['cases'][0][:2]}"


def a_live_script_is_brought_over(page):
    """A script of Liquidsoap: what is lost, the calendar and the picture are at its lines, and a moment of it is heard."""
    page.write("live.liq", LIVE)
    state = page.whole(page.start("live.liq"))
    if (state["verdict"], state["isLive"], state["isOpen"], state["isSafe"]) != ("taken", True, False, True):
        yield f"it is {state['said']}, {state['marks']}"
    if {mark["line"] for mark in state["marks"] if mark["sort"] == "less"} != {2, 6} or "%mp3" not in str(state["marks"]):
        yield f"the marks are {state['marks']}"
    if len(state["lines"]) != 7 or state["lines"][0] != [LIVE.split("\n", maxsplit=1)[0]]:
        yield f"the lines are {state['lines'][:2]}"
    switch = state["week"]["switches"][0]
    if (switch["line"], [each["name"] for each in switch["cases"]], switch["none"]["count"]) != (4, ["music.m3u", "jingle.wav"], 0):
        yield f"the switch is {switch['line']}, {switch['cases'][0]['name']}"
    lines = sorted(box["line"] for box in state["picture"].get("boxes", ()))
    if lines != [2, 3, 4, 5, 5] and shutil.which("dot"):
        yield f"the sources of the picture are in the lines {lines}"
    told = page.told(f"hear?at={FRIDAY}&for=30")
    if [track["name"] for track in told["outputs"][0]["tracks"]] != ["one.wav", "two.wav", "one.wav"]:
        yield f"it plays {str(told)[:200]}"
    page.write("live.liq", LIVE.replace('single("news.wav")', "input.harbor(\"live\")"))
    state, _ = page.later(state["number"], lambda other: not other["isSafe"])
    if state["isSafe"] or not any(mark["line"] == 5 for mark in state["marks"]):
        yield f"with a live source: {state['said']}, {state['marks']}"
    page.write("live.liq", LIVE.replace("music.m3u", "gone.m3u"))
    state, _ = page.later(state["number"], lambda other: other["marks"][0]["text"].startswith("E20"))
    if (state["marks"][0]["text"], state["marks"][0]["line"], state["isLive"]) != ("E20 missing file gone.m3u", 2, True):
        yield f"with a list that is not there: {state['marks'][:1]}"


def a_moment_is_that_of_liq(page):
    """The bytes of a minute on Friday are those of a call of liq that begins then, and what the outputs held stays."""
    page.write("radio.wav", b"kept")
    page.start()
    before = sorted(os.listdir(page.folder))
    told = page.told(f"hear?at={FRIDAY}&for=60")
    output = told["outputs"][0]
    heard, kept = page.ask(output["address"])[2], content(os.path.join(page.folder, "radio.wav"))
    if sorted(os.listdir(page.folder)) != before or kept != b"kept":
        yield f"in the folder there are {sorted(os.listdir(page.folder))}"
    subprocess.run([page.program, "render", "station.liq", "1500", "--start=5:20:00:00"], cwd=page.folder, check=True, capture_output=True)
    if heard != content(os.path.join(page.folder, "radio.wav")):
        yield f"{len(heard)} other bytes"
    tracks = [(track["at"], track["name"]) for track in output["tracks"]][:3]
    if (output["name"], output["seconds"], output["gaps"], tracks) != ("radio.wav", 60, 0, [(0, "news.wav"), (9, "news.wav"), (18, "news.wav")]):
        yield f"the output is {output['name']}, {output['seconds']}, {tracks}"
    if len(output["levels"]) != 600 or not all(60 < level < 90 for level in output["levels"]):
        yield f"the levels are {output['levels'][:9]}"              # 8000 of 32768 is 12 dB below full scale, of 40
    status, head, part = page.ask(output["address"], Range="bytes=44-143")
    if (status, head.get("Content-Range"), part) != (206, f"bytes 44-143/{len(heard)}", heard[44:144]):
        yield f"a part is {status}, {head}"


def moments_that_are_none(page):
    """Past the week, a length of 0 or of a day, words that are no numbers: a line, and the page goes on. Three
    moments are kept."""
    page.start()
    for words in ("at=604800&for=60", "at=0&for=0", "at=0&for=86400", "at=-1&for=5", "at=x&for=5", "for=5", "at=99999999999&for=1", ""):
        told = page.told(f"hear?{words}")
        if not isinstance(told.get("error"), str):
            yield f"{words}: {str(told)[:80]}"
    for second in range(5):
        page.told(f"hear?at={second}&for=1")
    found = [page.ask(f"sound/{number}/0.wav")[0] for number in range(1, 6)]
    if found != [404, 404, 200, 200, 200]:
        yield f"of five moments there are {found}"
    for place in ("sound/5/1.wav", "sound/5/../5/0.wav", "sound/x/0.wav", "picture/99.svg", "../../etc/passwd", "page.html", "state/"):
        if page.ask(place)[0] != 404:
            yield f"{place} is there"


def a_later_call_ends_the_one_before(page):
    """A long rendering, and then a short one: the first one is ended, and only then the other one made."""
    page.write("music.m3u", "one.wav\ntwo.wav\n" * 400)
    page.write("station.liq", SET.replace("8000", "48000") + "".join(
        f'output.file(%wav, "o{k}.wav", mksafe(crossfade(duration=2., playlist("music.m3u"))))\n' for k in range(12)))
    page.start()
    found = []
    first = threading.Thread(target=lambda: found.append(page.told("hear?at=0&for=900")))
    first.start()
    time.sleep(0.5)
    began = time.monotonic()
    told = page.told("hear?at=0&for=1")
    first.join()
    if found[0] != {"ended": True} or len(told.get("outputs", [])) != 12:
        yield f"the first is {str(found)[:60]}, the second {str(told)[:60]}, after {time.monotonic() - began:.1f} s"


def others_find_nothing(page):
    """Another host, another path, another method, another site: 404, and no word of the station. Only this machine is
    heard."""
    page.start()
    good = {"Host": f"127.0.0.1:{page.port}"}
    tries = {"host": page.ask(Host=f"station.example:{page.port}"), "no path": page.ask(path="/"), "other path": page.ask(path="/" + "x" * 22 + "/"),
             "post": page.ask(method="POST"), "put": page.ask(method="PUT"), "head": page.ask(method="HEAD"), "options": page.ask(method="OPTIONS"),
             "site": page.ask("state?seen=-1", Sec_Fetch_Site="cross-site"), "odd": page.ask(method="<b>"), "name": page.ask(Host="127.0.0.1.evil.example")}
    for name, (status, head, data) in tries.items():
        if status != 404 or b"radio" in data or data not in (b"not here\n", b"") or "Access-Control-Allow-Origin" in head:
            yield f"{name}: {status} {data[:40]!r}"
    status, head, data = page.ask(**good)
    policy = head.get("Content-Security-Policy", "")
    if status != 200 or "script-src 'self'" not in policy or "unsafe" not in policy + "unsafe" or head.get("Referrer-Policy") != "no-referrer":
        yield f"the page is {status} {head}"
    if "unsafe" in policy or len(page.path) < 20:
        yield f"{policy}, {page.path}"
    with open("/proc/net/tcp", encoding="ascii") as file:
        places = [line.split()[1] for line in file if line.split()[1].endswith(f":{page.port:04X}") and line.split()[3] == "0A"]
    if places != [f"0100007F:{page.port:04X}"]:
        yield f"it listens at {places}"


def the_words_of_a_call(page):
    """Usage, help, a port that is taken: a line and a status, and nothing is left."""
    page.start()
    for words, status, text in (([], 2, "usage: "), (["a", "b"], 2, "usage: "), (["--port=x", "a"], 2, "usage: "), (["--port=65536", "a"], 2, "usage: "),
                                (["--help"], 0, ""), (["--no-browser", f"--port={page.port}", "station.liq"], 1, f"liq-try: port {page.port}: ")):
        process = page.call(*words)
        out, err = process.communicate(timeout=60)
        if process.returncode != status or not err.decode().startswith(text) or err.count(b"\n") != (1 if status else 0) or status == 0 and b"liq try" not in out:
            yield f"{words}: {process.returncode} {out!r} {err!r}"


def signals_leave_nothing(page):
    """INT, TERM and HUP end it with their status; KILL as well leaves no folder, also in the middle of a rendering."""
    for number in (signal.SIGINT, signal.SIGTERM, signal.SIGHUP, signal.SIGKILL):
        page.write("station.liq", SET.replace("8000", "48000") + "".join(
            f'output.file(%wav, "o{k}.wav", mksafe(crossfade(duration=2., playlist("music.m3u"))))\n' for k in range(12)))
        page.start()
        thread = threading.Thread(target=lambda: heard(page), daemon=True)
        thread.start()
        time.sleep(0.4)
        began = time.monotonic()
        status = page.ended(number)
        if status != (-number if number == signal.SIGKILL else 128 + number):
            yield f"{number.name}: status {status}"
        yield from page.left()
        if time.monotonic() - began > 5:
            yield f"{number.name}: {time.monotonic() - began:.1f} s"
        thread.join(5)
        page.end()
        page.process = None


def heard(page):
    """Asks for a long moment of a page that goes away meanwhile."""
    try:
        page.told("hear?at=0&for=900")
    except (OSError, ValueError):
        pass


def scripts_that_are_none(page):
    """Removed, a folder, bytes that are no UTF-8, 64 KiB, 1 MiB, 4,095 sources: the page says it, and goes on."""
    state, path = page.start(), os.path.join(page.folder, "station.liq")
    os.remove(path)
    state, _ = page.later(state["number"], lambda other: other["verdict"] == "none")
    if state["said"] != "station.liq: No such file or directory":
        yield f"removed: {state['said']}"
    os.mkdir(path)
    state, _ = page.later(state["number"], lambda other: "folder" in other["said"] or "regular" in other["said"] or "directory" in other["said"])
    if state["verdict"] != "none":
        yield f"a folder: {state['said']}"
    os.rmdir(path)
    front = STATION.split("\n", 1)[0] + "\n"
    sources = front + 'a = single("one.wav")\n' + "".join(f"a{k} = amplify(1., {'a' if k == 1 else f'a{k - 1}'})\n" for k in range(1, 4093))
    long = "# " + "x" * 60 + "\n"
    texts = {"no UTF-8": (b'a = "\xff"\n', "refused"), "64 KiB": (STATION + long * (65536 // len(long)), "taken"),
             "1 MiB": (STATION + long * (1048576 // len(long)), None), "larger": (STATION + long * (1200000 // len(long)), "refused"),
             "sources": (sources + 'output.file(%wav, "o.wav", a4092)\n', None), "empty": ("", "refused")}
    for name, (text, wanted) in texts.items():
        page.write("station.liq", text)
        before = state["number"]
        state, took = page.later(before, lambda other: other["picture"] is not None and other["verdict"] != "none", 40)
        if wanted is not None and state["verdict"] != wanted or took > 30:
            yield f"{name}: after {took:.1f} s {state['verdict']} {state['said']} {state['line'][:60]}"
    page.write("station.liq", STATION)
    state, _ = page.later(state["number"], lambda other: other["verdict"] == "taken")
    if state["said"] != "taken: never without something to play":
        yield f"at the end: {state['said']}"


def many_saves_are_one_look(page):
    """200 saves within ten seconds: one look behind them, and one more for each time that this process waited for others."""
    state = page.whole(page.start())
    before, waits = time.monotonic(), 0
    for k in range(200):
        page.write("station.liq", STATION + f"# {k}\n")
        time.sleep(0.04)
        waits, before = waits + (time.monotonic() - before > 0.15), time.monotonic()
    last, _ = page.later(state["number"], lambda other: ["# 199"] in other["lines"])
    count = last["number"] - state["number"]
    if ["# 199"] not in last["lines"] or count > 2 * (1 + waits):    # a look is told twice: with and without its picture
        yield f"{count} states, {waits} waits, the last line {last['lines'][-2:]}"


def names_of_every_kind(page):
    """A list of 3,000 entries, whose names have every odd sign: they come as text, letter by letter."""
    odd = ["<img src=x onerror=alert(1)>.wav", "\u202edrow.wav", 'a"b\'c.wav', "ü\u4e2d\U0001f3b8.wav", "a\x1b[31m.wav"]
    for name in odd:
        shutil.copy(os.path.join(page.folder, "one.wav"), os.path.join(page.folder, name))
    page.write("music.m3u", "\n".join(odd) + "\n" + "".join(f"gone{k}.wav\n" for k in range(3000)))
    state = page.whole(page.start())
    if (state["sounds"]["used"], state["sounds"]["all"]) != (7, 3007) or len(str(state["sounds"]["found"])) > 4000:
        yield f"the sounds are {str(state['sounds'])[:300]}"
    told = page.told(f"hear?at={FRIDAY + 120}&for=60")
    names = [track["name"] for track in told["outputs"][0]["tracks"]]
    wanted = [odd[0], "\\xe2\\x80\\xaedrow.wav", odd[2], odd[3], "a\\x1b[31m.wav"]
    if names[:5] != wanted:
        yield f"the tracks are {names[:5]}"


def without_programs(page):
    """Where graphviz and ffmpeg are missing the page says it, and the rest works."""
    page.write("music.m3u", "one.wav\ntwo.mp3\n")
    page.write("two.mp3", b"ID3\4" + bytes(6) + b"\xff\xfb\x90\0" * 500)
    tools = os.path.join(page.temporary, "tools")
    os.mkdir(tools)
    for name in ("sh", "rm", "python3"):
        os.symlink(shutil.which(name), os.path.join(tools, name))
    state = page.whole(page.start(env=page.environment(PATH=tools)))
    if "graphviz is missing" not in state["picture"].get("note", "") or state["verdict"] != "taken":
        yield f"the picture is {state['picture']}"
    if "ffmpeg is missing: install the package ffmpeg, and 1 sound of the lists can be heard here" not in str(state["sounds"]["found"]):
        yield f"the sounds are {state['sounds']}"
    if "outputs" not in page.told(f"hear?at={FRIDAY}&for=5"):
        yield "nothing is heard"


def other_formats_are_heard(page):
    """A list of MP3, decoded by ffmpeg where it is installed: what is said of it, and its tracks."""
    if not shutil.which("ffmpeg"):
        return
    subprocess.run(["ffmpeg", "-loglevel", "error", "-i", "two.wav", "-metadata", "title=Two", "two.mp3"], cwd=page.folder, check=True)
    page.write("music.m3u", "two.mp3\none.wav\n")
    state = page.whole(page.start())
    found = [line for line, _ in state["sounds"]["found"][:2]]
    wanted = ["1 sound of the lists: decoded by ffmpeg here, as liq night does; liq render plays WAV files alone", "list music.m3u: 2 entries are played"]
    if (found, state["sounds"]["used"]) != (wanted, 4):
        yield f"the sounds are {state['sounds']}"
    told = page.told(f"hear?at={FRIDAY + 120}&for=20")
    if [track["name"] for track in told["outputs"][0]["tracks"]] != ["Two", "one.wav"]:
        yield f"it plays {str(told)[:300]}"


def faults_end_it(page):
    """Where the command itself is at fault: one line and status 126, and nothing is left."""
    code = (f"import sys\nsys.path.insert(0, {os.path.join(TOP, 'share', 'liq')!r})\nimport liq.trying.looks as looks\n"
            "looks.Looked.marks = lambda self: [][0]\nfrom liq.command import run\nfrom liq.trying.command import main\n"
            "sys.argv[1:] = ['--no-browser', 'station.liq']\nrun(main, '', 'liq-try')\n")
    page.process = subprocess.Popen([sys.executable, "-X", "utf8", "-c", code], cwd=page.folder, env=page.environment(),
                                    stdin=subprocess.DEVNULL, stdout=subprocess.PIPE, stderr=subprocess.PIPE)
    _, err = page.process.communicate(timeout=60)
    last = err.decode().splitlines()[-1]
    if page.process.returncode != 126 or "liq-try: a fault of this command, at " not in last or b"Traceback" in err:
        yield f"it ends with {page.process.returncode}: {err!r}"


def a_full_disk(page):
    """Where a file cannot grow, and on a temporary disk that is full, where this user may make one: a line, and the page
    goes on."""
    page.start(preexec_fn=lambda: resource.setrlimit(resource.RLIMIT_FSIZE, (200000, 200000)))
    yield from too_long_for_a_disk(page)
    page.ended()
    own = ["unshare", "-rm"]
    if subprocess.run([*own, "true"], stderr=subprocess.DEVNULL, check=False).returncode == 0:
        mount = 'mount -t tmpfs -o size=400k none "$TMPDIR" && exec "$@"'
        page.start(before=[*own, "sh", "-c", mount, "sh"])
        yield from too_long_for_a_disk(page)


def too_long_for_a_disk(page):
    """What differs where a minute has no room, and five seconds have."""
    told = page.told(f"hear?at={FRIDAY}&for=60")
    if not isinstance(told.get("error"), str):
        yield f"it is {str(told)[:80]}"
    if "outputs" not in page.told(f"hear?at={FRIDAY}&for=5"):
        yield "a short moment is not heard behind it"


RUNS = (the_verdict_follows_the_file, a_live_script_is_brought_over, lists_and_sounds_are_followed, the_week_is_told, a_moment_is_that_of_liq, moments_that_are_none,
        a_later_call_ends_the_one_before, others_find_nothing, the_words_of_a_call, signals_leave_nothing, scripts_that_are_none,
        many_saves_are_one_look, names_of_every_kind, without_programs, other_formats_are_heard, a_full_disk, faults_end_it)
