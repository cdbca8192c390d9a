"""A page of liq-try over a station in a folder, as tests/try asks it."""
import http.client
import json
import os
import re
import signal
import subprocess
import sys
import time

from lib.common import TOP, sound

COMMAND = os.path.join(TOP, "bin", "liq-try")
RATE, SECONDS = 8000, 60
SET = f'set("frame.audio.samplerate", {RATE})\n'
STATION = SET + """music = playlist("music.m3u")
news = single("news.wav")
radio = switch(track_sensitive=false, [({0m-2m and 6h-22h}, news), ({6h-22h}, music)])
output.file(%wav, "radio.wav", fallback([radio, single("jingle.wav")]))
"""
LIVE = """set("log.file.path", "/tmp/radio.log")
day = playlist(mode="randomize", "music.m3u")
night = single("jingle.wav")
radio = switch([({6h-22h}, day), ({22h-6h}, night)])
radio = fallback(track_sensitive=false, [radio, single("news.wav")])
output.icecast(%mp3, host="radio.example", mount="/radio.mp3", radio)
"""


class Page:
    """A page, once it is started: its process, its address, and what its server answers."""

    def __init__(self, program, folder):
        self.program, self.folder, self.process = program, os.path.join(folder, "station"), None
        self.temporary, self.port, self.path = os.path.join(folder, "tmp"), 0, ""
        os.mkdir(self.folder)
        os.mkdir(self.temporary)
        for name, seconds, step in (("one", 11, 5), ("two", 13, 6), ("news", 9, 7), ("jingle", 1, 8)):
            self.write(name + ".wav", sound([8000 if n % step else -8000 for n in range(RATE * seconds)], rate=RATE))
        self.write("music.m3u", "one.wav\ntwo.wav\n")
        self.write("station.liq", STATION)

    def write(self, name, data):
        """Writes a file of the station, as an editor does: beside, and then at its name."""
        path = os.path.join(self.folder, name)
        with open(path + "~", "wb") as file:
            file.write(data if isinstance(data, bytes) else data.encode("utf-8", "surrogateescape"))
        os.replace(path + "~", path)

    def environment(self, **more):
        own = {"PATH": "/usr/bin:/bin", "HOME": self.temporary, "TMPDIR": self.temporary, "LIQ_PROGRAMS": os.environ["LIQ_PROGRAMS"]}
        return {**own, **more}

    def call(self, *words, before=(), **more):
        """Starts the command, behind these words of another one; what it is."""
        return subprocess.Popen([*before, sys.executable, "-X", "utf8", COMMAND, *words], cwd=self.folder, stdin=subprocess.DEVNULL,
                                stdout=subprocess.PIPE, stderr=subprocess.PIPE, **{"env": self.environment(), **more})

    def start(self, file="station.liq", **more):
        """Starts a page, and answers its first state."""
        self.process = self.call("--no-browser", file, **more)
        line = self.process.stdout.readline().decode()
        match = re.search(r"http://127\.0\.0\.1:(\d+)(/\S+/)$", line.strip())
        if match is None:
            raise RuntimeError(f"it prints {line!r} {self.process.stderr.read()!r}")
        self.port, self.path = int(match[1]), match[2]
        return self.state()

    @property
    def address(self):
        return f"http://127.0.0.1:{self.port}{self.path}"

    def ask(self, place="", method="GET", path=None, **headers):
        """The status, the headers and the bytes of an answer."""
        line = http.client.HTTPConnection("127.0.0.1", self.port, timeout=SECONDS)
        try:
            line.request(method, (self.path if path is None else path) + place,
                         headers={name.replace("_", "-"): value for name, value in headers.items()})
            answer = line.getresponse()
            return answer.status, dict(answer.getheaders()), answer.read()
        finally:
            line.close()

    def told(self, place):
        return json.loads(self.ask(place)[2])

    def state(self, seen=-1):
        return self.told(f"state?seen={seen}")

    def later(self, seen, wanted, seconds=10):
        """The first state behind one that is as wanted, with how long it took; the last one where none is."""
        began, state = time.monotonic(), {"number": seen}
        while time.monotonic() - began < seconds:
            state = self.state(state["number"])
            if wanted(state):
                break
        return state, time.monotonic() - began

    def whole(self, state):
        """The state with its picture and its sounds."""
        return self.later(state["number"], lambda other: other["picture"] is not None)[0] if state["picture"] is None else state

    def ended(self, number=signal.SIGTERM):
        """Ends the page by a signal, and answers its status."""
        self.process.send_signal(number)
        return self.process.wait(SECONDS)

    def end(self):
        if self.process is not None:
            if self.process.poll() is None:
                self.ended(signal.SIGKILL)
            self.process.stdout.close()
            self.process.stderr.close()

    def left(self):
        """What is left in the temporary folder behind the end."""
        if self.process is not None and self.process.poll() is None:
            self.ended()
        for _ in range(50):
            found = [name for name in os.listdir(self.temporary) if name.startswith("liq")]
            if not found:
                return []
            time.sleep(0.1)
        return [f"left is {found}"]
