"""One long stream through a real server, to which somebody listens: what is heard, when, and under which titles, while decoders,
the encoder, the server and the disk of the state fail, and renderings come early and late.

The stream is laid out in sixtieths of its length, so that a short one has the same scenes.
"""
import os
import shutil
import signal
import subprocess
import time

from lib.common import content
from lib.on_air import AIR, LIMIT, PASSWORD, Listener, Server, decoders_of, encoders_of, logged, rendering, timed, until

TONES, PART = 100, 8            # tones that take turns; sixtieths of a second between tracks
MEANWHILE = -4                  # the tone of what is played meanwhile
BYTES = 16000                   # of a second of the stream, at 128 kilobits
# A name, the sixtieths at which it begins and at which it is there, how many it lasts, and its first tone.
RENDERINGS = (("a", 3, 1, 14, 0), ("b", 17, 20, 15, 25), ("c", 32, 25, 13, 50), ("d", 47, 40, 11, 75))
DOWN = 8                        # seconds for which the server is down
EARLY, LATE = -1.6, 1.2         # seconds from the clock at which a second may come to a listener: the stream runs a second ahead
FULL = "cannot"                 # what the file of others is called that fills the disk of the state


def moments_of(listener):
    """The moments that a listener heard: the second since 1970 at which each twentieth of a second came, and its tone."""
    came, k = listener.came, 0
    for number, tone in enumerate(listener.moments()):
        at = number * 0.05 * BYTES
        while k + 1 < len(came) and came[k][1] < at:
            k += 1
        yield came[k][0], tone


class Show:
    """A stream in a folder: its server, its renderings, and what is done to it."""

    def __init__(self, folder, seconds):
        self.folder, self.unit, self.found, self.lines = folder, seconds / 60, [], []
        self.server, self.moments, self.titles = Server(folder), [], []
        self.server.start()
        os.mkdir(self.path("air"))
        os.mkdir(self.path("small"))
        rendering(self.path("meanwhile.wav"), MEANWHILE, 1)
        self.listener = Listener(self.server.port, stays=True)
        self.is_small = os.geteuid() == 0 and bool(shutil.which("unshare"))
        self.run = self.started()
        self.begin = int(time.time()) + 3
        self.made = self.prepared()

    def path(self, *names):
        return os.path.join(self.folder, *names)

    def started(self):
        """Starts liq-air, where that may be with a small disk for its state."""
        words = [AIR, "--stay", "--state=small/state", "--log=log", "--meanwhile=meanwhile.wav",
                 f"http://127.0.0.1:{self.server.port}/air.mp3", "air"]
        if self.is_small:
            words = ["unshare", "-m", "sh", "-c", 'mount -t tmpfs -o size=64k none small && exec "$@"', "sh", *words]
        with open(self.path("said"), "wb") as said:
            return subprocess.Popen(words, cwd=self.folder, stdin=subprocess.DEVNULL, stdout=subprocess.DEVNULL, stderr=said,
                                    env={**os.environ, "LIQ_AIR_PASSWORD": PASSWORD})

    def at(self, units):
        """The second since 1970 of so many sixtieths."""
        return self.begin + round(units * self.unit)

    def prepared(self):
        """Makes the renderings in another folder: of each its name, its start, its seconds, its first tone and its tracks."""
        found = {}
        os.mkdir(self.path("ready"))
        for name, start, _, length, first in RENDERINGS:
            seconds = round((start + length) * self.unit) - round(start * self.unit)
            step = max(3, round(PART / 10 * self.unit))
            tracks = [(at, f"{name}{at}.wav") for at in range(0, seconds, step)]
            timed(self.path("ready", f"{name}.wav"), first, seconds, self.at(start), tracks, TONES)
            found[name] = self.at(start), seconds, first, tracks
        return found

    def put(self, name):
        """Puts a rendering where it is played from, its own file last."""
        for ending in (".cue", ".start", ""):
            os.rename(self.path("ready", f"{name}.wav{ending}"), self.path("air", f"{name}.wav{ending}"))

    def kill(self, processes):
        """Kills what decodes, or what encodes."""
        killed = list(processes(self.run))
        for number in killed:
            os.kill(number, signal.SIGKILL)
        if not killed:
            self.found.append(f"nothing to kill at {time.time() - self.begin:.0f} s")

    def restart(self):
        """Stops the server, and starts it again after a while."""
        self.server.stop()
        time.sleep(DOWN)
        self.server.start()

    def fill(self):
        """Fills the disk of the state."""
        if self.is_small:
            disk = f"/proc/{self.run.pid}/root{self.path('small')}"
            with open(os.path.join(disk, FULL), "wb", buffering=0) as file:
                try:
                    while file.write(bytes(4096)):
                        pass
                except OSError:
                    pass

    def free(self):
        """Frees the disk of the state; it has to be written again."""
        if self.is_small:
            disk = f"/proc/{self.run.pid}/root{self.path('small')}"
            os.remove(os.path.join(disk, FULL))
            if not until(lambda: os.path.exists(f"{disk}/state") and time.time() - os.path.getmtime(f"{disk}/state") < 6):
                self.found.append("the state is not written again")

    def play(self):
        """Does everything at its moment."""
        moments = [(there, lambda name=name: self.put(name)) for name, _, there, _, _ in RENDERINGS]
        moments += [(7, lambda: self.kill(decoders_of)), (11, self.restart), (24, self.fill), (28, self.free),
                    (35, lambda: self.kill(decoders_of)), (52, lambda: self.kill(encoders_of)), (60, lambda: None)]
        for units, action in sorted(moments, key=lambda pair: pair[0]):
            time.sleep(max(0.0, self.at(units) - time.time()))
            if self.run.poll() is not None:
                self.found.append(f"it ends at {time.time() - self.begin:.0f} s with {self.run.returncode}")
                break
            action()
        self.listener.stays = False
        self.run.send_signal(signal.SIGTERM)
        self.run.wait(LIMIT)
        self.listener.join(LIMIT)
        self.moments = list(moments_of(self.listener))
        self.titles = list(zip(self.listener.told, self.listener.titles))
        self.lines.append(f"the listener joined {self.listener.joins} times")
        self.server.stop()
        if self.run.returncode:
            self.found.append(f"the status is {self.run.returncode}")

    def examine(self):
        """Compares what was heard with the clock, the log and the titles; and what was lost with what was told."""
        said = content(self.path("said")).decode(errors="replace")
        self.lines += ["liq-air says: " + line for line in said.split("\n")[:-1]]
        for text in ("; again from ", "the server went away", " again\n", "from ", "ffmpeg, which encodes, has ended",
                     *(["state: No space left on device; what was played is not noted"] if self.is_small else [])):
            if text not in said:
                self.found.append(f"it does not say {text!r}")
        for name, (start, seconds, first, tracks) in self.made.items():
            self.examine_one(name, start, seconds, first)
            self.examine_titles(name, start, seconds, tracks)
        rows = logged(self.folder)
        due = {file: self.made[file[0]][0] + int(file[1:-4]) for _, _, file in rows if file[1:-4].isdigit()}
        self.found += [f"the log has {file} at {at - self.begin:.0f} s, {at - due[file]:+.0f} s from the clock" for at, _, file in rows
                       if file in due and file not in self.joined() and abs(at - due[file]) > 1]
        self.lines.append(f"the log has {len(rows)} rows, {sum(length for _, length, _ in rows):.0f} s")

    def joined(self):
        """The files of tracks that may begin in their middle, or not at all: those that were over when their rendering came, and
        those in which the stream was joined or broken."""
        marks = [self.at(units) for units in (7, 11, 20, 35, 52)] + [self.at(11) + DOWN]
        there = {name: self.at(units) for name, _, units, _, _ in RENDERINGS}
        found = set()
        for name, (start, seconds, _, tracks) in self.made.items():
            for (at, file), (end, _) in zip(tracks, [*tracks[1:], (seconds, "")]):
                if start + end < there[name] + 2 or any(start + at - 2 <= mark <= start + end + 12 for mark in marks):
                    found.add(file)
        return found

    def examine_one(self, name, start, seconds, first):
        """Looks when each second of a rendering was heard: how far from the clock, and which were not."""
        heard = {}
        for moment, tone in self.moments:
            nearest = round(moment - start)
            for second in range(max(0, nearest - 3), min(seconds, nearest + 4)):
                if (first + second) % TONES == tone:
                    heard.setdefault(second, []).append(moment)
        off = [(second, moments[0] - start - second) for second, moments in heard.items() if len(moments) > 8]
        lost = sorted(set(range(seconds)) - {second for second, _ in off})
        least, most = min((by for _, by in off), default=0), max((by for _, by in off), default=0)
        self.lines.append(f"{name}: {len(off)} of {seconds} seconds heard at their moments, {least:+.2f} to {most:+.2f} s from the clock; "
                          f"not heard: {runs_of(lost) or 'none'}")
        more = 1.0 if name == "d" else 0.0      # what an encoder held when it was killed
        if not off or least < EARLY - more or most > LATE + more:
            self.found.append(f"{name} is heard {least:+.2f} to {most:+.2f} s from the clock")
        there = {row[0]: round((row[2] - row[1]) * self.unit) for row in RENDERINGS}[name]
        bound = max(0, there) + 4 + {"a": DOWN + 6, "d": 3}.get(name, 0)
        if len(lost) > bound:
            self.found.append(f"{name}: {len(lost)} seconds are not heard, and {bound} may be: {runs_of(lost)}")

    def examine_titles(self, name, start, seconds, tracks):
        """Looks when listeners were told each title."""
        told = [(moment, title) for moment, title in self.titles if title[:1] == name]
        joined = self.joined()
        offs = []
        for at, file in tracks:
            moments = [moment for moment, title in told if title == file[:-4]]
            if moments:
                offs.append(moments[0] - start - at)
            if not moments and file not in joined:
                self.found.append(f"the title {file[:-4]} is not told")
            elif moments and file not in joined and not -2.5 < moments[0] - start - at < 1.5:
                self.found.append(f"the title {file[:-4]} is told {moments[0] - start - at:+.1f} s from the clock")
        order = [int(title[1:]) for _, title in told]
        if order != sorted(order):
            self.found.append(f"the titles of {name} come as {order}")
        self.lines.append(f"{name}: {len(set(order))} of {len(tracks)} titles told, {min(offs, default=0):+.1f} to {max(offs, default=0):+.1f} s "
                          "from the clock")


def runs_of(numbers):
    """Numbers as runs, for a line."""
    found = []
    for number in numbers:
        if found and found[-1][1] == number - 1:
            found[-1][1] = number
        else:
            found.append([number, number])
    return ", ".join(f"{a} to {b}" if a < b else str(a) for a, b in found)


def heard(folder, seconds):
    """Plays a stream of so many seconds: what is wrong, and lines on what was heard."""
    show = Show(folder, seconds)
    show.play()
    show.examine()
    return show.found, show.lines
