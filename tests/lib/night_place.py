"""A folder with a station, in which liq-night runs."""
import os
import subprocess
import sys

from lib.common import TOP, content, quick, sound
from lib.stations import write_file

sys.path.insert(0, os.path.join(TOP, "share", "liq"))
from liq.reading.programs import beside  # noqa: E402

NIGHT = os.path.join(TOP, "bin", "liq-night")
SECONDS = 300
RATE = 8000
HEAD = f'set("frame.audio.samplerate", {RATE})\n'
LENGTHS = [20, 23, 26, 29, 32, 35, 38, 41]      # seconds of the files t0.wav, t1.wav and so on, and some samples
PROGRAMS = ("about_program", "where_program", "week_program", "picture_program")
LIST = [0, 1, 2, 3, 4, 5, 6, 7, 2, 2]


class Place:
    """A folder with a station, in which night runs."""

    def __init__(self, program, folder):
        self.program, self.folder, self.found = program, folder, []
        for k, seconds in enumerate(LENGTHS):
            write_file(folder, f"t{k}.wav", sound([k + 1] * (seconds * RATE + 17 * k), rate=RATE))
        write_file(folder, "m.m3u", "".join(f"t{k}.wav\n" for k in LIST))
        write_file(folder, "j.wav", sound([100] * (3 * RATE), rate=RATE))
        self.script('output.file(%wav, "A.wav", mean(mksafe(playlist("m.m3u"))))')

    def path(self, *names):
        return os.path.join(self.folder, *names)

    def script(self, text):
        write_file(self.folder, "f", HEAD + text + "\n")

    def slow(self, first="true"):
        """A program that takes a while to render, and first runs a line of the shell with its words. It has the others
        beside it."""
        os.makedirs(self.path("slow"), exist_ok=True)
        for name in PROGRAMS:
            found = beside(self.program, name)
            if found and not os.path.lexists(self.path("slow", name)):
                os.symlink(found, self.path("slow", name))
        write_file(self.folder, "slow/liq_program",
                   f"#!/bin/sh\nif [ \"$1\" = render ]; then sleep 0.3; {first}; fi\nexec '{self.program}' \"$@\"\n")
        os.chmod(self.path("slow", "liq_program"), 0o755)
        return f"--program={self.path('slow', 'liq_program')}"

    def run(self, *words, program=None, **options):
        """Runs night: its status, its lines, and what it says."""
        done = subprocess.run([*quick(NIGHT), program or f"--program={self.program}", *words], cwd=self.folder,
                              capture_output=True,
                              stdin=subprocess.DEVNULL, check=False, timeout=SECONDS, **options)
        return done.returncode, done.stdout.decode().split("\n")[:-1], done.stderr.decode()

    def night(self, *words):
        """Runs a night that has to be there; answers its lines behind those of the doctor."""
        status, lines, said = self.run(*words)
        if status or said:
            self.found.append(f"{words} ends with {status}, {said!r}, {lines}")
        return [line for line in lines if not line.startswith("list ")]

    def call(self, ticks, *options):
        """The bytes of an output and of its cue file by one call, and what that prints."""
        return self.call_to("A.wav", ticks, *options)

    def call_to(self, name, ticks, *options):
        """The same of another output."""
        done = subprocess.run([self.program, "render", "f", str(ticks), "--cues", *options], cwd=self.folder,
                              capture_output=True,
                              stdin=subprocess.DEVNULL, check=True)
        return self.made(name), done.stdout

    def made(self, name="A.wav"):
        return content(self.path(name)), content(self.path(name + ".cue"))

    def wants(self, what, got, wanted):
        if got != wanted:
            self.found.append(f"{what}: {str(got)[:300]}, wanted {str(wanted)[:300]}")

    def lies(self, what, *more):
        """Wants nothing beside what lay there and the files named."""
        known = {f"t{k}.wav" for k in range(len(LENGTHS))} | {"m.m3u", "j.wav", "f", "slow"}
        self.wants(f"what lies there {what}", sorted(set(os.listdir(self.folder)) - known), sorted(more))
