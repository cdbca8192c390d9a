"""A folder in which the program runs, and a run that is held in its middle: the scenes of tests/files."""
import errno
import fcntl
import os
import resource
import shutil
import subprocess
import termios
import time

from lib.common import sound

SECONDS = 60
TICK = 1764
LONG = 200  # ticks: more than a pipe holds


class Skipped(Exception):
    """The run cannot be made here."""


def wants_disks():
    """`Skipped` where a run cannot have disks of its own: it wants root, and a root folder that is that of a disk."""
    if os.geteuid() or not shutil.which("unshare"):
        raise Skipped("it wants root")
    if subprocess.run(["unshare", "-m", "true"], check=False, capture_output=True).returncode:
        raise Skipped("no disks of its own, as in a folder that is made the root")


def wave(samples, ticks):
    """What so many ticks of these samples are, again and again, on both channels."""
    both = [sample for sample in samples for _ in range(2)]
    count = 2 * ticks * TICK
    return sound((both * (count // len(both) + 1))[:count], channels=2)


SOUNDS = {"B": [1, 2, 3], "C": [70, 80]}


def whole(name, ticks):
    """The bytes of an output that plays this file."""
    return wave(SOUNDS[name], ticks)


def shown(value):
    """A value as text, with the front of long bytes alone."""
    if isinstance(value, tuple):
        return " and ".join(shown(part) for part in value)
    return f"{len(value)} bytes {value[:12]!r}.." if isinstance(value, bytes) and len(value) > 60 else repr(value)


class Place:
    """A folder in which the program runs, with two sounds, and what is found to be wrong there."""

    def __init__(self, program, folder):
        self.program = program
        self.folder = folder
        self.found = []
        for name, samples in SOUNDS.items():
            self.write(name, sound(samples))

    def path(self, name):
        return os.path.join(self.folder, name)

    def write(self, name, data):
        with open(self.path(name), "wb") as file:
            file.write(data)

    def read(self, name):
        try:
            with open(self.path(name), "rb") as file:
                return file.read()
        except OSError as error:
            return errno.errorcode[error.errno].encode()

    def script(self, *outputs):
        """Writes the script f: each output plays a file, B and C in turn if none is told."""
        pairs = [one if isinstance(one, tuple) else (one, "BC"[k % 2]) for k, one in enumerate(outputs)]
        self.write("f", "".join(f'output.file(%wav, "{name}", single("{track}"))\n' for name, track in pairs).encode())

    def start(self, ticks=1, user=None, limits=(), before=(), words=None, **streams):
        """Starts a rendering. Where a limit on the size of files is given, its signal is ignored, as by ./liq."""
        def limit():
            for name, value in limits:
                resource.setrlimit(name, (value, value))
        options = {"stdin": subprocess.DEVNULL, "stdout": subprocess.PIPE, "stderr": subprocess.PIPE, **streams}
        call = list(before) + [self.program] + (words or ["render", "f", str(ticks)])
        return subprocess.Popen(call, cwd=self.folder, preexec_fn=limit, user=user, group=user, extra_groups=[] if user else None,
                                restore_signals=False, **options)

    def run(self, ticks=1, **options):
        """Makes a rendering and answers its status; the streams stand in `out` and `err`."""
        return self.end(self.start(ticks, **options))

    def end(self, run):
        try:
            self.out, self.err = run.communicate(timeout=SECONDS)
        except subprocess.TimeoutExpired:
            run.kill()
            self.out, self.err = run.communicate()
            return f"no answer in {SECONDS} s"
        return run.returncode

    def wants(self, what, got, wanted):
        if got != wanted:
            self.found.append(f"{what} is {shown(got)}, wanted {shown(wanted)}")

    def status(self, wanted, ticks=1, **options):
        self.wants("the status", self.run(ticks, **options), wanted)

    def holds(self, name, wanted):
        self.wants(name, self.read(name), wanted)

    def lies(self, *names):
        """Only these files lie here, beside the sounds and the script."""
        self.wants("the folder", sorted(os.listdir(self.folder)), sorted(set(names) | set(SOUNDS) | {"f"}))


class Held:
    """A rendering that stands still in the middle: its last output is a pipe P of which nothing is read yet."""

    def __init__(self, place, *outputs, ticks=LONG, **options):
        self.place = place
        os.mkfifo(place.path("P"))
        place.script(*outputs, ("P", "C"))
        self.pipe = os.open(place.path("P"), os.O_RDONLY | os.O_NONBLOCK)
        self.run = place.start(ticks, **options)
        until = time.monotonic() + SECONDS
        while self.waiting() < 40000 and self.run.poll() is None and time.monotonic() < until:
            time.sleep(0.001)
        if self.run.poll() is not None:
            place.found.append(f"the run ended with {self.run.returncode} before it was held")

    def waiting(self):
        room = bytearray(4)
        fcntl.ioctl(self.pipe, termios.FIONREAD, room)
        return int.from_bytes(room, "little")

    def go_on(self):
        """Reads the pipe to its end, and answers the status and the bytes."""
        os.set_blocking(self.pipe, True)
        got = []
        while piece := os.read(self.pipe, 1 << 16):
            got.append(piece)
        os.close(self.pipe)
        os.remove(self.place.path("P"))
        return self.place.end(self.run), b"".join(got)

    def cut(self):
        """Closes the pipe unread, and answers the status."""
        os.close(self.pipe)
        os.remove(self.place.path("P"))
        return self.place.end(self.run)
