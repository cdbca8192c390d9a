"""What runs of tests/air share: an icecast server on the loopback, those who listen to it, and renderings of tones."""
import contextlib
import csv
import datetime
import math
import os
import pwd
import random
import re
import shutil
import socket
import subprocess
import threading
import time
from array import array

from lib.common import TOP, content, sound

AIR = os.path.join(TOP, "bin", "liq-air")
RATE, LOW, STEP = 22050, 500, 50       # the tone of second k has 500 + 50 k Hz
SECONDS = int(os.environ.get("LIQ_AIR_SECONDS", "5"))
PASSWORD = "only in the environment"
LIMIT = 30             # seconds that anything may take
CONFIG = """<icecast><limits><sources>4</sources><burst-size>0</burst-size></limits>
<authentication><source-password>{password}</source-password><admin-user>a</admin-user><admin-password>b</admin-password></authentication>
<listen-socket><port>{port}</port><bind-address>127.0.0.1</bind-address></listen-socket>
<fileserve>0</fileserve><paths><logdir>{folder}</logdir><webroot>{folder}</webroot><adminroot>{folder}</adminroot></paths>
<logging><accesslog>access.log</accesslog><errorlog>error.log</errorlog><loglevel>3</loglevel></logging></icecast>
"""


def free_port():
    """A port that nobody has, below those that the system hands out, so that no other run gets it before it is taken."""
    while True:
        port = random.randrange(20000, 32000)
        with contextlib.suppress(OSError), socket.create_server(("127.0.0.1", port)):
            return port


class Server:
    """An icecast server with its files in a folder."""

    def __init__(self, folder):
        self.folder, self.port, self.process = os.path.join(folder, "server"), free_port(), None
        os.mkdir(self.folder)
        with open(os.path.join(self.folder, "config.xml"), "w", encoding="utf-8") as file:
            file.write(CONFIG.format(password=PASSWORD, port=self.port, folder=self.folder))
        self.user = None
        if os.geteuid() == 0:                               # icecast2 does not run as root
            self.user = "nobody"
            os.chmod(folder, 0o755)
            os.chown(self.folder, pwd.getpwnam("nobody").pw_uid, -1)

    def start(self):
        words = [shutil.which("icecast2"), "-c", os.path.join(self.folder, "config.xml")]
        self.process = subprocess.Popen(words, user=self.user, stdin=subprocess.DEVNULL, stdout=subprocess.DEVNULL,
                                        stderr=subprocess.DEVNULL, cwd="/")
        until(lambda: self.is_up() or self.process.poll() is not None)

    def is_up(self):
        with contextlib.suppress(OSError), socket.create_connection(("127.0.0.1", self.port), 1):
            return True
        return False

    def stop(self):
        self.process.kill()
        self.process.wait()


def until(is_so):
    """Waits until something is so; whether it came."""
    end = time.monotonic() + LIMIT
    while time.monotonic() < end:
        if is_so():
            return True
        time.sleep(0.02)
    return False


class Listener(threading.Thread):
    """Listens to a mount until it ends: the MP3 that comes, and the titles. One that stays joins it again and again."""

    def __init__(self, port, mount="/air.mp3", stays=False):
        super().__init__(daemon=True)
        self.stays, self.joins = stays, 0
        self.port, self.mount, self.data, self.titles = port, mount, bytearray(), []
        self.came, self.told = [], []          # when so many bytes had come, and when each title came
        self.start()

    def run(self):
        end = time.monotonic() + LIMIT
        while self.stays or time.monotonic() < end and not self.data:
            with contextlib.suppress(OSError), socket.create_connection(("127.0.0.1", self.port), 5) as link:
                link.sendall(f"GET {self.mount} HTTP/1.0\r\nIcy-MetaData: 1\r\n\r\n".encode())
                self.take(link.makefile("rb"))
            time.sleep(0.02)

    def take(self, file):
        """Takes bytes, and titles between them."""
        head = b""
        while not head.endswith(b"\r\n\r\n"):
            line = file.readline()
            if not line:
                return
            head += line
        told = re.search(rb"icy-metaint:\s*(\d+)", head, re.I)
        self.joins += told is not None
        while told and head.split(b" ")[1] == b"200":
            piece = file.read(int(told[1]))
            self.data += piece
            self.came.append((time.time(), len(self.data)))
            length = file.read(1)
            if not length:
                return
            title = re.match(rb"StreamTitle='(.*)';", file.read(16 * length[0]), re.S)
            if title and (not self.titles or self.titles[-1] != title[1].decode("latin-1")):
                self.told.append(time.time())
                self.titles.append(title[1].decode("latin-1"))      # as the server turns titles into, if nobody says otherwise

    def tones(self):
        """The seconds that were heard, by their tones, each with how long it was heard."""
        found = []
        for tone in self.moments():
            if found and found[-1][0] == tone:
                found[-1][1] += 0.05
            else:
                found.append([tone, 0.05])
        return [(tone, round(length, 2)) for tone, length in found if length > 0.15]

    def moments(self):
        """The tone of each twentieth of a second."""
        done = subprocess.run(["ffmpeg", "-nostdin", "-v", "error", "-f", "mp3", "-i", "pipe:0", "-f", "s16le", "-ac", "1", "-ar",
                               str(RATE), "pipe:1"], input=bytes(self.data), capture_output=True, check=False)
        samples, step = array("h", done.stdout), RATE // 20
        for at in range(0, len(samples) - step, step):
            part = samples[at:at + step]
            crossings = sum((a < 0) != (b < 0) for a, b in zip(part, part[1:]))
            yield round((crossings * RATE / (2 * step) - LOW) / STEP)


def rendering(path, first, seconds, tracks=(), tones=1000):
    """Writes a rendering in whose seconds these tones sound, of so many in turn, and its cue file."""
    samples, made = array("h"), {}
    for second in range(seconds):
        tone = (first + second) % tones if first >= 0 else first + second
        if tone not in made:
            turn = 2 * math.pi * (LOW + STEP * tone) / RATE
            made[tone] = array("h", [round(9000 * math.sin(turn * n)) for n in range(RATE)])
        samples += made[tone]
    with open(path + ".part", "wb") as file:
        file.write(sound(samples, 1, RATE))
    with open(path + ".cue", "w", encoding="utf-8") as file:
        file.writelines(f"{at * RATE} {name}\n" for at, name in tracks)
    os.rename(path + ".part", path)


def air(folder, *words, **more):
    """Starts liq-air in a folder."""
    return subprocess.Popen([AIR, *words], cwd=folder, stdin=subprocess.DEVNULL, stdout=subprocess.DEVNULL, stderr=subprocess.PIPE,
                            text=True, env={**os.environ, "LIQ_AIR_PASSWORD": PASSWORD}, **more)


def said_by(run):
    """What a run says to its end; it is killed where it does not end."""
    try:
        return run.communicate(timeout=LIMIT + 3 * SECONDS)[1]
    except subprocess.TimeoutExpired:
        run.kill()
        return run.communicate()[1] + "it does not end"


def timed(path, first, seconds, start, tracks=(), tones=1000):
    """The same with a start, a second since 1970."""
    rendering(path + ".new", first, seconds, tracks, tones)
    with open(path + ".start", "w", encoding="utf-8") as file:
        file.write(datetime.datetime.fromtimestamp(start).astimezone().isoformat() + "\n")
    os.rename(path + ".new.cue", path + ".cue")
    os.utime(path + ".new", (start - 9000, start - 9000))
    os.rename(path + ".new", path)


def logged(folder):
    """The lines of a log: when each track began, as a second since 1970, for how long it was on the air, and its file."""
    with open(f"{folder}/log", encoding="utf-8") as file:
        rows = list(csv.reader(file))
    return [(datetime.datetime.fromisoformat(f"{row[0]} {row[1]}").timestamp(), float(row[2]), row[8]) for row in rows[1:]]


def decoders_of(run):
    """The processes that decode for a run."""
    return children_of(run, b"/dev/fd/")


def encoders_of(run):
    """The processes that encode for a run."""
    return children_of(run, b"libmp3lame")


def children_of(run, word):
    """The children of a run in whose command lines a word stands."""
    for entry in filter(str.isdigit, os.listdir("/proc")):
        with contextlib.suppress(FileNotFoundError, ProcessLookupError):
            told = content(f"/proc/{entry}/stat").rsplit(b")", 1)[1].split()
            if int(told[1]) == run.pid and word in content(f"/proc/{entry}/cmdline"):
                yield int(entry)
