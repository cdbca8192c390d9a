"""What the runners share: the words of a call, the built programs, sounds as bytes, and the last line that each prints."""
import argparse
import atexit
import os
import shutil
import signal
import struct
import subprocess
import sys
import tempfile
import wave
from array import array

TESTS = os.path.dirname(os.path.dirname(os.path.abspath(__file__)))
TOP = os.path.dirname(TESTS)


def built(name="liq_program"):
    """The path of a built program, which is proved and built first if need be."""
    made = subprocess.run([os.path.join(TOP, "tools", "program"), name], stdout=subprocess.PIPE, check=False)
    if made.returncode != 0:
        sys.exit(made.returncode)
    return made.stdout.decode().strip()


COMPANION = "about_program"


def takes_companion(words):
    """A runner for which an already built companion can be named, too: `--companion PATH`."""
    words.add_argument("--companion", metavar="PATH", type=os.path.abspath)
    takes_text(words)


def companion_path(call):
    """The companion that is named, or that lies beside the program, or the built one. Where it lies beside the program the
    commands take both, too."""
    folder = os.path.dirname(call.program)
    beside = os.path.join(folder, COMPANION)
    if call.companion or not os.access(beside, os.X_OK):
        return call.companion or built(COMPANION)
    os.environ["LIQ_PROGRAMS"] = folder
    return beside


def programs_folder(call):
    """A folder with both programs, for the variable LIQ_PROGRAMS: theirs, or where they lie apart, as a build leaves them, one
    of links, which goes with the runner."""
    paths = [call.program, companion_path(call)]
    if len({os.path.dirname(path) for path in paths}) == 1:
        return os.path.dirname(call.program)
    folder = tempfile.mkdtemp(prefix="liq-programs-")
    atexit.register(shutil.rmtree, folder, ignore_errors=True)
    os.chmod(folder, 0o755)
    for path, name in zip(paths, ("liq_program", COMPANION)):
        os.symlink(os.path.abspath(path), os.path.join(folder, name))
    return folder


def quick(command):
    """The first words of a call of a command of Python: by the interpreter of this run, with UTF-8 as the commands set it
    for themselves by a second start, and without the packages of the machine, on which none of them rests."""
    return [sys.executable, "-S", "-X", "utf8", command]


def takes_text(words):
    """A runner of which a part can be run alone."""
    words.add_argument("text", metavar="TEXT", nargs="?", default="")


def hear_signals():
    """What this process starts hears each signal, also one that this process itself was told to ignore, as by nohup:
    a handler of its own is none of a new program's."""
    for number in (signal.SIGINT, signal.SIGTERM, signal.SIGHUP):
        if signal.getsignal(number) == signal.SIG_IGN:
            signal.signal(number, lambda *_: None)


def call_of(page, add=takes_text, name="liq_program"):
    """The words of a runner's call: `--program PATH`, where an already built program of this name is to be taken, and what the runner
    adds."""
    hear_signals()
    words = argparse.ArgumentParser(description=page, formatter_class=argparse.RawDescriptionHelpFormatter, allow_abbrev=False)
    words.add_argument("--program", metavar="PATH", type=os.path.abspath)
    add(words)
    call = words.parse_args()
    call.program = call.program or built(name)
    return call


def usage_of(program):
    """The usage line of a program."""
    return subprocess.run([program], stdin=subprocess.DEVNULL, capture_output=True, check=False).stderr


def knows_cues(program):
    """Whether a program writes cue files."""
    return b"--cues" in usage_of(program)


def knows_wide(program):
    """Whether a program writes samples of 24 bits."""
    with tempfile.TemporaryDirectory(prefix="liq-wide-") as place:
        with open(os.path.join(place, "f"), "w", encoding="utf-8") as file:
            file.write('output.file(%wav(samplesize=24), "A", blank())')
        return subprocess.run([program, "check", "f"], cwd=place, stdin=subprocess.DEVNULL, capture_output=True, check=False).returncode == 0


class Tally:
    """How many runs passed and failed. A run that failed gets a line when it is counted; the last line has both numbers."""

    def __init__(self):
        self.passed = self.failed = 0

    def count(self, name, found):
        """Counts a run, of which this was found to be wrong: a text, or texts; nothing where it passed."""
        if not found:
            self.passed += 1
            return
        self.failed += 1
        print(f"{name}: {found if isinstance(found, str) else '; '.join(found)}", flush=True)

    def end(self):
        """Prints the last line, and answers the exit status: 1 where a run failed, or none was made."""
        print(f"{self.passed} passed, {self.failed} failed")
        return 1 if self.failed or not self.passed else 0


def content(path):
    with open(path, "rb") as file:
        return file.read()


def header(size, channels=1, rate=44100, width=2):
    """The 44 bytes before so many bytes of samples of this width."""
    return b"RIFF" + struct.pack("<I", 36 + size + size % 2) + b"WAVEfmt " + struct.pack(
        "<IHHIIHH", 16, 1, channels, rate, rate * channels * width, channels * width, 8 * width) + b"data" + struct.pack("<I", size)


def packed(samples, width=2):
    """Samples of 16 bits as bytes; in three bytes each is 256 times as large."""
    narrow = array("h", samples).tobytes()  # little-endian, as the machines are on which the program runs
    return narrow if width == 2 else b"".join(b"\0" + narrow[at:at + 2] for at in range(0, len(narrow), 2))


def sound(samples, channels=1, rate=44100, width=2):
    """A WAV file of these samples; of two channels the left one comes first."""
    data = packed(samples, width)
    return header(len(data), channels, rate, width) + data + b"\0" * (len(data) % 2)


def left_samples(*path):
    """The left side of a file of 16 bits, or the upper 16 bits of one of 24."""
    with wave.open(os.path.join(*path), "rb") as file:
        channels, width, frames = file.getnchannels(), file.getsampwidth(), file.readframes(file.getnframes())
    if width == 3:
        frames = b"".join(frames[at + 1:at + 3] for at in range(0, len(frames), 3))
    return list(struct.unpack(f"<{len(frames) // 2}h", frames))[::channels]
