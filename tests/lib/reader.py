"""Whoever follows a page: a folder with a checkout, or with what tools/install put in place, and a shell with HOME and PATH alone."""
import glob
import os
import re
import shutil
import stat
import subprocess
import sys
from typing import Dict, List, NamedTuple, Optional

from lib.checkout import Checkout
from lib.common import sound
from lib.page_commands import Command

SECONDS = 300

# Commands that only a checkout has.
OF_CHECKOUT = re.compile(r"(?:^|[|&;\n] *)(?:\.\.?/|tools/|tests/|bin/|git )|^export PATH=")

# What a command needs beside Python, where it needs something that may not be installed.
NEEDS = {"liq prepare": ("ffmpeg",), "liq station": ("ffmpeg",), "| dot ": ("dot",), "python3 -m unittest": ("ffmpeg",),
         "python3 ci.py": ("ffmpeg",), "git ": ("git",), "parallel ": ("parallel",)}

# Commands that say on standard error what they did, too.
TALKS = re.compile(r"python3 (?:-m unittest|ci\.py)|liq[ -]adopt|git clone")


class Way(NamedTuple):
    """How the pages are followed: in a checkout or below a prefix, and by which Python; that of the machine if none is named."""
    name: str
    is_prefix: bool
    python: Optional[str]


class Made(NamedTuple):
    """What all readers of a run share: a repository to clone, the built programs by their names, a prefix, a home, and a folder
    with the sounds of the examples."""
    repository: str
    programs: Dict[str, str]
    prefix: str
    home: str
    sounds: str


def python_39() -> Optional[str]:
    """A Python 3.9 of this machine, or nothing."""
    home = os.environ.get("HOME", "")
    for path in (shutil.which("python3.9"), *sorted(glob.glob(f"{glob.escape(home)}/.pyenv/versions/3.9.*/bin/python3.9"))):
        if path and subprocess.run([path, "-c", "import sys; sys.exit(sys.version_info[:2] != (3, 9))"], capture_output=True,
                                   check=False).returncode == 0:
            return path
    return None


def make(programs: Dict[str, str], place: str) -> Made:
    """Makes what readers share below a folder."""
    checkout = Checkout(programs, place)
    put_programs(checkout.top, programs)
    made = Made(checkout.top, programs, os.path.join(place, "prefix"), os.path.join(place, "home"),
                os.path.join(place, "sounds"))
    os.mkdir(made.sounds)
    for name in ("sounds.py", "songs.py"):
        shutil.copy(checkout.command(f"examples/{name}"), made.sounds)
        subprocess.run([sys.executable, name], cwd=made.sounds, check=True, stdout=subprocess.DEVNULL)
    if shutil.which("git"):
        for words in (["init", "-q"], ["add", "-A"], ["-c", "user.name=A", "-c", "user.email=a@dizhuppan.example", "commit", "-q", "-m", "one"]):
            subprocess.run(["git", "-C", checkout.top, *words], check=True)
    subprocess.run([checkout.command("tools/install"), made.prefix], check=True, stdout=subprocess.DEVNULL)
    make_music(os.path.join(made.home, "Music"))
    os.makedirs(os.path.join(made.home, "Jingles"))
    with open(os.path.join(made.home, "Jingles", "one.wav"), "wb") as file:
        file.write(sound([1000] * 60000))
    return made


def put_programs(top: str, programs: Dict[str, str]) -> None:
    """Puts the programs where a build leaves them."""
    for name, path in programs.items():
        folder = os.path.join(top, "crates", name, "out")
        os.makedirs(folder, exist_ok=True)
        shutil.copy(path, os.path.join(folder, name))


def make_music(folder: str) -> None:
    """Two songs, where ffmpeg is there to make them."""
    os.makedirs(folder)
    for number in (1, 2) if shutil.which("ffmpeg") else ():
        subprocess.run(["ffmpeg", "-loglevel", "error", "-f", "lavfi", "-i", f"sine=frequency={number * 300}:duration=3",
                        os.path.join(folder, f"song{number}.mp3")], stdin=subprocess.DEVNULL, check=True, timeout=SECONDS)


class Reader:
    """Follows one page in a new folder."""

    def __init__(self, made: Made, way: Way, place: str) -> None:
        self.made, self.way, self.place = made, way, place
        self.top, self.home = os.path.join(place, "dizhuppan"), os.path.join(place, "home")
        self.examples = os.path.join(place, "work") if way.is_prefix else os.path.join(self.top, "examples")
        shutil.copytree(made.home, self.home)
        path, commands = os.environ["PATH"], os.path.join(made.prefix if way.is_prefix else self.top, "bin")
        if way.python:
            os.makedirs(os.path.join(place, "python"))
            os.symlink(way.python, os.path.join(place, "python", "python3"))
            path = os.path.join(place, "python") + os.pathsep + path
        self.environment = {"HOME": self.home, "PATH": commands + os.pathsep + path}
        if way.is_prefix:
            shutil.copytree(os.path.join(made.prefix, "share", "doc", "liq", "examples"), self.examples)
            self.environment["PYTHONPATH"] = os.path.join(made.prefix, "share", "liq")
        else:
            self.clone()
        self.prepare()

    def clone(self) -> None:
        """Makes the checkout, whose programs are the built ones."""
        if shutil.which("git"):
            subprocess.run(["git", "clone", "-q", self.made.repository, self.top], check=True)
        else:
            shutil.copytree(self.made.repository, self.top)
        put_programs(self.top, self.made.programs)

    def prepare(self) -> None:
        """Makes what the pages name and do not make: the sounds, a password, dates, and scripts of the names OLD.liq and FILE."""
        shutil.copytree(self.made.sounds, self.examples, dirs_exist_ok=True)
        old = 'output.file(%wav, "old.wav", mksafe(playlist("music.m3u")))\n'
        for name, text in (("secret", "hackme\n"), ("dates", "2026-12-24 friday\n"), ("OLD.liq", old), ("FILE", old)):
            for folder in {self.examples, self.examples if self.way.is_prefix else self.top}:
                with open(os.path.join(folder, name), "w", encoding="utf-8") as file:
                    file.write(text)

    def can_run(self, text: str) -> bool:
        """Whether a command is one of this way, and all is installed that it needs."""
        needed = [name for part, names in NEEDS.items() if part in text for name in names]
        needed += re.findall(r"^# needs (\w+)", text)
        return not (self.way.is_prefix and OF_CHECKOUT.search(text)) and all(map(shutil.which, needed))

    def follow(self, command: Command) -> str:
        """Does what a page says; what is wrong with it, or nothing."""
        text = command.shorter(home=self.home, repository=self.made.repository)
        if text.startswith("git clone "):
            shutil.rmtree(self.top, ignore_errors=True)
        if text.startswith("cd ") or command.why_not() or not self.can_run(text):
            return ""
        if text.startswith("export "):
            name, _, value = text[len("export "):].partition("=")
            self.environment[name] = self.run(f"printf %s {value}", self.examples).stdout
            return ""
        folder = self.examples
        if OF_CHECKOUT.search(text):
            folder = self.place if text.startswith("git clone ") else self.top
        done = self.run(text, folder)
        if text.startswith("git clone ") and done.returncode == 0:
            put_programs(self.top, self.made.programs)
            self.prepare()
        printed = tuple(done.stdout.splitlines())
        is_wrong = done.returncode or done.stderr and not TALKS.search(text) or command.shown and printed != command.shown
        return f"line {command.line}: {text} ends with {done.returncode}, and prints {done.stderr!r:.300} and {printed!r:.300}" if is_wrong else ""

    def run(self, text: str, folder: str) -> "subprocess.CompletedProcess[str]":
        return subprocess.run(["sh", "-ec", text], cwd=folder, stdin=subprocess.DEVNULL, capture_output=True, text=True, check=False,
                              timeout=SECONDS, env=self.environment)

    def left(self) -> List[str]:
        """Pipes and empty files that the page leaves in the folder of the examples."""
        found = [(entry.name, entry.stat()) for entry in os.scandir(self.examples) if not entry.is_dir()]
        return [f"leaves {name}" for name, state in found if not stat.S_ISREG(state.st_mode) or not state.st_size]
