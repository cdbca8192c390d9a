"""A copy of the commands of the checkout, as tests/install, tests/package and tests/dist call them."""
import os
import shutil
import subprocess

from lib.common import COMPANION, TOP, companion_path, sound

SECONDS = 300
RT = """#!/bin/sh
name=$(basename "$PWD")
echo "$name $*" >> "$NOTES"
case $1 in
    run) mkdir -p out && cp "$PROGRAMS/$name" "out/$name"; echo "logic=proved of $name" ;;
    version) echo "a kit" ;;
esac
"""


def installed():
    """The lines of tools/installed: how, the source, and the place."""
    with open(os.path.join(TOP, "tools", "installed"), encoding="utf-8") as file:
        return [line.split() for line in file if not line.startswith("#")]


def names():
    """The programs of tools/installed."""
    return [source for how, source, _ in installed() if how == "program"]


def commands():
    """The files and folders of the top that the commands need."""
    sources = {source.split("/")[0] for how, source, _ in installed() if how == "file"}
    return sorted(sources | {"tools"})


class Checkout:
    """A copy of the commands, in a folder whose name has a blank and an umlaut, with the sources of programs that are not built,
    and with what tools/theorem reads of the other crates."""

    def __init__(self, programs, place):
        self.programs, self.place, self.top = programs, place, os.path.join(place, "a chäckout")
        self.notes, self.built = os.path.join(place, "notes"), os.path.join(place, "built")
        os.makedirs(self.top)
        for name in commands():
            (shutil.copytree if os.path.isdir(os.path.join(TOP, name)) else shutil.copy)(os.path.join(TOP, name), os.path.join(self.top, name))
        for name in os.listdir(os.path.join(TOP, "crates")):
            for part in ("src", "specs") if name not in ("script_grammar", *programs) else ():
                if os.path.isdir(os.path.join(TOP, "crates", name, part)):
                    shutil.copytree(os.path.join(TOP, "crates", name, part), os.path.join(self.top, "crates", name, part))
        os.symlink("bin/liq", os.path.join(self.top, "liq"))
        self.write("a chäckout/.gitignore", b"out/\n__pycache__/\n")
        self.write("a chäckout/crates.txt", "\n".join(["script_grammar:"] + [f"{name}: script_grammar" for name in programs]).encode() + b"\n")
        for name in ("script_grammar", *programs):
            self.write(f"a chäckout/crates/{name}/src/main.rt", b"")
        for name, path in programs.items():
            self.write(f"built/{name}", b"")
            shutil.copy(path, os.path.join(self.built, name))
        self.write("kit/rt", RT.encode())
        os.chmod(os.path.join(place, "kit", "rt"), 0o755)
        self.write("work/f", b'output.file(%wav, "A", single("B"))\n')
        self.write("work/bad", b"x = y\n")
        self.write("work/B", sound([1, 2, 3]))
        self.work = os.path.join(place, "work")

    def write(self, name, data):
        path = os.path.join(self.place, name)
        os.makedirs(os.path.dirname(path), exist_ok=True)
        with open(path, "wb") as file:
            file.write(data)

    def start(self, *words, kit=True, path=None, more=None, **options):
        """Starts a command, with the kit on PATH or not, and with more in the environment."""
        path = path or os.pathsep.join([os.path.join(self.place, "kit")] * kit + ["/usr/bin", "/bin"])
        options = {"stdout": subprocess.PIPE, "stderr": subprocess.PIPE, **options}
        own = {name: value for name, value in os.environ.items() if name != "LIQ_PROGRAMS"}
        environment = {**own, "PATH": path, "NOTES": self.notes, "PROGRAMS": self.built, **(more or {})}
        return subprocess.Popen(words, cwd=self.work, stdin=subprocess.DEVNULL, env=environment, **options)

    def call(self, *words, **options):
        """A command's status, and what it printed."""
        with self.start(*words, **options) as run:
            try:
                out, err = run.communicate(timeout=SECONDS)
            except subprocess.TimeoutExpired:
                run.kill()
                raise
        return run.returncode, (out or b"").decode(), (err or b"").decode()

    def command(self, name):
        return os.path.join(self.top, name)

    def noted(self):
        """The words with which the kit was called since the last look."""
        if not os.path.exists(self.notes):
            return []
        with open(self.notes, encoding="utf-8") as file:
            lines = file.read().splitlines()
        os.remove(self.notes)
        return lines


def programs_of(call):
    """The built programs, by the names of their crates."""
    return {"liq_program": call.program, COMPANION: companion_path(call)}
