"""The wheel: what tools/installed lists, for pip. It has the files as below a prefix, in a folder of Python's packages, and a
command of each name that leads there; so `pip uninstall` removes all. Debian's setuptools make it."""
import os
import re
import shutil
import subprocess
import sys
from typing import Dict, List, Optional

from laying import TOP, Commit, Failed, content, listed, put, said

NAME = "dizhuppan"
PYTHONS = (sys.executable, "/usr/bin/python3")
START = '''"""The programs and commands of liq, as the wheel holds them: below this folder as below a prefix."""
import os
import sys

HOME = os.path.dirname(os.path.abspath(__file__))


def start(name: str) -> None:
    """Becomes a command, which finds the interpreter of this one."""
    path = os.path.join(HOME, "bin", name)
    os.environ["PATH"] = os.path.dirname(sys.executable) + os.pathsep + os.environ.get("PATH", os.defpath)
    words = ["/bin/sh", path] if name == "liq" else [sys.executable, path]
    os.execv(words[0], [*words, *sys.argv[1:]])
'''
COMMAND = '''

def {function}() -> None:
    """The command {name}."""
    start("{name}")
'''
SETUP = '''"""Makes the wheel."""
import os
import shutil

from setuptools import setup
from setuptools.command.build_py import build_py
from wheel.bdist_wheel import bdist_wheel


class Build(build_py):
    """The folder of files, with their modes, and the line that puts the package liq on the path."""

    def run(self):
        shutil.copytree("dizhuppan", os.path.join(self.build_lib, "dizhuppan"))
        shutil.copy("dizhuppan.pth", self.build_lib)


class Wheel(bdist_wheel):
    """A wheel with programs of one machine, for each Python 3."""

    def finalize_options(self):
        super().finalize_options()
        self.root_is_pure = False

    def get_tag(self):
        return "py3", "none", "{tag}"


setup(name="dizhuppan", version="{version}", description="Checks scripts of radio stations and renders them",
      author="The Dizhuppan authors", license="Apache-2.0", license_files=["LICENSE", "NOTICE", "licences/*"],
      python_requires=">=3.9", packages=["dizhuppan"], entry_points={{"console_scripts": {commands}}},
      cmdclass={{"build_py": Build, "bdist_wheel": Wheel}})
'''


def tag_of(programs: Dict[str, str]) -> str:
    """The systems on which the programs run, by the names of the C library's symbols in them."""
    found = [tuple(map(int, match.split(b"."))) for path in programs.values()
             for match in re.findall(rb"GLIBC_(\d+\.\d+)", content(path))]
    return "manylinux_{}_{}_x86_64".format(*max(found, default=(2, 34)))


def python_of() -> Optional[str]:
    """An interpreter that has setuptools and wheel; nothing where none is here."""
    for path in PYTHONS:
        words = [path, "-c", "import setuptools, wheel.bdist_wheel"]
        if os.path.exists(path) and subprocess.run(words, capture_output=True, check=False).returncode == 0:
            return path
    return None


def lay_project(place: str, commit: Commit, programs: Dict[str, str], laid: str) -> None:
    """Lays what setuptools make the wheel of, with the files that are laid already."""
    root = os.path.join(place, NAME)
    shutil.copytree(laid, root, symlinks=True)
    for base, folders, names in os.walk(root):
        for name in (*folders, *names):                     # a wheel holds no links
            if os.path.islink(os.path.join(base, name)):
                os.remove(os.path.join(base, name))
    functions = {name: name.replace("-", "_") for name in commands()}
    start = START + "".join(COMMAND.format(name=name, function=function) for name, function in functions.items())
    put(os.path.join(root, "__init__.py"), start.encode())
    put(os.path.join(place, f"{NAME}.pth"), f"{NAME}/share/liq\n".encode())
    entries = [f"{name} = {NAME}:{function}" for name, function in functions.items()]
    setup = SETUP.format(tag=tag_of(programs), version=commit.version, commands=entries)
    put(os.path.join(place, "setup.py"), setup.encode())
    for how, source, _ in listed():
        if how == "file" and (source in ("LICENSE", "NOTICE") or source.startswith("licences/")):
            put(os.path.join(place, source), content(os.path.join(TOP, source)))


def commands() -> List[str]:
    """The names of the commands."""
    return [os.path.basename(place) for how, _, place in listed() if how == "file" and place.startswith("bin/")]


def make_wheel(place: str, commit: Commit, programs: Dict[str, str], laid: str) -> Optional[str]:
    """Makes the wheel below a new folder of the files that are laid in another one, and answers its path; nothing, with a
    line, where no setuptools are here."""
    python = python_of()
    if python is None:
        print("package: no wheel is made, as setuptools and wheel are not installed: in Debian python3-setuptools and "
              "python3-wheel", file=sys.stderr)
        return None
    lay_project(place, commit, programs, laid)
    time = max(commit.time, 315532800)                      # 1980, before which a wheel has no times
    said("env", "-C", place, f"SOURCE_DATE_EPOCH={time}", python, "-I", "setup.py", "-q", "bdist_wheel", "-d", "made")
    made = os.listdir(os.path.join(place, "made"))
    if len(made) != 1:
        raise Failed(f"setuptools make {made}")
    return os.path.join(place, "made", made[0])
