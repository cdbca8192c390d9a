"""Where the built programs are."""
import os
import subprocess
from typing import Iterator, Optional, Sequence

from liq.failed import Failed

LIQ, COMPANION = "liq_program", "about_program"
TOP = os.path.dirname(os.path.dirname(os.path.dirname(os.path.dirname(os.path.dirname(os.path.realpath(__file__))))))
FOLDER = "LIQ_PROGRAMS"     # the variable of the environment that names a folder of programs, for tests
# Large blocks are taken in large pages, where the C library and the system can; others pass it over. The last setting of a
# kind counts, so that the caller's own comes behind.
PAGES = "glibc.malloc.hugetlb=1"
TUNED = "GLIBC_TUNABLES"


class NotBuilt(Failed):
    """There is no such program. `status` is the exit status for it: 126, or 127 where the kit is missing."""


def is_program(path: str) -> bool:
    return os.path.isfile(path) and os.access(path, os.X_OK)


def beside(program: str, name: str) -> Optional[str]:
    """A built program in the folder of another one, or in the crate of its name; nothing where neither is there."""
    folder = os.path.dirname(program)
    places = os.path.join(folder, name), os.path.join(folder, "..", "..", name, "out", name)
    return next((os.path.abspath(place) for place in places if is_program(place)), None)


def places_of(names: Sequence[str], may_build: bool) -> "Iterator[list[str]]":
    """Where built programs may be: in the folder that is named, where they are installed, and, where none is to be
    built, where a build leaves them."""
    for folder in filter(None, (os.environ.get(FOLDER), os.path.join(TOP, "lib", "liq"))):
        yield [os.path.join(os.path.abspath(folder), name) for name in names]
    if not may_build:
        yield [os.path.join(TOP, "crates", name, "out", name) for name in names]


def programs_of(names: Sequence[str], given: Optional[str] = None, may_build: bool = True) -> "list[str]":
    """The paths of built programs, in this order. `given` is the path of one of them, beside which the others are. Else
    they are those of the folder that LIQ_PROGRAMS names, those that are installed, or those of the checkout. The last
    are unpacked or built first if need be, unless `may_build` is false."""
    if PAGES not in os.environ.get(TUNED, ""):
        os.environ[TUNED] = ":".join(filter(None, (PAGES, os.environ.get(TUNED))))
    if given is not None:
        return [path_beside(os.path.abspath(given), name) for name in names]
    for paths in places_of(names, may_build):
        if all(map(is_program, paths)):
            return paths
    if not may_build:
        raise NotBuilt(f"{' and '.join(names)}: not found", 126)
    try:
        made = subprocess.run([os.path.join(TOP, "tools", "program"), *names], stdin=subprocess.DEVNULL, check=False,
                              stdout=subprocess.PIPE)
    except OSError:
        raise NotBuilt(f"{' and '.join(names)}: not found", 126) from None
    if made.returncode:
        raise NotBuilt(f"{' and '.join(names)}: not built", made.returncode)
    return os.fsdecode(made.stdout).split("\n")[:len(names)]


def path_beside(given: str, name: str) -> str:
    """The path of a program that is named, or of another one beside it."""
    found = given if name in (LIQ, os.path.basename(given)) else beside(given, name)
    if found is None or not is_program(found):
        raise NotBuilt(f"{found or os.path.join(os.path.dirname(given), name)}: not found", 126)
    return found


def program_of(name: str, given: Optional[str] = None, may_build: bool = True) -> str:
    """The path of one built program."""
    return programs_of([name], given, may_build)[0]
