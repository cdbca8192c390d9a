"""What bin/liq-station does."""
import errno
import fcntl
import os
import re
import signal
import sys
from typing import List, NamedTuple, Optional

from liq.command import Stopped, tell
from liq.failed import Failed, Usage
from liq.keeping.keeper import Keeper
from liq.watching.names import shown

USAGE = "usage: liq station [--once | --nights=N] [--quiet] FOLDER"
LOCK = ".station.lock"


def locked(folder: str) -> int:
    """A handle by which no other station is at work in a folder."""
    try:
        handle = os.open(os.path.join(folder, LOCK), os.O_RDWR | os.O_CREAT | os.O_CLOEXEC, 0o666)
        fcntl.flock(handle, fcntl.LOCK_EX | fcntl.LOCK_NB)
        return handle
    except OSError as error:
        if error.errno in (errno.EWOULDBLOCK, errno.EACCES) and os.path.exists(os.path.join(folder, LOCK)):
            raise Failed(f"{shown(folder)}: another liq-station is at work there", 4) from None
        raise Failed(f"{shown(folder)}: {error.strerror}", 3) from None


def say(text: str) -> None:
    """Prints a line on what is wrong."""
    tell(f"station: {text}")


def show(text: str) -> None:
    """Prints a line on what was done. A station goes on where nobody reads it."""
    try:
        print(shown(text), flush=True)
    except OSError:
        os.dup2(os.open(os.devnull, os.O_WRONLY), sys.stdout.fileno())


class Call(NamedTuple):
    """A call: the folder, whether it is done once, for how many nights, and whether only what is found is printed."""
    folder: str
    is_once: bool
    nights: Optional[int]
    is_quiet: bool


def words_of(words: List[str]) -> Call:
    """The call."""
    is_once, is_quiet, nights, rest = False, False, None, []
    for word in words:
        count = re.fullmatch(r"--nights=([1-9][0-9]{0,5})", word)
        if word == "--once":
            is_once = True
        elif word == "--quiet":
            is_quiet = True
        elif count:
            nights = int(count[1])
        elif word.startswith("--"):
            raise Usage(USAGE)
        else:
            rest.append(word)
    if len(rest) != 1 or not rest[0] or is_once and nights:
        raise Usage(USAGE)
    return Call(rest[0], is_once, nights, is_quiet)


def main(words: List[str]) -> int:
    """Keeps a station; the exit status."""
    call = words_of(words)
    if not os.path.isdir(call.folder):
        raise Failed(f"{shown(call.folder)}: is no folder", 3)
    locked(call.folder)
    os.chdir(call.folder)
    keeper = Keeper(say, show, call.is_quiet)
    try:
        if call.is_once:
            return 0 if keeper.once() else 1
        keeper.run(call.nights)
        return 0
    except Stopped as error:
        return 0 if error.args[0] == signal.SIGTERM else 128 + int(error.args[0])
    finally:
        keeper.end()
