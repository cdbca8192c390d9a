"""The words of the commands of tools/: help, usage, and how they end."""
import os
import signal
import subprocess
import sys
from typing import Callable, Iterable, List, NoReturn, Optional

REFUSED, USAGE = 1, 2


def usage_of(page: str) -> str:
    """The usage line of a command, which stands at the front of its page."""
    return "usage: " + page.split(": ", 1)[0].replace("\n", " ")


def words_of(page: Optional[str], options: Iterable[str] = (), least: int = 0, most: int = 1 << 20) -> List[str]:
    """The words of the call. --help prints the page. An option that is none of these, and too few or too many other words, end
    the process with 2 and the usage line."""
    words, text = sys.argv[1:], (page or "").strip()
    if words in (["--help"], ["-h"]):
        print(text, flush=True)
        sys.exit(0)
    unknown = [word for word in words if word.startswith("-") and word.partition("=")[0] not in options]
    if unknown or not least <= sum(not word.startswith("-") for word in words) <= most:
        print(usage_of(text), file=sys.stderr)
        sys.exit(USAGE)
    return words


def run(name: str, main: Callable[[], Optional[int]]) -> NoReturn:
    """Ends with the status of a command. What it cannot read, write or call is a line, and the status 1."""
    signal.signal(signal.SIGPIPE, signal.SIG_DFL)
    try:
        status = main() or 0
        sys.stdout.flush()
    except OSError as error:
        print(f"{name}: {error.filename or 'standard output'}: {error.strerror}", file=sys.stderr)
        status = REFUSED
        os.dup2(os.open(os.devnull, os.O_WRONLY), 1)
    except subprocess.CalledProcessError as error:
        print(f"{name}: {error.cmd[0]} ends with {error.returncode}", file=sys.stderr)
        status = REFUSED
    except KeyboardInterrupt:
        status = 128 + signal.SIGINT
    sys.exit(status)
