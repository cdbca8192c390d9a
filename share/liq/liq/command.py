"""One way in and out for every command that is written in Python.

A file of bin/ is thin. It has the help as its docstring, puts share/liq on the path, and ends with `run`:

    run(main, __doc__)

`main` takes the arguments and returns the exit status. It prints on `sys.stdout` and raises `Failed`, and does not care for
anything else.
"""
import errno
import os
import signal
import sys
import traceback
from typing import Callable, Iterator, List, NoReturn, Optional

if sys.version_info < (3, 9):       # before the modules are read that are written for it
    print("liq: install Python 3.9 or later; this one is", sys.version.split()[0], file=sys.stderr)
    sys.exit(127)

from liq.failed import Failed, Usage  # noqa: E402
from liq.watching.names import Terminal, shown  # noqa: E402

Main = Callable[[List[str]], int]
HEARD = (signal.SIGINT, signal.SIGTERM, signal.SIGHUP)
REFUSED, NOT_READ, NOT_WRITTEN, NO_MEMORY, FAULTY = 1, 3, 4, 5, 126
AT_TERMINAL = Terminal()
STREAMS = (("stdin", "r", os.O_WRONLY), ("stdout", "w", os.O_RDONLY), ("stderr", "w", os.O_WRONLY))


class Stopped(KeyboardInterrupt):
    """A signal ends the command. The argument is its number."""


def open_streams() -> None:
    """Opens the standard streams that are closed, so that no file of the command gets their numbers. Reading or writing
    such a stream fails, except that standard error takes everything."""
    for number, (name, form, mode) in enumerate(STREAMS):
        try:
            os.fstat(number)
        except OSError:
            os.set_inheritable(os.open(os.devnull, mode), True)     # it gets this number, the lowest that is free
        if getattr(sys, name) is None:
            setattr(sys, name, open(number, form, encoding="utf-8", errors="surrogateescape", closefd=False))


def begin() -> None:
    """Starts the command again where Python does not read arguments and names of files as UTF-8."""
    open_streams()
    if not sys.flags.utf8_mode and sys.executable:
        os.execv(sys.executable, [sys.executable, "-X", "utf8", *sys.argv])


def stop(number: int, _: object) -> None:
    """Ends the command by the first signal. Later ones do not disturb the end."""
    hear(signal.SIG_IGN)
    raise Stopped(number)


def hear(handler: object) -> None:
    """Sets the handler of the signals that end a command. What is ignored from the start stays so, as under nohup."""
    for number in HEARD:
        if signal.getsignal(number) != signal.SIG_IGN:
            signal.signal(number, handler)      # type: ignore[arg-type]


def tell(text: str) -> None:
    """Writes a line on standard error, if anybody reads it. What drives a terminal stands in it as numbers."""
    try:
        print(shown(text), file=sys.stderr, flush=True)
    except OSError:
        os.dup2(os.open(os.devnull, os.O_WRONLY), 2)


def not_written(name: str, error: OSError) -> int:
    """Says that a file or standard output cannot be written. A reader that has gone away is told nothing."""
    if error.errno != errno.EPIPE or error.filename is not None:
        place = "standard output" if error.filename is None else error.filename
        tell(f"{name}: {place}: {error.strerror or error}")
    return NOT_WRITTEN


def fault(name: str, error: Exception) -> int:
    """Says in a line that the command itself is at fault, and where."""
    frame = traceback.extract_tb(error.__traceback__)[-1]
    what = " ".join(f"{type(error).__name__}: {error}".split())
    place = f"{os.path.basename(frame.filename)}:{frame.lineno}"
    tell(f"{name}: a fault of this command, at {place}: {what}; please report it")
    return FAULTY


def input_lines() -> Iterator[str]:
    """The lines of standard input, each with its end, as they come. Where it cannot be read the status is 3."""
    try:
        with open(0, encoding="utf-8", errors="surrogateescape", newline="\n", closefd=False) as source:
            yield from source
    except OSError as error:
        raise Failed(f"standard input: {error.strerror}", NOT_READ) from None


def write_line(line: str) -> None:
    """Writes a line with its end on standard output, at once. At a terminal what drives one stands in it as numbers;
    into a pipe or a file it goes as it is."""
    sys.stdout.write(AT_TERMINAL.line(line) if sys.stdout.isatty() else line)
    sys.stdout.flush()


def version_of(name: str) -> str:
    """The line of --version."""
    from liq.version import version         # at each other call it is not needed
    return f"{name} {version()}".rstrip()


def called(main: Main, page: str, name: str) -> int:
    """The exit status of the command, whatever ends it."""
    words = sys.argv[1:]
    try:
        if words in (["--help"], ["-h"]):
            print(page.strip())
            return 0
        if words == ["--version"]:
            print(version_of(os.path.basename(sys.argv[0])))
            return 0
        return main(words)
    except Usage as usage:
        tell(str(usage))
        return usage.status
    except Failed as failed:
        tell(f"{name}: {failed}")
        return failed.status
    except KeyboardInterrupt as broken:
        return 128 + int(broken.args[0] if broken.args else signal.SIGINT)
    except OSError as error:
        return not_written(name, error)
    except MemoryError:
        tell(f"{name}: out of memory")
        return NO_MEMORY
    except Exception as error:              # pylint: disable=broad-except
        return fault(name, error)


def end(status: int, name: str) -> NoReturn:
    """Ends the process. If standard output does not take what is left, the status 0 or 1 becomes 4."""
    hear(signal.SIG_IGN)
    try:
        if not sys.stdout.closed:
            sys.stdout.flush()
    except OSError as error:
        status = not_written(name, error) if status in (0, REFUSED) else status
    os._exit(status)


def run(main: Main, page: Optional[str], name: str = "") -> NoReturn:
    """Runs a command with the words of the call, and ends the process with its exit status.

    `page` is what --help prints. `name` stands before each line on standard error, and is that of the file if it is empty.
    INT, TERM and HUP raise `Stopped`, and the status is then 128 and the number of the signal. A `Failed` becomes a line
    and its status, and an OSError a line and 4. Out of memory is 5. Nothing ends in a traceback."""
    begin()
    hear(stop)
    name = name or os.path.basename(sys.argv[0])
    end(called(main, page or "", name), name)
