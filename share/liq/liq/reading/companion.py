"""Calls of the companion program: one process each, with a limit of time, and one line where it has no answer."""
import collections
import contextlib
import json
import os
import signal
import stat
import subprocess
import tempfile
import threading
from typing import IO, Any, Callable, Iterator, Optional, TypeVar, Union

from liq.failed import Failed
from liq.reading import patience
from liq.reading.facts import Facts, Refused, Shared, Tokens, read_facts, read_tokens
from liq.reading.programs import COMPANION, NotBuilt, program_of
from liq.watching.names import shown

SECONDS = 600
NO_PLAN = 1
STDIN, TEXT = "/dev/stdin", "a text"
WORDS = {2: "its name is no UTF-8", 3: "cannot be read", 4: "what is told of it cannot be passed on", 5: "memory is refused"}
Told = TypeVar("Told")
KEPT, MOST_KEPT = 16, 1 << 21      # answers that are remembered, and bytes of a script or an answer that is


class NoAnswer(Failed):
    """There is no answer: a line that says why, and the exit status for it, 2 to 5, or 126 and 127 as of a program that
    is not built."""


class NoPlan(NoAnswer):
    """The script has no plan, so nothing is told of it. `liq check` says why."""


class Answers:
    """What a companion printed of texts, as far as it is remembered: the last that were asked for. Threads may share it."""

    def __init__(self) -> None:
        self.lock = threading.Lock()
        self.kept: "collections.OrderedDict[tuple[str, bytes], bytes]" = collections.OrderedDict()

    def find(self, verb: str, text: bytes) -> Optional[bytes]:
        """What the verb printed of a text, if it is remembered."""
        with self.lock:
            if (verb, text) in self.kept:
                self.kept.move_to_end((verb, text))
            return self.kept.get((verb, text))

    def keep(self, verb: str, text: bytes, printed: bytes) -> None:
        """Remembers what the verb printed of a text, if both are short."""
        if len(text) + len(printed) <= MOST_KEPT:
            with self.lock:
                self.kept[verb, text] = printed
                if len(self.kept) > KEPT:
                    self.kept.popitem(last=False)


ANSWERS: "dict[str, Answers]" = {}      # those of the companion at each path


class Companion:
    """The companion program at a path, and for how many seconds a call of it may run. Where none are given, a call may take as
    long as it makes progress. What it answered of the text of a script alone is remembered, for all calls of this process. What
    it says of files is asked anew each time."""

    def __init__(self, path: str, seconds: Optional[float] = None):
        self.path, self.seconds = path, seconds
        self.limit: "dict[Optional[int], Union[Facts, Refused]]" = {}
        self.answers = ANSWERS.setdefault(path, Answers())

    def files(self, file: str, folder: Optional[str] = None) -> Union[Facts, Refused]:
        """What a script sets and plays, and what becomes of each file that it names. Names count from `folder`, or
        from the folder in which this process is."""
        try:
            return read(read_facts, self.call("files", file, folder=folder), file, Shared())
        except NoPlan:
            return Refused()

    def files_of(self, script: bytes, folder: Optional[str] = None) -> Union[Facts, Refused]:
        """The same of a script that is a text."""
        try:
            return read(read_facts, self.call("files", STDIN, given=script, folder=folder), TEXT, Shared())
        except NoPlan:
            return Refused()

    def plan_of(self, script: bytes) -> Union[Facts, Refused]:
        """The same in an empty folder: what a text sets and plays, without a look at its files, which may take long. Those
        that it names by a whole path are looked at."""
        with empty_folder() as folder:
            return self.files_of(script, folder)

    def limits(self, rate: Optional[int] = None) -> Union[Facts, Refused]:
        """The limits of liq, as the facts of a script of this rate that plays nothing tell them. `Refused` is a rate that
        no script may have."""
        if rate not in self.limit:
            setting = b"" if rate is None else b'set("frame.audio.samplerate", %d)\n' % rate
            self.limit[rate] = self.plan_of(setting + b'output.file(%wav, "o", blank())')
        return self.limit[rate]

    def script_most(self) -> int:
        """How many bytes a script may have."""
        limits = self.limits()
        return limits.script_most if isinstance(limits, Facts) else 0

    def tokens(self, file: str) -> Tokens:
        """The tokens of a script, whether or not it has a plan."""
        return read(read_tokens, self.remembered("tokens", file), file)

    def tokens_of(self, script: bytes) -> Tokens:
        """The tokens of a text."""
        return read(read_tokens, self.remembered("tokens", STDIN, script), TEXT)

    def week(self, file: str) -> bytes:
        """The lines on the week of the switches of a script."""
        return self.remembered("week", file)

    def picture(self, file: str) -> bytes:
        """The picture of a script, as a text for graphviz."""
        return self.call("picture", file)

    def where(self, file: str, said: str) -> str:
        """These lines, and after each that names a place of the script the place."""
        return self.call("where", file, given=said.encode("utf-8", "surrogateescape")).decode("utf-8", "surrogateescape")

    def remembered(self, verb: str, file: str, given: Optional[bytes] = None) -> bytes:
        """What the companion prints of a file, or of a text that is given. It is asked once for each text."""
        text = text_of(file) if given is None else given
        known = None if text is None else self.answers.find(verb, text)
        if known is not None:
            return known
        printed = self.call(verb, file, given or b"")
        if text is not None and text in (given, text_of(file)):
            self.answers.keep(verb, text, printed)
        return printed

    def call(self, verb: str, file: str, given: bytes = b"", folder: Optional[str] = None,
             out: Optional[IO[bytes]] = None) -> bytes:
        """What the companion prints; nothing where it is to print into a file, since that may be much. Any status but 0 is
        `NoAnswer`, and 1 is `NoPlan`."""
        if file == STDIN and not os.path.exists(STDIN):     # as where there is no /proc
            with temporary_folder("liq-text-") as place:
                path = os.path.join(place, "text")
                with open(path, "wb") as opened:
                    opened.write(given)
                return self.call(verb, path, folder=folder, out=out)
        try:
            done = patience.run([self.path, verb, file], self.seconds or SECONDS, given, out or subprocess.PIPE, folder,
                                is_patient=self.seconds is None)
        except subprocess.TimeoutExpired as error:
            raise NoAnswer(f"{shown(file)}: no answer of the companion within {error.timeout:g} seconds", 5) from None
        except ValueError:
            raise NoAnswer(f"{shown(file)}: a NUL in its name, which no file can have", 3) from None
        except OSError as error:
            raise NoAnswer(f"{shown(self.path)}: {error.strerror}", 126) from None
        if done.returncode == NO_PLAN:
            raise NoPlan(f"{shown(file)}: refused by liq", NO_PLAN)
        if done.returncode:
            raise NoAnswer(f"{shown(file)}: {words_of(done.returncode)}", done.returncode if done.returncode in WORDS else 5)
        return done.stdout or b""


def text_of(file: str) -> Optional[bytes]:
    """The bytes of a script; nothing where it is no regular file, is too long to be remembered, or cannot be read."""
    try:
        if not stat.S_ISREG(os.stat(file).st_mode):
            return None
        with open(file, "rb") as opened:
            text = opened.read(MOST_KEPT + 1)
        return text if len(text) <= MOST_KEPT else None
    except (OSError, ValueError):
        return None


@contextlib.contextmanager
def empty_folder() -> Iterator[str]:
    """A folder in which nothing lies. Where the system has a name for open files, it has no other one while it is used, so that
    no kill leaves it."""
    try:
        name = tempfile.mkdtemp(prefix="liq-plan-")
        handle = os.open(name, os.O_RDONLY | os.O_DIRECTORY)
    except OSError as error:
        raise NoAnswer(f"a temporary folder: {error.strerror or error}", 4) from None
    place = f"/proc/self/fd/{handle}"
    has_place = os.path.isdir(place)
    try:
        if has_place:
            os.rmdir(name)
        yield place if has_place else name
    finally:
        os.close(handle)
        if not has_place:
            os.rmdir(name)


@contextlib.contextmanager
def temporary_folder(front: str) -> Iterator[str]:
    """A folder that is there for a while; `NoAnswer` where none can be made or written."""
    try:
        with tempfile.TemporaryDirectory(prefix=front) as folder:
            yield folder
    except OSError as error:
        raise NoAnswer(f"a temporary folder: {error.strerror or error}", 4) from None


def words_of(status: int) -> str:
    """Why there is no answer, by the status of the companion."""
    if status < 0:
        return f"the companion was ended by the signal {signal.Signals(-status).name}"
    return WORDS.get(status, f"the companion ends with status {status}")


def read(reader: "Callable[[dict[str, Any]], Told]", data: bytes, file: str, shared: Optional[Shared] = None) -> Told:
    """What a reader makes of JSON, of which `shared` reads the windows."""
    try:
        return reader(json.loads(data, object_hook=shared))
    except (ValueError, KeyError, TypeError) as error:
        raise NoAnswer(f"{shown(file)}: the companion is of another version: {error!r}", 126) from None


def companion_of(given: Optional[str] = None, seconds: Optional[float] = None, may_build: bool = True) -> Companion:
    """The companion beside a built program that is named, or else the one that is installed or of the checkout."""
    try:
        path = program_of(COMPANION, given, may_build)
    except NotBuilt as error:
        raise NoAnswer(str(error), error.status) from None
    return Companion(path, seconds)
