"""The commands that a station calls. What they print goes into a file of a bounded size."""
import os
import subprocess
import sys
import time
from datetime import datetime
from typing import Callable, List, Optional

from liq.reading.programs import TOP
from liq.watching.runs import starter

LOG, MOST = "station.log", 1 << 20             # bytes after which a file is put aside, in place of the one before
LOOK = 0.5             # seconds between looks at a command that runs
PATIENCE = 60          # seconds that `mail` may take
LEAST, LONGEST, GOOD = 5.0, 60.0, 300.0        # seconds between starts of a command that ends, and how long a good one runs


def begun(name: str, words: List[str]) -> "subprocess.Popen[bytes]":
    """A command that was started. It ends where this process is killed."""
    if os.path.exists(LOG) and os.path.getsize(LOG) > MOST:
        os.replace(LOG, LOG + ".old")
    with open(LOG, "ab") as log:
        log.write(f"{datetime.now():%Y-%m-%d %H:%M:%S} {name} {' '.join(words)}\n".encode(errors="surrogateescape"))
        log.flush()
        return subprocess.Popen([sys.executable, "-X", "utf8", os.path.join(TOP, "bin", name), *words], stdin=subprocess.DEVNULL,
                                stdout=log, stderr=log, preexec_fn=starter(True))


def ended(process: "subprocess.Popen[bytes]", meanwhile: Callable[[], None]) -> int:
    """The status of a command at its end. Something is done again and again meanwhile."""
    try:
        while process.poll() is None:
            meanwhile()
            time.sleep(LOOK)
        return process.returncode
    finally:
        stop(process)


def stop(process: "subprocess.Popen[bytes]") -> None:
    """Ends a command, and waits for it."""
    if process.poll() is None:
        process.terminate()
        process.wait()


def why_not_mailed(to: str, subject: str, text: str) -> str:
    """Mails a text by the command `mail`; why that was not possible, or nothing."""
    try:
        done = subprocess.run(["mail", "-s", subject, to], input=text.encode(errors="surrogateescape"), check=False,
                              stdout=subprocess.DEVNULL, stderr=subprocess.DEVNULL, timeout=PATIENCE)
        return f"mail ends with {done.returncode}" if done.returncode else ""
    except subprocess.TimeoutExpired:
        return "mail does not end"
    except OSError as error:
        return f"mail: {error.strerror}"


class Kept:
    """A command that is started again where it ends."""

    def __init__(self, name: str, say: Callable[[str], None]):
        self.name, self.say = name, say
        self.words: List[str] = []
        self.process: "Optional[subprocess.Popen[bytes]]" = None
        self.begin, self.pause, self.told = 0.0, 0.0, 0

    def keep(self, words: List[str]) -> None:
        """Sees to it that it runs with these words; none is that it does not run."""
        now = time.monotonic()
        if words != self.words:
            self.end()
            self.words, self.begin, self.pause = words, -LONGEST, 0.0
        if self.process and self.process.poll() is not None:
            if self.process.returncode != self.told:
                self.say(f"{self.name} ended with {self.process.returncode}; it is begun again (see {LOG})")
            self.told = self.process.returncode
            self.pause = LEAST if now - self.begin > GOOD else min(LONGEST, max(LEAST, 2 * self.pause))
            self.process, self.begin = None, now
        if words and self.process is None and now - self.begin >= self.pause:
            self.process, self.begin = begun(self.name, words), now

    def end(self) -> None:
        """Ends it."""
        if self.process:
            stop(self.process)
        self.process = None
