"""ffmpeg and ffprobe, called with a limit of time, so that no file holds a run for ever."""
import subprocess
import threading
from typing import List, Optional, Set, Tuple

from liq.failed import Broken

__all__ = ["Broken", "Programs"]

LOOK = 60              # seconds that ffprobe may take for a file
LAUNCHER = ["setpriv", "--pdeathsig", "KILL"]      # ends a program whose caller was killed


class Programs:
    """The programs that run at the same time, so that all end where the run is broken off."""

    def __init__(self, look: float = LOOK):
        self.look, self.lock, self.is_over = look, threading.Lock(), False
        self.running: "Set[subprocess.Popen[str]]" = set()
        self.launcher: Optional[List[str]] = None

    def front(self) -> List[str]:
        """The words before a program: a launcher, where this system has one."""
        if self.launcher is None:
            try:
                done = subprocess.run([*LAUNCHER, "true"], stdin=subprocess.DEVNULL, capture_output=True, check=False)
                self.launcher = LAUNCHER if done.returncode == 0 else []
            except OSError:
                self.launcher = []
        return self.launcher

    def call(self, words: List[str], seconds: float) -> Tuple[str, str, int]:
        """What a program prints and says, with its status. After so many seconds it is ended, and is Broken."""
        front = self.front()
        with self.lock:
            if self.is_over:
                raise Broken("broken off")
            process = subprocess.Popen(front + words, stdin=subprocess.DEVNULL, stdout=subprocess.PIPE,
                                       stderr=subprocess.PIPE, encoding="utf-8", errors="surrogateescape",
                                       start_new_session=True)
            self.running.add(process)
        try:
            printed, said = process.communicate(timeout=seconds)
            return printed, said, process.returncode
        except subprocess.TimeoutExpired:
            process.kill()
            process.communicate()
            raise Broken(f"{words[0]} gives no answer within {seconds:.0f} s") from None
        finally:
            with self.lock:
                self.running.discard(process)

    def end(self) -> None:
        """Ends them, and lets no other begin."""
        with self.lock:
            self.is_over = True
            for process in self.running:
                process.kill()
