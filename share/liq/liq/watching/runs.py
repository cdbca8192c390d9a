"""A run of the program that is watched."""
import os
import selectors
import signal
import subprocess
import sys
from typing import Any, Callable, Dict, Optional, Sequence

from liq.watching.progress import Seen, Writing

PAUSE = 0.2            # seconds between two looks
ENDING = (signal.SIGINT, signal.SIGTERM, signal.SIGHUP)
SET_END = 1            # PR_SET_PDEATHSIG of prctl(2)


def starter(ends_with_us: bool) -> Callable[[], object]:
    """What a child does before it becomes the program: a broken pipe ends it and, where that is wanted, so does the end
    of this process, also by a signal that it cannot hear."""
    if not ends_with_us:
        return lambda: signal.signal(signal.SIGPIPE, signal.SIG_DFL)
    import ctypes
    prctl, parent = ctypes.CDLL(None).prctl, os.getpid()

    def start() -> None:
        signal.signal(signal.SIGPIPE, signal.SIG_DFL)
        prctl(SET_END, int(signal.SIGKILL), 0, 0, 0)
        if os.getppid() != parent:         # it has ended already
            os.kill(os.getpid(), signal.SIGKILL)
    return start


class Run:
    """A run: what it prints and says, and how it ended. Signals that end this process end the program, and are noted; one
    that this process was told to ignore, as by nohup, stays ignored in both."""

    def __init__(self, words: Sequence[str], takes_output: bool, seen: Callable[[Optional[Seen]], None] = lambda seen: None,
                 clear: Callable[[], None] = lambda: None, ends_with_us: bool = False, **more: Any):
        self.said, self.printed = b"", b""
        self.stopped: Optional[int] = None
        self.child: "Optional[subprocess.Popen[bytes]]" = None
        heard = [number for number in ENDING if signal.getsignal(number) != signal.SIG_IGN]
        old: Dict[int, Any] = {number: signal.signal(number, self.stop) for number in heard}
        try:
            self.child = subprocess.Popen(words, stdin=None, stdout=subprocess.PIPE if takes_output else None,
                                          stderr=subprocess.PIPE, restore_signals=False,
                                          preexec_fn=starter(ends_with_us), **more)
            if self.stopped:       # it came before there was a program to send it to
                self.child.send_signal(self.stopped)
            self.writing = Writing(self.child.pid)
            self.watch(self.child, takes_output, seen)
            self.status = self.child.wait()
            clear()
            if self.status < 0:
                self.writing.clear()
        finally:
            for number, handler in old.items():
                signal.signal(number, handler)

    def stop(self, number: int, _: object) -> None:
        """Passes a signal on."""
        self.stopped = number
        if self.child:
            self.child.send_signal(number)

    def watch(self, child: "subprocess.Popen[bytes]", takes_output: bool, seen: Callable[[Optional[Seen]], None]) -> None:
        """Reads what the program says until it ends, and looks at its files meanwhile."""
        with selectors.DefaultSelector() as streams:
            streams.register(child.stderr or 2, selectors.EVENT_READ, "said")
            if takes_output:
                streams.register(child.stdout or 1, selectors.EVENT_READ, "printed")
            while streams.get_map():
                for key, _ in streams.select(PAUSE):
                    data = os.read(key.fd, 1 << 16)
                    if data:
                        setattr(self, key.data, getattr(self, key.data) + data)
                    else:
                        streams.unregister(key.fileobj)
                seen(self.writing.look())


def signal_of(status: int) -> int:
    """The status with which a shell ends for a status of a process."""
    return status if status >= 0 else 128 - status


def write_out(data: bytes) -> bool:
    """Writes bytes on standard output; whether that was possible."""
    try:
        sys.stdout.buffer.write(data)
        sys.stdout.buffer.flush()
        return True
    except OSError:
        return False
