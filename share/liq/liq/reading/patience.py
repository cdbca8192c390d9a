"""Calls of a program that may take as long as it makes progress: the limit of time is one for standing still."""
import subprocess
import time
from typing import IO, Optional, Sequence, Union

LOOK = 5.0             # seconds between looks at how far a program has come


def run(words: Sequence[str], seconds: float, given: bytes = b"", out: Union[int, IO[bytes]] = subprocess.PIPE,
        folder: Optional[str] = None, is_patient: bool = True) -> "subprocess.CompletedProcess[bytes]":
    """How a program ended. TimeoutExpired where it has neither read, written nor computed anything for so many seconds. Where
    the system does not tell that, and without patience, it is so where it has not ended within them."""
    with subprocess.Popen(words, stdin=subprocess.PIPE, stdout=out, stderr=subprocess.PIPE, cwd=folder) as process:
        try:
            printed, said = ended(process, seconds, given) if is_patient else process.communicate(given, timeout=seconds)
        except BaseException:
            process.kill()
            raise
    return subprocess.CompletedProcess(words, process.returncode, printed, said)


def ended(process: "subprocess.Popen[bytes]", seconds: float, given: bytes) -> "tuple[bytes, bytes]":
    """What a program prints and says up to its end."""
    left: Optional[bytes] = given
    moved, before = time.monotonic(), progress(process.pid)
    while True:
        try:
            return process.communicate(left, timeout=min(LOOK, seconds))
        except subprocess.TimeoutExpired:
            left, now = None, progress(process.pid)
            if now != before:
                moved, before = time.monotonic(), now
            elif time.monotonic() - moved >= seconds:
                raise subprocess.TimeoutExpired(process.args, seconds) from None


def progress(number: int) -> "Optional[tuple[bytes, ...]]":
    """What tells that a process has come on: what it has read and written, and for how long it has computed. Nothing where
    the system does not tell it."""
    try:
        with open(f"/proc/{number}/io", "rb") as file:
            moved = file.read()
        with open(f"/proc/{number}/stat", "rb") as file:
            return moved, *file.read().rpartition(b")")[2].split()[11:13]
    except OSError:
        return None
