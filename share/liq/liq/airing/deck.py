"""A file that is decoded to samples of a rate, from a place on."""
import contextlib
import os
import select
import subprocess
from typing import IO, List, Optional, cast

from liq.preparing.programs import Programs

SIDES, WIDTH = 2, 4    # of the samples that go to the encoder
BLOCK = SIDES * WIDTH  # bytes of an instant
PATIENCE = 2           # seconds in which a decoder ends that has written all


class Deck:
    """A decoder. The file is opened once, so that it stays the same when another one gets its name."""

    def __init__(self, handle: int, rate: int, programs: Programs, at: float = 0.0, again: bool = False):
        name = f"/dev/fd/{handle}"
        words = ["ffmpeg", "-nostdin", "-v", "error", *(["-stream_loop", "-1"] if again else []),
                 *(["-ss", f"{at:.6f}"] if at else []), "-i", f"file:{name}", "-map", "0:a:0", "-f", "s32le",
                 "-ar", str(rate), "-ac", str(SIDES), "pipe:1"]
        self.process = subprocess.Popen(programs.front() + words, stdin=subprocess.DEVNULL, stdout=subprocess.PIPE,
                                        stderr=subprocess.DEVNULL, start_new_session=True, pass_fds=[handle])
        self.samples = cast(IO[bytes], self.process.stdout)       # there, since it is a pipe
        self.pieces: List[bytes] = []
        self.length = 0                                           # bytes of these

    def read(self, frames: int, seconds: float) -> Optional[bytes]:
        """The next piece of so many instants, shorter at the end, and nothing behind it; None where it has not come within
        so many seconds."""
        wanted = frames * BLOCK
        while self.length < wanted:
            if not select.select([self.samples], [], [], max(0.0, seconds))[0]:
                return None
            data = os.read(self.samples.fileno(), wanted - self.length)
            if not data:
                break
            self.pieces.append(data)
            self.length += len(data)
        data = b"".join(self.pieces)
        self.pieces, self.length = [], 0
        return data[:len(data) // BLOCK * BLOCK]

    def end(self, is_over: bool = False) -> int:
        """Ends the decoder, and answers its status. One that is over may end by itself."""
        self.samples.close()
        if is_over:
            with contextlib.suppress(subprocess.TimeoutExpired):
                self.process.wait(PATIENCE)
        if self.process.poll() is None:
            self.process.kill()
        return self.process.wait()
