"""The stream: the encoder, what sends its bytes, and how much it was given."""
import subprocess
import time
from typing import BinaryIO, List, cast

from liq.airing.deck import BLOCK, SIDES
from liq.airing.failed import Failed
from liq.airing.say import Say
from liq.airing.sender import Sender, Teller
from liq.airing.server import Place
from liq.preparing.programs import Programs

AHEAD = 1.0            # seconds that the encoder gets before they are due
FIRST, LEAST = 5.0, 0.05       # seconds that a decoder may take to give its first piece, and any other one at least
ENCODERS, WITHIN = 5, 60       # so many encoders that end within so many seconds are the end


class Stream:
    """A stream of a rate to a place. Its time is that of the instants that the encoder was given."""

    def __init__(self, place: Place, rate: int, bitrate: int, name: str, programs: Programs, say: Say,
                 drops: bool):
        self.rate, self.bitrate, self.programs, self.say = rate, bitrate, programs, say
        self.ended: List[float] = []                        # when encoders ended
        self.encoder = self.encoding()
        self.sender = Sender(place, self.output(), {"Ice-Name": name, "Ice-Public": "0"}, say, drops)
        self.teller = Teller(self.sender, say)
        self.sender.start()
        self.teller.start()
        self.begin, self.given = time.monotonic(), 0

    def encoding(self) -> "subprocess.Popen[bytes]":
        """Starts an encoder."""
        words = ["ffmpeg", "-v", "error", "-f", "s32le", "-ar", str(self.rate), "-ac", str(SIDES), "-i", "pipe:0",
                 "-c:a", "libmp3lame", "-b:a", f"{self.bitrate}k", "-write_xing", "0", "-id3v2_version", "0",
                 "-flush_packets", "1", "-f", "mp3", "pipe:1"]
        return subprocess.Popen(self.programs.front() + words, stdin=subprocess.PIPE, stdout=subprocess.PIPE, bufsize=0,
                                start_new_session=True)

    def output(self) -> BinaryIO:
        return cast(BinaryIO, self.encoder.stdout)          # there, since it is a pipe

    def due(self) -> float:
        """The second since 1970 at which the next instant is to be heard."""
        return time.time() + self.early()

    def early(self) -> float:
        """How many seconds the encoder is ahead."""
        return self.begin + self.given / self.rate - time.monotonic()

    def patience(self) -> float:
        """How many seconds a piece may take to come before listeners miss it. The first one may take longer."""
        return max(LEAST, self.early() + AHEAD) if self.given else FIRST

    def is_late(self) -> bool:
        """Whether listeners miss a piece that has not come."""
        return self.early() + AHEAD <= 2 * LEAST

    def give(self, data: bytes) -> None:
        """Gives the encoder a piece when it is due. Where it took none for a while, the time counts from now on."""
        left = memoryview(data)
        while left:
            if self.sender.failed:
                raise self.sender.failed
            try:
                left = left[cast(BinaryIO, self.encoder.stdin).write(left):]
            except BrokenPipeError:
                self.encode_anew()
        self.given += len(data) // BLOCK
        early = self.early()
        if early < -AHEAD:
            self.begin -= early
        elif early > AHEAD:
            time.sleep(early - AHEAD)

    def encode_anew(self) -> None:
        """Starts another encoder where one has ended, over the same connection."""
        if self.sender.failed:
            raise self.sender.failed
        now = time.monotonic()
        self.ended = [moment for moment in self.ended if now - moment < WITHIN] + [now]
        if len(self.ended) > ENCODERS or not self.sender.is_alive():
            raise Failed("ffmpeg, which encodes, has ended", 4)
        self.say("ffmpeg, which encodes, has ended; another one goes on")
        self.encoder.kill()
        self.encoder.wait()
        self.encoder = self.encoding()
        self.sender.sources.put(self.output())

    def end(self) -> None:
        """Ends the stream, with what the encoder was given, if a server is joined."""
        is_joined = self.sender.joined.is_set()
        if is_joined:
            time.sleep(max(0.0, self.early()))
        cast(BinaryIO, self.encoder.stdin).close()
        if not is_joined:
            self.encoder.kill()
        self.sender.end()
        self.encoder.kill()
        self.encoder.wait()
