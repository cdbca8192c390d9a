"""What takes the encoded bytes to the server, and joins it again where it went; and what tells the titles."""
import os
import queue
import threading
import time
from typing import BinaryIO, Callable, Dict, Optional

from liq.airing.failed import Failed
from liq.airing.server import Lost, Place, Stream, tell

PAUSES = (1, 2, 5)     # seconds between tries, the last one again and again
PIECE = 4096
FLUSH = 3              # seconds that what is left may take at the end
LATE = 2               # seconds behind which bytes that were not sent are late
LINGER = 1             # seconds in which the server gives its listeners the last bytes


class Sender(threading.Thread):
    """Sends what an encoder writes, and what another one writes when that has ended. The bytes that a server which went
    away has not taken go to the next one. With `drops` they do not where it was away for long, since they are late."""

    def __init__(self, place: Place, source: BinaryIO, told: Dict[str, str], say: Callable[[str], None], drops: bool = False):
        super().__init__(daemon=True)
        self.place, self.told, self.say, self.drops = place, told, say, drops
        self.sources: "queue.Queue[Optional[BinaryIO]]" = queue.Queue()
        self.source = source
        self.stream: Optional[Stream] = None
        self.joined, self.stopped = threading.Event(), threading.Event()
        self.joins = 0
        self.failed: Optional[Failed] = None

    def join_server(self) -> None:
        """Joins the server, and tries again until it does, or until it is to stop."""
        tries, before = 0, ""
        while not self.stopped.is_set():
            try:
                self.stream = Stream(self.place, self.told)
                self.joins += 1
                self.say(f"on the air at {self.place.host}:{self.place.port}{self.place.mount}" + " again" * (self.joins > 1))
                self.joined.set()
                return
            except Lost as why:
                if str(why) != before:
                    self.say(f"{self.place.host}:{self.place.port}: {why}; tried again and again")
                before = str(why)
            self.stopped.wait(PAUSES[min(tries, len(PAUSES) - 1)])
            tries += 1

    def run(self) -> None:
        """Sends until the last encoder ends."""
        try:
            self.join_server()
            source: Optional[BinaryIO] = self.source
            while source:
                self.source = source
                while data := self.source.read(PIECE):
                    self.send(memoryview(data))
                self.source.close()
                source = self.sources.get()
            self.stopped.wait(LINGER)
        except Failed as error:
            self.failed = error
        except (OSError, ValueError) as error:              # the encoder was ended
            if not self.stopped.is_set():
                self.failed = Failed(f"the stream breaks off: {error}", 4)
        finally:
            self.joined.clear()
            if self.stream:
                self.stream.close()
            self.source.close()                             # so that the encoder ends, and nobody waits for it

    def send(self, data: memoryview) -> None:
        """Sends these bytes, by another connection where one is lost."""
        while data and self.stream:
            try:
                data = data[self.stream.send(data):]
            except Lost as why:
                self.joined.clear()
                self.stream.close()
                self.stream, begin = None, time.monotonic()
                if self.stopped.is_set():
                    return
                self.say(f"the server went away: {why}")
                self.join_server()
                if self.drops and time.monotonic() - begin > LATE:
                    self.drain()
                    return

    def drain(self) -> None:
        """Drops what the encoder has written so far."""
        handle = self.source.fileno()
        os.set_blocking(handle, False)
        try:
            while os.read(handle, 1 << 16):
                pass
        except BlockingIOError:
            pass
        finally:
            os.set_blocking(handle, True)

    def end(self) -> None:
        """Lets what is left be sent, for a moment, if a server is joined."""
        self.sources.put(None)
        if not self.joined.is_set():
            self.stopped.set()
        self.join(FLUSH)
        self.stopped.set()
        self.join(FLUSH)


class Teller(threading.Thread):
    """Tells the server each title in its turn, and the last one again where it was joined anew."""

    def __init__(self, sender: Sender, say: Callable[[str], None]):
        super().__init__(daemon=True)
        self.sender, self.say, self.is_bad = sender, say, False
        self.titles: "queue.Queue[str]" = queue.Queue()

    def add(self, title: str) -> None:
        """Has a title told as soon as may be."""
        self.titles.put(title)

    def run(self) -> None:
        """Tells titles as long as there is a sender."""
        last, joins = "", 0
        while self.sender.is_alive():
            try:
                last = self.titles.get(timeout=0.2)
            except queue.Empty:
                if not last or joins == self.sender.joins:
                    continue
            while not self.sender.joined.wait(0.2):
                if not self.sender.is_alive():
                    return
            joins = self.sender.joins
            self.told(last)

    def told(self, title: str) -> None:
        """Tells a title; a server that has not got the mount yet is asked once more."""
        why = tell(self.sender.place, title)
        if why:
            time.sleep(0.5)
            why = tell(self.sender.place, title)
        if why and not self.is_bad:
            self.say(f"the server takes no title: {why}")
        self.is_bad = bool(why)
