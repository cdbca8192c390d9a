"""Plays what is due, piece by piece, and something else where nothing is."""
import os
import time
from datetime import datetime
from typing import List, NamedTuple, Optional, Tuple

from liq.airing.deck import BLOCK, Deck
from liq.airing.log import Log
from liq.airing.played import Played
from liq.airing.programme import NEAR, Due, Programme
from liq.airing.say import Say
from liq.airing.stream import Stream
from liq.airing.tracks import Track, Tracks
from liq.preparing.programs import Programs

PIECE = 0.1            # seconds of a piece
NOTE = 5.0             # seconds between notes of the place
LOOK = 1.0             # seconds between looks for renderings
SLACK = 0.5            # seconds by which one rendering may follow another early or late
OFF = 1.0              # seconds from the clock at which a rendering goes on where the clock is
SKIP = 60.0            # seconds up to which what is late is dropped, since a new decoder takes longer
LATE = 20.0            # seconds after which a decoder that gives nothing is ended
TRIES, GOOD = 5, 10.0  # decoders of a rendering that give less than so many seconds
RETRY = 10.0           # seconds between tries to play something meanwhile


class Options(NamedTuple):
    """What a call says of the stream."""
    name: str
    meanwhile: str
    has_clock: bool


class Player:
    """Plays a programme on a stream."""

    def __init__(self, stream: Stream, programme: Programme, played: Played, log: Log, tracks: Tracks, options: Options,
                 say: Say):
        self.stream, self.programme, self.played, self.log = stream, programme, played, log
        self.tracks, self.options, self.say, self.programs = tracks, options, say, Programs()
        self.looked, self.noted = 0.0, time.monotonic()
        self.tried = -RETRY                    # when it was last tried in vain to play something meanwhile
        self.shown = ""
        self.track: Optional[Track] = None     # the track that is on the air

    def run(self) -> None:
        """Plays until the programme is over."""
        slack = NEAR
        while True:
            self.look(True)
            due = self.programme.due(self.stream.due(), slack)
            slack = NEAR
            if due:
                self.play(due)
                slack = SLACK
            elif self.programme.is_over(self.stream.due()):
                return
            else:
                self.wait()

    def look(self, is_now: bool = False) -> None:
        """Looks what is there, now and then; and notes what is on the air."""
        now = time.monotonic()
        if is_now or now - self.looked >= LOOK:
            self.looked = now
            self.programme.look()
        if now - self.noted >= NOTE:
            self.note()

    def note(self) -> None:
        """Notes what is on the air."""
        self.noted = time.monotonic()
        self.played.more = {"time": datetime.now().astimezone().isoformat(timespec="seconds"), "title": self.shown,
                            **self.log.state()}
        self.played.write()

    def show(self, title: str) -> None:
        """Has the server told a title."""
        self.shown = title
        self.stream.teller.add(title)

    def give(self, data: bytes) -> None:
        """Puts a piece on the air."""
        self.stream.give(data)
        self.log.seconds += len(data) / BLOCK / self.stream.rate

    def place(self, due: Due) -> float:
        """The second of a rendering at which it is to be heard now."""
        if due.begin is None:
            return 0.0 if due.is_repeated else self.played.place(due.rendering.key)
        off = self.stream.due() - due.begin
        return off if off > SLACK else 0.0

    def play(self, due: Due) -> None:
        """Plays a rendering to its end, or until another one is due."""
        name = due.rendering.name
        at, tries = self.place(due), 0
        self.say((f"{name} again" if due.is_repeated else name) + (f" from {at:.0f} s on" if at else ""))
        try:
            handle = os.open(name, os.O_RDONLY)
        except OSError as error:
            self.say(f"{name}: {error.strerror}")
            self.programme.give_up(due, self.stream.due())
            return
        self.track = None
        try:
            tracks = self.tracks.of(due.rendering)
            while True:
                begin = at
                at, why = self.play_from(due, handle, at, tracks)
                tries = 1 if at - begin > GOOD else tries + 1
                if why == "switch":
                    return
                if why == "end":
                    break
                if why == "clock":
                    at, tries = self.place(due), 0
                    if at >= due.rendering.seconds:
                        return
                    self.say(f"{name} from {at:.0f} s on, where the clock is")
                    continue
                if tries >= TRIES:
                    self.say(f"{name}: ffmpeg cannot read it to its end")
                    self.programme.give_up(due, self.stream.due())
                    return
                self.say(f"{name}: {why}; again from {at:.0f} s on")
        finally:
            os.close(handle)
            self.log.end()
            self.note()
        self.programme.take(due)

    def play_from(self, due: Due, handle: int, at: float, tracks: List[Track]) -> Tuple[float, str]:
        """Plays a rendering from a second on: where it stopped, and why."""
        rate, deck = self.stream.rate, Deck(handle, self.stream.rate, self.programs, at)
        is_over, given = False, time.monotonic()
        left = [pair for pair in tracks if pair[0] <= at + NEAR][-1:] + [pair for pair in tracks if pair[0] > at + NEAR]
        try:
            while True:
                frames = self.piece(due, at)
                if not frames:
                    return at, "switch"
                data = deck.read(frames, self.stream.patience())
                if data is None:                            # it has not come in time
                    if time.monotonic() - given > LATE:
                        return at, "ffmpeg gives nothing"
                    if self.stream.is_late():
                        self.stream.give(bytes(int(PIECE * rate) * BLOCK))
                    continue
                if not data:
                    is_over = True
                    break
                given, off = time.monotonic(), self.off(due, at)
                if off > OFF and off <= SKIP:               # it came late: it is dropped, up to where the clock is
                    at += len(data) / BLOCK / rate + self.drop(deck, off - PIECE)
                    self.say(f"{due.rendering.name} from {at:.0f} s on, where the clock is")
                    continue
                while left and left[0][0] <= at + NEAR:
                    self.begin_track(left.pop(0), self.stream.due())
                self.give(data)
                at += len(data) / BLOCK / rate
                self.played.now, self.played.at = (due.rendering.key, at) if due.rendering.start is None else (None, 0.0)
                self.look()
                if abs(self.off(due, at)) > OFF and not 0 < self.off(due, at) <= SKIP:
                    return at, "clock"
        finally:
            status = deck.end(is_over)
        return at, f"ffmpeg ends with {status}" if status else "end"

    def off(self, due: Due, at: float) -> float:
        """How many seconds a place of a rendering is late by the clock."""
        return 0.0 if due.begin is None else self.stream.due() - due.begin - at

    def drop(self, deck: Deck, seconds: float) -> float:
        """Reads so many seconds of a decoder that nobody hears; how many there were."""
        rate, wanted = self.stream.rate, max(0, round(seconds * self.stream.rate))
        left = wanted
        while left:
            data = deck.read(min(left, rate), LATE)
            if not data:
                break
            left -= min(left, len(data) // BLOCK)
        return (wanted - left) / rate

    def begin_track(self, track: Track, moment: float) -> None:
        """A track begins: its title goes to the server, and into the log. One without a name has the name of the stream. One
        that is on the air already, as where its decoder was begun anew, goes on."""
        if track == self.track:
            return
        self.track, name = track, track[1]
        if name is None:
            self.log.end()
            self.show(self.options.name)
            return
        self.log.begin(moment, name, self.tracks.told_of(name))
        self.show(self.tracks.label_of(name))

    def piece(self, due: Optional[Due] = None, at: float = 0.0) -> int:
        """How many instants the next piece has: fewer before another rendering begins, and none where another one is due.
        The last moments of one that is played are played in any case."""
        now, rate = self.stream.due(), self.stream.rate
        other = self.programme.due(now)
        is_ending = due is not None and 0 < due.rendering.seconds - at <= SLACK
        if other and (due is None or self.is_better(other, due) and not is_ending):
            return 0
        start = self.programme.next_start(now)
        seconds = min(PIECE, start - now) if start is not None else PIECE
        return max(1, round(seconds * rate))

    def is_better(self, other: Due, due: Due) -> bool:
        """Whether what is due is to be heard in place of what is played."""
        if other.is_repeated or other.rendering.key == due.rendering.key:
            return False
        if due.is_repeated:
            return True
        return other.rendering.start is not None and (due.rendering.start is None or other.rendering.start > due.rendering.start)

    def wait(self) -> None:
        """Plays something else until a rendering is due."""
        self.say("waiting for " + " or ".join(self.programme.waited(self.stream.due())))
        name, handle, deck = self.options.meanwhile, None, None
        self.show(self.tracks.title_of_file(name) if name else self.options.name)
        try:
            while not self.programme.is_over(self.stream.due()):
                frames = self.piece()
                if not frames:
                    return
                if name and deck is None and time.monotonic() - self.tried > RETRY:
                    handle, deck = self.opened(name)
                data = deck.read(frames, self.stream.patience()) if deck else b""
                if deck and data == b"":
                    self.say.once(f"{name}: ffmpeg cannot read it")
                    self.tried = time.monotonic()
                    handle, deck = self.closed(handle, deck)
                self.give(data or bytes(frames * BLOCK))
                self.look()
        finally:
            self.closed(handle, deck)
            self.log.end()

    def opened(self, name: str) -> Tuple[Optional[int], Optional[Deck]]:
        """A decoder of the file that is played meanwhile, and its handle; nothing where it cannot be read, which is told."""
        try:
            handle = os.open(name, os.O_RDONLY)
        except OSError as error:
            self.say.once(f"{name}: {error.strerror}; there is silence meanwhile")
            self.tried = time.monotonic()
            return None, None
        self.log.begin(self.stream.due(), name, self.tracks.told_of(name))
        return handle, Deck(handle, self.stream.rate, self.programs, again=True)

    def closed(self, handle: Optional[int], deck: Optional[Deck]) -> Tuple[None, None]:
        """Ends a decoder."""
        if deck:
            deck.end()
        if handle is not None:
            os.close(handle)
        return None, None
