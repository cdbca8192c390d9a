"""What bin/liq-air does."""
import shutil
import signal
from typing import List

from liq.airing import words
from liq.airing.failed import Failed
from liq.airing.log import Log
from liq.airing.played import Played
from liq.airing.player import Options, Player
from liq.airing.programme import Programme
from liq.airing.renderings import Renderings, files_of
from liq.airing.say import Say
from liq.airing.server import place_of
from liq.airing.stream import Stream
from liq.airing.tracks import Tracks
from liq.command import Stopped
from liq.failed import Usage
from liq.pages.sounds import sounds_of
from liq.preparing.programs import Programs
from liq.reading.companion import Companion, companion_of

RATE = 44100           # samples a second where no rendering tells another rate


def rate_of(names: List[str], companion: Companion) -> int:
    """The samples a second of the first rendering that is there."""
    files = [file for name in names for file in files_of(name)]
    found = sounds_of(companion, files)
    return next((found[file].rate for file in files if file in found), RATE)


def play(call: words.Call, say: Say) -> None:
    """Plays all of a call."""
    place, companion, programs = place_of(call.address, call.password()), companion_of(), Programs()
    played, log = Played(call.state, say), Log(call.log, say)
    log.resume(played.before)
    renderings = Renderings(call.names, companion, programs, not call.is_free, say)
    programme = Programme(renderings, call.stays, call.repeats, played)
    tracks = Tracks(call.titles, companion, programs, say)
    stream = Stream(place, rate_of(call.names, companion), call.bitrate, call.name, programs, say, not call.is_free)
    try:
        Player(stream, programme, played, log, tracks, Options(call.name, call.meanwhile, not call.is_free), say).run()
    finally:
        stream.end()


def main(arguments: List[str]) -> int:
    """Puts renderings on the air; the exit status."""
    call, say = words.read(arguments), Say("air")
    if call is None:
        raise Usage(words.USAGE)
    if not shutil.which("ffmpeg"):
        raise Failed("ffmpeg is missing: install the package ffmpeg", 3)
    try:
        play(call, say)
        return 0
    except OSError as error:
        raise Failed(f"{error.filename or 'a pipe'}: {error.strerror}", 3) from None
    except Stopped as error:
        say("ended")
        return 0 if error.args[0] == signal.SIGTERM else 128 + int(error.args[0])
