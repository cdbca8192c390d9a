"""The command liq-picture: the picture of a script, with what is said of its week."""
import sys
import tempfile
from typing import IO, List

from liq.command import NOT_WRITTEN
from liq.failed import Failed, Usage
from liq.reading.companion import Companion, NoAnswer, NoPlan, companion_of
from liq.weeks.notes import END, notes
from liq.weeks.told import Week, told

SECONDS = 60
PART = 1 << 20             # bytes that are copied at once


def week_of(companion: Companion, file: str) -> Week:
    """The week of a script; none where there is no answer in time, as the picture is the same without it."""
    try:
        return told(companion, file, is_placed=False)
    except NoAnswer:
        return Week()


def pass_on(picture: IO[bytes], week: Week) -> None:
    """Prints a picture with its notes. It may be large, so it is held in parts alone."""
    size = picture.seek(0, 2)
    end = END.encode()
    picture.seek(max(0, size - len(end)))
    has_end = picture.read() == end
    left = size - len(end) if has_end else size
    picture.seek(0)
    sys.stdout.flush()
    while left:
        part = picture.read(min(PART, left))
        sys.stdout.buffer.write(part)
        left -= len(part)
    if has_end:
        for note in notes(week):
            sys.stdout.buffer.write(note.encode("utf-8", "surrogateescape"))
        sys.stdout.buffer.write(end)


def main(words: List[str]) -> int:
    """Prints the picture as a text for graphviz."""
    if len(words) != 1:
        raise Usage("usage: liq picture FILE")
    companion = companion_of(seconds=SECONDS)
    try:
        picture = tempfile.TemporaryFile(prefix="liq-picture-")
    except OSError as error:
        raise Failed(f"a temporary file: {error.strerror or error}", NOT_WRITTEN) from None
    with picture:
        try:
            companion.call("picture", words[0], out=picture)
        except NoPlan as error:
            return error.status
        pass_on(picture, week_of(companion, words[0]))
    return 0
