"""Messages of the language server protocol: JSON behind a header with its length, over two streams."""
import json
from typing import Any, BinaryIO, Optional

MOST = 16777216            # bytes of a message; a longer one is passed over
MOST_HEADER = 4096         # bytes of a line of a header, and lines of one
PIECE = 65536


class Broken(Exception):
    """The stream cannot be followed any further: it is cut, or a header has no length."""


class Bad(Exception):
    """A message that is none, with the number of its error."""

    def __init__(self, code: int, text: str):
        super().__init__(text)
        self.code = code


def length_of(stream: BinaryIO) -> Optional[int]:
    """The length that a header tells, or nothing at the end of the stream."""
    length = None
    for number in range(MOST_HEADER):
        line = stream.readline(MOST_HEADER)
        if not line and number == 0:
            return None
        if not line.endswith(b"\n"):
            raise Broken("the header of a message is cut")
        if not line.strip():
            break
        name, _, value = line.partition(b":")
        if name.strip().lower() == b"content-length" and value.strip().isdigit() and len(value) < 20:
            length = int(value)
    if length is None:
        raise Broken("the header of a message has no Content-Length")
    return length


def passed_over(stream: BinaryIO, length: int) -> None:
    """Reads so many bytes and keeps none."""
    while length > 0:
        data = stream.read(min(PIECE, length))
        if not data:
            raise Broken("a message is cut")
        length -= len(data)


def message(stream: BinaryIO) -> Optional[Any]:
    """The next message, or nothing at the end of the stream. Bad where it is no JSON or too long."""
    length = length_of(stream)
    if length is None:
        return None
    if length > MOST:
        passed_over(stream, length)
        raise Bad(-32600, f"a message has more than {MOST} bytes")
    data = stream.read(length)
    if len(data) < length:
        raise Broken("a message is cut")
    try:
        found = json.loads(data)
    except (ValueError, RecursionError) as error:
        raise Bad(-32700, "a message is no JSON") from error
    if not isinstance(found, dict):
        raise Bad(-32600, "a message is no object")
    return found


def send(stream: BinaryIO, what: Any) -> None:
    """Writes a message."""
    data = json.dumps(what, ensure_ascii=True, separators=(",", ":")).encode()
    stream.write(b"Content-Length: %d\r\n\r\n%b" % (len(data), data))
    stream.flush()
