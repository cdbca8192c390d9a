"""An icecast server: its place and password, the stream that is sent to it, and the titles that it is told."""
import base64
import http.client
import socket
import ssl
import urllib.parse
from dataclasses import dataclass
from typing import Dict, Optional

from liq.airing.failed import Failed

SECONDS = 10           # that a server may take for an answer, or for bytes
USER = "source"
PLAIN, SAFE = ("http", "icecast"), ("https", "icecasts")
WRONG = (401, 404, 405)        # answers after which it is not tried again
LONGEST = 65536        # bytes of an answer's head
AHEAD = 65536          # bytes that the system may hold for the server, so that one that stalls is seen within seconds


class Lost(Exception):
    """Why a server is not joined, in words."""


@dataclass
class Place:
    """Where a stream goes: the server, its mount, and who sends it."""
    host: str
    port: int
    mount: str
    user: str
    password: str
    is_safe: bool

    def key(self) -> str:
        """The word by which the server knows who sends."""
        return "Basic " + base64.b64encode(f"{self.user}:{self.password}".encode()).decode()

    def socket(self) -> socket.socket:
        """A connection; OSError where there is none."""
        found = socket.create_connection((self.host, self.port), SECONDS)
        found.setsockopt(socket.SOL_SOCKET, socket.SO_SNDBUF, AHEAD)
        return ssl.create_default_context().wrap_socket(found, server_hostname=self.host) if self.is_safe else found


def place_of(url: str, password: Optional[str]) -> Place:
    """The place of an address such as http://127.0.0.1:8000/air.mp3."""
    at = urllib.parse.urlsplit(url)
    try:
        port = at.port
    except ValueError:
        raise Failed("the address has a port that is none", 2) from None
    if at.scheme not in PLAIN + SAFE or not at.hostname or at.path in ("", "/") or at.query or at.fragment:
        raise Failed("the address is to be as http://HOST:PORT/MOUNT", 2)
    if at.password is not None:
        raise Failed("a password on a command line is seen by all: use LIQ_AIR_PASSWORD or --password-file", 2)
    if not password:
        raise Failed("there is no password: use LIQ_AIR_PASSWORD or --password-file", 2)
    if any(ord(c) < 33 for c in at.path + at.hostname) or "\n" in password:
        raise Failed("the address or the password has a character that it cannot have", 2)
    user = urllib.parse.unquote(at.username or USER)
    is_safe = at.scheme in SAFE
    return Place(at.hostname, port or (443 if is_safe else 8000), urllib.parse.quote(at.path, "/%"), user, password, is_safe)


class Stream:
    """A connection that takes the bytes of a stream."""

    def __init__(self, place: Place, told: Dict[str, str]):
        try:
            self.socket = place.socket()
        except OSError as error:
            raise Lost(error.strerror or str(error)) from None
        head = {"Host": f"{place.host}:{place.port}", "Authorization": place.key(), "User-Agent": "liq-air",
                "Content-Type": "audio/mpeg", "Expect": "100-continue", **told}
        lines = [f"PUT {place.mount} HTTP/1.1", *(f"{name}: {text}" for name, text in head.items()), "", ""]
        try:
            self.socket.sendall("\r\n".join(lines).encode())
            self.examine(self.answer())
        except OSError as error:
            self.close()
            raise Lost(error.strerror or "no answer") from None
        except BaseException:
            self.close()
            raise

    def answer(self) -> bytes:
        """The head of the server's answer."""
        data = b""
        while b"\r\n\r\n" not in data and len(data) < LONGEST:
            more = self.socket.recv(4096)
            if not more:
                break
            data += more
        return data

    def examine(self, data: bytes) -> None:
        """Fails where the server does not take the stream."""
        words = data.split(b"\r\n")[0].decode("ascii", "replace").split(" ", 2)
        if len(words) < 2 or not words[0].startswith("HTTP/") or not words[1].isdigit():
            raise Lost("it closes, or is no icecast server")
        status, why = int(words[1]), "".join(c for c in " ".join(words[1:]) if c.isprintable())[:80]
        if status in WRONG:
            raise Failed(f"the server refuses the stream: {why}", 4)
        if status not in (100, 200):
            raise Lost(f"it answers {why}")

    def send(self, data: memoryview) -> int:
        """Sends some of these bytes, and answers how many; Lost where the server takes none for a while, or is gone."""
        try:
            return self.socket.send(data)
        except OSError as error:
            raise Lost(error.strerror or "it takes no more") from None

    def close(self) -> None:
        """Ends the stream."""
        self.socket.close()


def tell(place: Place, title: str) -> str:
    """Tells the server a title; why not, or nothing."""
    words = {"mount": urllib.parse.unquote(place.mount), "mode": "updinfo", "charset": "UTF-8", "song": title}
    link = http.client.HTTPSConnection if place.is_safe else http.client.HTTPConnection
    try:
        call = link(place.host, place.port, timeout=SECONDS)
        try:
            path = "/admin/metadata?" + urllib.parse.urlencode(words, errors="replace")
            call.request("GET", path, headers={"Authorization": place.key()})
            answer = call.getresponse()
            answer.read(LONGEST)
        finally:
            call.close()
    except (OSError, http.client.HTTPException) as error:
        return str(error) or "no answer"
    return "" if answer.status == 200 else f"{answer.status} {answer.reason}"
