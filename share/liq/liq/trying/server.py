"""The server of the page: for this machine alone, under a path that nobody else can guess."""
import http.server
import json
import os
import re
import secrets
import socketserver
import urllib.parse
from typing import BinaryIO, Dict, Optional, Tuple

from liq.failed import Failed
from liq.trying.station import Shown

HERE = os.path.dirname(os.path.realpath(__file__))
ADDRESS = "127.0.0.1"
HOSTS = (ADDRESS, "localhost")
SECRET = 16                # bytes of the path
IDLE = 60                  # seconds after which a connection that asks for nothing is closed
PIECE = 1 << 16            # bytes of a sound that are sent at a time
PAGES = {"": ("page.html", "text/html; charset=utf-8"), "page.js": ("page.js", "text/javascript; charset=utf-8"),
         "page.css": ("page.css", "text/css; charset=utf-8"), "icon.svg": ("icon.svg", "image/svg+xml")}
# The page runs its own script alone, and loads from this server alone; a picture can run nothing.
POLICY = ("default-src 'none'; script-src 'self'; style-src 'self'; img-src 'self'; media-src 'self'; "
          "connect-src 'self'; base-uri 'none'; form-action 'none'; frame-ancestors 'none'")
POLICY_OF_PICTURE = "default-src 'none'; style-src 'unsafe-inline'; sandbox"
HEADERS = {"Cache-Control": "no-store", "Content-Security-Policy": POLICY, "X-Content-Type-Options": "nosniff",
           "Referrer-Policy": "no-referrer", "Cross-Origin-Resource-Policy": "same-origin",
           "Cross-Origin-Opener-Policy": "same-origin"}
RANGE = re.compile(r"bytes=(\d+)-(\d*)")


class Server(http.server.ThreadingHTTPServer):
    """The server of a station."""
    daemon_threads = True
    allow_reuse_address = False

    def __init__(self, shown: Shown, port: int):
        self.shown, self.secret = shown, secrets.token_urlsafe(SECRET)
        try:
            super().__init__((ADDRESS, port), Handler)
        except (OSError, OverflowError) as error:
            raise Failed(f"port {port}: {getattr(error, 'strerror', None) or error}", 1) from None

    def server_bind(self) -> None:
        """Binds without asking for the name of this machine, which may take long."""
        socketserver.TCPServer.server_bind(self)
        self.server_name, self.server_port = ADDRESS, self.server_address[1]

    def handle_error(self, request: object, client_address: object) -> None:
        """A browser that goes away is no fault."""

    @property
    def port(self) -> int:
        return int(self.server_address[1])

    @property
    def address(self) -> str:
        return f"http://{ADDRESS}:{self.port}/{self.secret}/"


class Handler(http.server.BaseHTTPRequestHandler):
    """A connection of a browser."""
    protocol_version = "HTTP/1.1"
    server_version, sys_version = "liq-try", ""
    timeout = IDLE
    server: Server

    def log_message(self, format: str, *args: object) -> None:          # pylint: disable=redefined-builtin
        pass

    def send_error(self, code: int, message: Optional[str] = None, explain: Optional[str] = None) -> None:
        """Whatever is wrong with a request, there is nothing here."""
        self.close_connection = True
        self.send(b"not here\n", "text/plain", 404)

    def head(self, kind: str, status: int, size: int, more: "Dict[str, str]") -> None:
        """The head of an answer."""
        self.send_response(status)
        for name, value in {**HEADERS, "Content-Type": kind, "Content-Length": str(size), **more}.items():
            self.send_header(name, value)
        self.end_headers()

    def send(self, data: bytes, kind: str, status: int = 200, **more: str) -> None:
        """A whole answer."""
        try:
            self.head(kind, status, len(data), {name.replace("_", "-"): value for name, value in more.items()})
            self.wfile.write(data)
        except OSError:                                     # the browser is gone
            self.close_connection = True

    def send_told(self, told: "Dict[str, object]") -> None:
        self.send(json.dumps(told).encode(), "application/json")

    def place(self) -> Optional[Tuple[str, Dict[str, str]]]:
        """The place below the secret path that a request of this page asks for, with its words; None of any other
        one."""
        host = re.fullmatch(r"([^:]*)(:\d+)?", self.headers.get("Host", ""))
        path, _, query = self.path.partition("?")
        front = f"/{self.server.secret}/"
        is_known = secrets.compare_digest(path[:len(front)].encode(), front.encode())
        if host is None or host[1] not in HOSTS or not is_known:
            return None
        place = path[len(front):]
        if place and self.headers.get("Sec-Fetch-Site", "same-origin") != "same-origin":
            return None
        return place, dict(urllib.parse.parse_qsl(query))

    def do_GET(self) -> None:                               # pylint: disable=invalid-name
        found = self.place()
        if found is None:
            return self.send_error(404)
        place, words = found
        shown = self.server.shown
        if place in PAGES:
            name, kind = PAGES[place]
            with open(os.path.join(HERE, name), "rb") as file:
                return self.send(file.read(), kind)
        if place == "state":
            return self.send_told(shown.news(number_of(words.get("seen", "0"))))
        if place == "hear":
            return self.send_told(shown.hear(number_of(words.get("at", "")), number_of(words.get("for", ""))))
        if place == "hour":
            return self.send_told(shown.hour(number_of(words.get("at", "")), number_of(words.get("switch", ""))))
        return self.send_file(place)

    def send_file(self, place: str) -> None:
        """A picture or a sound."""
        picture = re.fullmatch(r"picture/(\d{1,9})\.svg", place)
        svg = self.server.shown.picture(int(picture[1])) if picture else None
        if svg is not None:
            return self.send(svg, "image/svg+xml", Content_Security_Policy=POLICY_OF_PICTURE)
        path = self.server.shown.moments.sound(place)
        try:
            file = open(path, "rb") if path is not None else None   # pylint: disable=consider-using-with
        except OSError:
            file = None
        if file is None:
            return self.send_error(404)
        with file:
            self.send_sound(file)

    def send_sound(self, file: BinaryIO) -> None:
        """A sound, or the part of it that is asked for."""
        size = os.fstat(file.fileno()).st_size
        asked = RANGE.fullmatch(self.headers.get("Range", ""))
        first = min(int(asked[1]), size) if asked else 0
        last = min(int(asked[2]), size - 1) if asked and asked[2] else size - 1
        if asked and first > last:
            return self.send(b"", "audio/wav", 416, Content_Range=f"bytes */{size}")
        more = {"Accept-Ranges": "bytes", **({"Content-Range": f"bytes {first}-{last}/{size}"} if asked else {})}
        left = last - first + 1
        file.seek(first)
        try:
            self.head("audio/wav", 206 if asked else 200, left, more)
            while left:
                piece = file.read(min(PIECE, left))
                if not piece:
                    break
                self.wfile.write(piece)
                left -= len(piece)
        except OSError:
            pass
        self.close_connection |= left > 0


def number_of(text: str) -> int:
    """A number in a request; -1 where it is none."""
    return int(text) if re.fullmatch(r"\d{1,9}", text) else -1
