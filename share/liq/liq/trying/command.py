"""The command liq-try: a station in the browser, while it is written."""
import concurrent.futures
import html
import os
import re
import socket
import sys
import threading
import webbrowser
from typing import List, NamedTuple

from liq.failed import Usage
from liq.guarded import Folder
from liq.reading.companion import Companion
from liq.reading.programs import COMPANION, LIQ, programs_of
from liq.trying.server import Server
from liq.trying.station import Shown
from liq.watching.names import shown

USAGE = "usage: liq try [--port=N] [--no-browser] FILE"
SECONDS = 30               # for which the companion may run
DOOR = "open.html"


class Call(NamedTuple):
    """A call: the script, the port, 0 for a free one, and whether a browser is opened."""
    file: str
    port: int
    opens: bool


def call_of(words: List[str]) -> Call:
    """The call of these words."""
    files, port, opens = [], 0, True
    for word in words:
        number = re.fullmatch(r"--port=(\d{1,5})", word)
        if number and int(number[1]) < 65536:
            port = int(number[1])
        elif word == "--no-browser":
            opens = False
        elif word.startswith("--"):
            raise Usage(USAGE)
        else:
            files.append(word)
    if len(files) != 1 or not files[0]:
        raise Usage(USAGE)
    return Call(files[0], port, opens)


def door(folder: Folder, address: str) -> str:
    """A file that leads to the page, which this user alone can read: a browser's words can be read by all users."""
    leads = f'<meta http-equiv=refresh content="0;url={html.escape(address)}">'
    text = f"<!DOCTYPE html><meta charset=utf-8>{leads}<title>liq-try</title>"
    return "file://" + folder.write(DOOR, text.encode())


def open_browser(folder: Folder, address: str) -> None:
    """Opens the page where there is a screen, and nobody looks at it from another machine."""
    if (os.environ.get("DISPLAY") or os.environ.get("WAYLAND_DISPLAY")) and not os.environ.get("SSH_CONNECTION"):
        threading.Thread(target=webbrowser.open, args=(door(folder, address),), daemon=True).start()


def main(words: List[str]) -> int:
    """Shows a station until a signal ends it."""
    call = call_of(words)
    program, path = programs_of((LIQ, COMPANION))
    folder = Folder("liq-try-")
    station = Shown(call.file, program, Companion(path, SECONDS), folder)
    try:
        server = Server(station, call.port)
        print(f"{shown(call.file)} is shown at {server.address}", flush=True)
        if os.environ.get("SSH_CONNECTION"):
            forward = f"{server.port}:127.0.0.1:{server.port}"
            print(f"on your machine: ssh -N -L {forward} {socket.gethostname()}", flush=True)
        print("Ctrl-C ends", file=sys.stderr, flush=True)
        watching = concurrent.futures.ThreadPoolExecutor(1).submit(station.watch)
        watching.add_done_callback(lambda _: server.shutdown())         # it ends by a fault alone
        if call.opens:
            open_browser(folder, server.address)
        server.serve_forever()
        watching.result()                                               # which is told as that of the command
    finally:
        station.moments.end()
        folder.end()
    return 0
