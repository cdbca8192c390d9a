"""Calls of the companion with one call of the system refused, for tests/refusals: each of its verbs over a few scripts."""
import os
import subprocess
from typing import Dict, List, NamedTuple, Optional, Tuple

from lib.common import sound

SECONDS = 60
# What may come after a refused call of each kind, beside 0. Only some verbs read files, and only `where` an input.
STATUSES: Dict[str, Tuple[int, ...]] = {"memory": (5,), "open": (3,), "read": (3,), "write": (4,), "look": (3,), "close": ()}
PLAYED = """set("frame.audio.samplerate", 8000)
d = playlist("list.m3u")
n = switch([({6h-8h}, single("a.wav")), ({6h-22h and not 12h}, d), ({0h-24h}, single("none.wav"))])
output.file(%wav, "one.wav", fallback([n, blank()]))
output.file(%wav, "two.wav", fallible=true, crossfade(duration=0.01, n))
"""
SILENT = """s = switch([({6h-22h}, single("a.wav"))])
output.file(%wav, "one.wav", s)
"""
WRONG = 'output.file(%wav, "one.wav", gain(blank())) "\n'
LINES = b"""E25 may fall silent one.wav
E08 statement 1: unknown name at token 3
switch 1: nothing from Monday 00:00
E26 source 2 under clocks a and b
no place
E20 missing file a.wav"""
SCRIPTS: List[Tuple[str, str]] = [("a plan that plays files", PLAYED), ("a plan that is refused", SILENT), ("no plan", WRONG)]
VERBS = ("where", "week", "picture", "files", "hours", "tokens")


class Answer(NamedTuple):
    """What a call left: its status, nothing where it took too long, and both outputs."""
    status: Optional[int]
    out: bytes
    err: bytes


class Asked:
    """A folder in which one verb is asked of one script again and again."""

    def __init__(self, companion: str, library: str, folder: str, script: str, verb: str) -> None:
        self.companion, self.library, self.folder, self.verb = companion, library, folder, verb
        for name, count in (("a.wav", 40), ("b.wav", 23)):
            self.write(name, sound(range(100, 100 + count), rate=8000))
        self.write("list.m3u", b"a.wav\nb.wav\nlate.wav\n")
        self.write("f.liq", script.encode())
        self.write("lines", LINES)
        self.counts = os.path.join(os.path.dirname(folder), "counts")
        self.whole = self.run("many", 0)
        with open(self.counts, encoding="utf-8") as file:
            counted = {kind: int(count) for kind, count in map(str.split, file)}
        self.many = {kind: count for kind, count in counted.items() if kind in STATUSES}

    def write(self, name: str, content: bytes) -> None:
        """Writes a file of the folder."""
        with open(os.path.join(self.folder, name), "wb") as file:
            file.write(content)

    def run(self, kind: str, at: int, lasts: bool = False) -> Answer:
        """Asks, where this call of this kind is refused, and those behind it too where that lasts."""
        call = dict(os.environ, LD_PRELOAD=self.library, REFUSE=kind, REFUSE_AT=str(at), REFUSE_COUNTS=self.counts)
        if lasts:
            call["REFUSE_ON"] = "1"
        with open(os.path.join(self.folder, "lines"), "rb") as lines:
            try:
                done = subprocess.run([self.companion, self.verb, "f.liq"], cwd=self.folder, env=call, stdin=lines, capture_output=True,
                                      check=False, timeout=SECONDS)
            except subprocess.TimeoutExpired:
                return Answer(None, b"", b"")
        return Answer(done.returncode, done.stdout, done.stderr)

    def may_differ(self, found: Answer) -> bool:
        """Whether an answer of status 0 may be another one than the usual: where a file could not be read it is told as unread, and where
        the script could not be the lines are passed on alone."""
        if self.verb == "files":
            return b'"unread"' in found.out
        return self.verb == "where" and found.out == LINES

    def wrong(self, kind: str, at: int, lasts: bool) -> str:
        """What is wrong in such a run, or nothing."""
        found = self.run(kind, at, lasts)
        if found.status is None:
            return f"takes more than {SECONDS} seconds"
        if found.err:
            return f"tells {found.err[:100]!r}"
        if found.status == self.whole.status:
            return "" if found.out == self.whole.out or self.may_differ(found) else f"answers {found.out[:100]!r}"
        if found.status not in STATUSES[kind]:
            return f"status {found.status}"
        if found.status == 4 or self.verb == "where":
            return "" if self.whole.out.startswith(found.out) or LINES.startswith(found.out) else f"status {found.status} leaves {found.out[:100]!r}"
        return f"status {found.status} leaves {found.out[:100]!r}" if found.out else ""
