"""Calls of the system that are refused to liq-prepare, liq-night and liq-air, each in turn, and kills at random moments.

A small library (deny.c) counts the calls on what lies below the folder of a run, and refuses one of them. Behind it the status
has to be true, and each file that has a name whole; and the next run, of which nothing is refused, makes what it always makes.
"""
import concurrent.futures
import contextlib
import errno
import json
import os
import random
import shutil
import signal
import socket
import subprocess
import sys
import tempfile
import threading
import time
from typing import Any, Callable, Dict, Iterable, Iterator, List, NamedTuple, Optional, Tuple

from lib.common import TESTS, TOP, Tally, content, header, sound

RATE, SECONDS = 8000, 120
CODES = (errno.EIO, errno.ENOSPC)
USUAL = 1700000000 * 10 ** 9   # the time of most files, in nanoseconds since 1970
RATE_OF_BYTES = 8000           # of a second of the stream: at this rate of samples its MP3 has 64 kilobits
SCRIPT = f'set("frame.audio.samplerate", {RATE})\n' + "".join(
    f'output.file(%wav, "{name}.wav", mean(mksafe(playlist("m.m3u"))))\n' for name in "AB")
NIGHT_NAMES = [f"{name}.wav{ending}" for name in "AB" for ending in ("", ".cue", ".start")]
KEPT = "each output holds what it held before"
Files = Dict[str, bytes]


class Done(NamedTuple):
    """How a call ended: its status, what it printed and said."""
    status: Optional[int]
    printed: str
    said: str


def built(place: str) -> str:
    """The library that refuses."""
    path = os.path.join(place, "deny.so")
    subprocess.run([os.environ.get("CC", "cc"), "-O1", "-shared", "-fPIC", "-o", path, os.path.join(TESTS, "lib", "deny.c"), "-ldl"], check=True)
    return path


def interpreter() -> List[str]:
    """The interpreter of this run, without the packages of the machine, as it takes a library by LD_PRELOAD."""
    return [sys.executable, "-S", "-X", "utf8"]


def tree(folder: str) -> Files:
    """All files below a folder, but for what a lock or a look leaves."""
    found = {}
    for base, _, names in os.walk(folder):
        for name in names:
            path = os.path.join(base, name)
            found[os.path.relpath(path, folder)] = content(path)
    return found


def restore(folder: str, files: Files, times: Dict[str, int]) -> None:
    """Makes a folder hold these files and no others, with these times in nanoseconds, or one that is always the same."""
    shutil.rmtree(folder, ignore_errors=True)
    for name, data in files.items():
        path = os.path.join(folder, name)
        os.makedirs(os.path.dirname(path), exist_ok=True)
        with open(path, "wb") as file:
            file.write(data)
        os.utime(path, ns=(times.get(name, USUAL), times.get(name, USUAL)))


class Call:
    """A command that is called again and again in folders of its own, each of which first holds the same files."""
    name, words = "", []  # type: str, List[str]

    def __init__(self, program: str, library: str, place: str):
        self.program, self.library, self.place = program, library, place
        self.times: Dict[str, int] = {}        # of those files that have times of their own
        self.after: Files = {}
        self.before = self.files()

    def files(self) -> Files:
        """What a folder holds before the call."""
        raise NotImplementedError

    def run(self, folder: str, at: int = -1, code: int = errno.EIO, log: str = "") -> Done:
        """Calls the command; one call of the system is refused to it."""
        env = {**os.environ, "LIQ_PROGRAMS": os.path.dirname(self.program), "LIQ_AIR_PASSWORD": "x"}
        if at >= 0 or log:
            env.update(LD_PRELOAD=self.library, DENY_BELOW=os.path.realpath(folder), DENY_AT=str(at), DENY_CODE=str(code))
            env.update({"DENY_LOG": log} if log else {})
        try:
            done = subprocess.run([*interpreter(), os.path.join(TOP, "bin", self.name), *self.words_in(folder)], cwd=folder, env=env,
                                  capture_output=True, stdin=subprocess.DEVNULL, text=True, errors="replace", check=False, timeout=SECONDS)
            return Done(done.returncode, done.stdout, done.stderr)
        except subprocess.TimeoutExpired:
            return Done(None, "", "no end")

    def words_in(self, folder: str) -> List[str]:
        return self.words

    def calls(self, folder: str) -> List[str]:
        """The calls of the system that the command makes, by their names."""
        restore(folder, self.before, self.times)
        log = folder + ".log"
        done = self.run(folder, log=log)
        if done.status:
            raise AssertionError(f"{self.name}: {done}")
        self.after = tree(folder)
        return content(log).decode().split("\n")[:-1]

    def wrong(self, folder: str, number: int, code: int) -> Iterator[str]:
        """What is wrong where this call of the system is refused."""
        restore(folder, self.before, self.times)
        done = self.run(folder, number, code)
        if done.status is None or done.status < 0 or "Traceback" in done.said:
            yield f"status {done.status}: {done.said[-400:]}"
            return
        if done.status and done.said.count("\n") != 1 and not (self.name == "liq-prepare" and done.status == 1 and done.printed):
            yield f"status {done.status} says {done.said!r}"
        yield from self.wrong_after(folder, done)
        yield from self.wrong_next(folder)

    def wrong_after(self, folder: str, done: Done) -> Iterable[str]:
        """What is wrong behind the call."""
        raise NotImplementedError

    def wrong_next(self, folder: str) -> Iterator[str]:
        """What is wrong behind the next call, to which nothing is refused."""
        done = self.run(folder)
        if done.status:
            yield f"the next one ends with {done.status}: {done.said[-300:]}"
        yield from self.wrong_end(folder)

    def wrong_end(self, folder: str) -> Iterable[str]:
        """What is wrong where all is made."""
        raise NotImplementedError


class Night(Call):
    """A night of two outputs, of WAV files and of some that are decoded, by --go-on over an old night."""
    name = "liq-night"

    def words_in(self, folder: str) -> List[str]:
        return [f"--program={self.program}", "--go-on", "--start=2026-12-01:20:00", "--cache=cache", "f", "0.002"]

    def files(self) -> Files:
        found = {"f": SCRIPT.encode(), "m.m3u": b"s0.wav\ne1.wav\ns2.wav\ne3.wav\ns4.wav\n"}
        for k in range(5):
            samples = bytes([100 + k]) * (3 * RATE)
            found[f"{'e' if k % 2 else 's'}{k}.wav"] = (header(len(samples), rate=RATE, width=1) + samples if k % 2
                                                      else sound([100 * k + 100] * (3 * RATE), rate=RATE))
        found.update({name: b"old " + name.encode() for name in NIGHT_NAMES})
        return found

    def set_of(self, folder: str) -> List[Optional[bytes]]:
        return [content(os.path.join(folder, name)) if os.path.exists(os.path.join(folder, name)) else None for name in NIGHT_NAMES]

    def wrong_after(self, folder: str, done: Done) -> Iterator[str]:
        olds, news = [self.before.get(name) for name in NIGHT_NAMES], [self.after.get(name) for name in NIGHT_NAMES]
        got = self.set_of(folder)
        if done.status == 0:
            # a sound that could not be read is told, and others are played
            if "; found " not in done.printed and got != news or any(data == old for data, old in zip(got, olds)):
                yield f"status 0, and {self.told(got, olds, news)}: {done.printed[-200:]}"
            return
        is_old = got == olds
        is_kept = KEPT in done.said or done.status in (1, 3, 5, 126) or "another night" in done.said
        if is_kept and not is_old and "new: " not in done.said:
            yield f"status {done.status} says {done.said.strip()!r}, and {self.told(got, olds, news)}"
        elif not is_old and "new: " not in done.said:
            yield f"status {done.status} says {done.said.strip()!r}, and {self.told(got, olds, news)}"

    @staticmethod
    def told(got: List[Optional[bytes]], olds: List[Optional[bytes]], news: List[Optional[bytes]]) -> str:
        return " ".join("old" if data == old else "new" if data == new else "other" for data, old, new in zip(got, olds, news))

    def wrong_end(self, folder: str) -> Iterator[str]:
        got, wanted = tree(folder), self.after
        for name in NIGHT_NAMES:
            if got.get(name) != wanted[name]:
                yield f"behind the next one {name} is another one"
        left = [name for name in set(got) - set(wanted) if not name.startswith("cache/") and ".kept" not in name]
        if left:
            yield f"is left: {sorted(left)[:5]}"
        more = sum(len(data) for name, data in got.items() if name.startswith("cache/") and name.endswith(".wav"))
        if more > 2 * sum(len(data) for name, data in wanted.items() if name.startswith("cache/") and name.endswith(".wav")):
            yield "the cache has grown"


class Prepare(Call):
    """A library that was made before, of which a sound is gone, one is another one, and one is new, with --prune."""
    name = "liq-prepare"
    words = [f"--rate={RATE}", "--jobs=2", "--prune", "lib", "out"]

    def files(self) -> Files:
        folder = os.path.join(self.place, "made")
        first = {f"lib/{k % 2}/{k}.wav": sound([100 + k] * RATE, rate=RATE) for k in range(6)}
        restore(folder, first, {})
        done = self.run(folder)
        if done.status:
            raise AssertionError(done)
        found = tree(folder)
        del found["lib/0/4.wav"]
        found.update({"lib/0/0.wav": sound([900] * (RATE + 9), rate=RATE), "lib/2/new.wav": sound([901] * RATE, rate=RATE)})
        self.wave = {name.partition("/")[2]: data for name, data in found.items() if name.startswith("lib/")}
        self.times = {name: os.stat(os.path.join(folder, name)).st_mtime_ns for name in found if name.startswith("out/")}
        return found

    def wrong_after(self, folder: str, done: Done) -> Iterator[str]:
        if done.status not in (0, 1, 3, 4, 5, 126):
            yield f"status {done.status}"
        path = os.path.join(folder, "out/all.m3u")
        entries = content(path).decode().split() if os.path.exists(path) else []
        for entry in entries:
            if not os.path.exists(os.path.join(folder, entry)):
                if done.status == 0:
                    yield f"status 0, and {entry} is not there"
                continue
            data = content(os.path.join(folder, entry))
            if data not in (self.wave.get(entry[4:]), self.before.get(entry)):
                yield f"{entry} is half: {len(data)} bytes"
        if done.status == 0 and ", 0 to look at" in done.printed and {entry[4:] for entry in entries} != set(self.wave):
            yield f"status 0 without a line, and the list has {entries}"

    def wrong_end(self, folder: str) -> Iterator[str]:
        got = tree(folder)
        wanted = {f"out/{name}": data for name, data in self.wave.items()}
        for name, data in wanted.items():
            if got.get(name) != data:
                yield f"behind the next one {name} is {'another one' if name in got else 'not there'}"
        for name in ("out/all.m3u", "out/0.m3u", "out/1.m3u", "out/2.m3u"):
            if got.get(name) != self.after[name]:
                yield f"behind the next one {name} has {got.get(name)}"
        left = sorted(set(got) - set(self.after))
        if left:
            yield f"is left: {left[:5]}"


class Taker:
    """A server that takes any stream, and counts its bytes."""

    def __init__(self) -> None:
        self.listener, self.bytes = socket.create_server(("127.0.0.1", 0)), 0
        self.port = self.listener.getsockname()[1]
        threading.Thread(target=self.serve, daemon=True).start()

    def serve(self) -> None:
        with contextlib.suppress(OSError):
            while True:
                threading.Thread(target=self.take, args=(self.listener.accept()[0],), daemon=True).start()

    def take(self, link: socket.socket) -> None:
        """Takes a stream, or a title."""
        with contextlib.suppress(OSError), link:
            head = b""
            while b"\r\n\r\n" not in head and (data := link.recv(4096)):
                head += data
            link.sendall(b"HTTP/1.1 200 OK\r\nContent-Length: 0\r\n\r\n" if head[:3] == b"GET" else b"HTTP/1.1 100 Continue\r\n\r\n")
            while head[:3] == b"PUT" and (data := link.recv(1 << 16)):
                self.bytes += len(data)

    def close(self) -> None:
        self.listener.close()


class Air(Call):
    """A rendering of two seconds on the air, with a state, a log, titles, and something else meanwhile."""
    name = "liq-air"
    takers: Dict[str, Taker] = {}

    def words_in(self, folder: str) -> List[str]:
        self.takers[folder] = Taker()
        return ["--state=state", "--log=log.csv", "--titles=t.tsv", "--meanwhile=m.wav",
                f"http://127.0.0.1:{self.takers[folder].port}/air.mp3", "A.wav"]

    def files(self) -> Files:
        return {"A.wav": sound([500] * (2 * RATE), rate=RATE), "A.wav.cue": f"0 one.wav\n{RATE} two.wav\n".encode(),
                "A.wav.titles.tsv": b"one.wav\tX\tOne\n", "t.tsv": b"two.wav\tX\tTwo\n", "m.wav": sound([1] * RATE, rate=RATE),
                "state": b'{"done": [], "now": null}\n', "log.csv": b"date,time,seconds,artist,title,album,isrc,label,file\n"}

    def run(self, folder: str, at: int = -1, code: int = errno.EIO, log: str = "") -> Done:
        done = super().run(folder, at, code, log)
        self.takers[folder].close()
        return done

    def wrong_after(self, folder: str, done: Done) -> Iterator[str]:
        heard = self.takers[folder].bytes / RATE_OF_BYTES
        if done.status != 0:
            yield f"status {done.status}: {done.said[-300:]}"
        if heard < 1.5 and "A.wav" not in "".join(line for line in done.said.split("\n") if ":" in line.partition("air: ")[2]):
            yield f"{heard:.1f} s are heard: {done.said[-300:]}"
        state = os.path.join(folder, "state")
        if os.path.exists(state):
            try:
                json.loads(content(state))
            except ValueError:
                yield f"the state is {content(state)[:80]!r}"

    def wrong_next(self, folder: str) -> Iterator[str]:
        os.utime(os.path.join(folder, "A.wav"))             # another rendering
        yield from super().wrong_next(folder)

    def wrong_end(self, folder: str) -> Iterator[str]:
        heard = self.takers[folder].bytes / RATE_OF_BYTES
        if heard < 1.5:
            yield f"{heard:.1f} s of the next one are heard"
        left = [name for name in sorted(set(tree(folder)) - set(self.after)) if ".kept" not in name]
        if left:
            yield f"is left: {left}"
        rows = content(os.path.join(folder, "log.csv")).decode().split("\n")[:-1]
        if any(row.count(",") != 8 for row in rows) or len(rows) < 3:
            yield f"the log has {rows}"


def killed(call: Call, folder: str, seconds: float) -> bool:
    """Kills a call that has not ended by itself in so many seconds, and what it started; whether it was killed."""
    env = {**os.environ, "LIQ_PROGRAMS": os.path.dirname(call.program), "LIQ_AIR_PASSWORD": "x"}
    run = subprocess.Popen([*interpreter(), os.path.join(TOP, "bin", call.name), *call.words_in(folder)], cwd=folder, env=env,
                           stdin=subprocess.DEVNULL, stdout=subprocess.DEVNULL, stderr=subprocess.DEVNULL)
    try:
        run.wait(seconds)
        return False
    except subprocess.TimeoutExpired:
        run.send_signal(signal.SIGKILL)
        run.wait()
        return True


def kill(call: Call, folder: str, chance: random.Random, longest: float) -> Tuple[bool, List[str]]:
    """Kills a call at a random moment: whether it was, and what is wrong then and behind the next one."""
    restore(folder, call.before, call.times)
    was = killed(call, folder, chance.uniform(0.02, longest))
    found = list(call.wrong_after(folder, Done(9, "", ""))) if isinstance(call, Prepare) else []
    found = [line for line in found if line != "status 9"]
    if isinstance(call, Night):
        got, olds, news = call.set_of(folder), [call.before[n] for n in NIGHT_NAMES], [call.after[n] for n in NIGHT_NAMES]
        if got not in (olds, news) and not os.path.exists(os.path.join(folder, ".night-A.wav", "moves")):
            found.append(f"a mixed set, of which no note tells: {call.told(got, olds, news)}")
    return was, found + list(call.wrong_next(folder))


def tried(program: str, place: str, tally: Tally, most: int, kills: int, text: str = "") -> None:
    """Refuses calls to each command, at most so many, and kills each one so many times."""
    library = built(place)
    for kind in (Prepare, Night, Air):
        if text not in kind.name:
            continue
        call = kind(program, library, place)
        calls = call.calls(os.path.join(place, "first"))
        numbers = sorted(random.Random(1).sample(range(len(calls)), min(most, len(calls))))
        print(f"{kind.name}: {len(calls)} calls: {', '.join(f'{calls.count(name)} {name}' for name in sorted(set(calls)))}", flush=True)
        jobs = 8 if kind is Air else 2
        with concurrent.futures.ThreadPoolExecutor(jobs) as pool:
            def one(number: int) -> List[str]:
                return in_folder(place, lambda folder: list(call.wrong(folder, number, CODES[number % 2])))
            for number, found in zip(numbers, pool.map(one, numbers)):
                tally.count(f"{kind.name}, {calls[number]} of number {number} refused", found[:3])
            begin = time.monotonic()
            call.run(os.path.join(place, "first"))
            longest, chance = 1.1 * (time.monotonic() - begin), random.Random(7)
            seeds = [random.Random(chance.random()) for _ in range(kills)]
            results = list(pool.map(lambda own: in_folder(place, lambda folder: kill(call, folder, own, longest)), seeds))
        for number, (_, found) in enumerate(results):
            tally.count(f"{kind.name}, kill {number}", found[:3])
        print(f"{kind.name}: {len(numbers)} refused, {sum(was for was, _ in results)} of {kills} killed before their end", flush=True)


def in_folder(place: str, action: Callable[[str], Any]) -> Any:
    """Does something in a new folder, and removes it."""
    folder = tempfile.mkdtemp(dir=place)
    try:
        return action(os.path.join(folder, "x"))
    finally:
        shutil.rmtree(folder, ignore_errors=True)
