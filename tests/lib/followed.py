"""The two scripts that the theorem's page follows through its chapters (tools/followed.txt): what it says of them is what the programs
make of them. tests/run calls each of `checks`."""
import json
import os
import re
import subprocess
import sys
import tempfile
from types import SimpleNamespace
from typing import Any, Callable, Dict, Iterator, List, Set, Tuple

from lib.common import TOP, companion_path, content, left_samples, sound

SECONDS = 60
RATE = 8000
LINE = re.compile(r"(?:output|buffer|liq trace|window|E\d\d) ")
EDIT = re.compile(r"[Ww]ith `([^`]+)` in place of `([^`]+)`.*?`(E\d\d [^`]*)`")
# How a chapter names the sources that the companion tells.
WORDS = {"playlist": "a playlist of", "blank": "a blank", "fallback": "a fallback of", "single": "a single of", "clock": "a clock over",
         "buffer": "a buffer's reader"}


def page() -> Tuple[Dict[str, str], Dict[Tuple[str, str], str]]:
    """The scripts, and what each chapter says of each, as the page reads them."""
    sys.path.insert(0, os.path.join(TOP, "tools"))
    import theorem_front
    scripts, chapters = theorem_front.followed()
    return scripts, {(title, name): text for title, rows in chapters.items() for name, text in rows}


class Followed:
    """A folder with both scripts and their files, and every line that the programs printed there."""

    def __init__(self, program: str, folder: str) -> None:
        self.program, self.folder = program, folder
        self.companion = companion_path(SimpleNamespace(program=program, companion=None))
        self.scripts, self.said = page()
        self.lines: Set[str] = set()
        for name, samples in (("B", range(1, 6)), ("C", range(1, 4))):
            self.write(name, sound(samples, rate=RATE))
        self.write("L", b"B\n")
        for name, text in self.scripts.items():
            self.write(f"{name}.liq", text.encode())

    def write(self, name: str, data: bytes) -> None:
        """Writes a file of the folder."""
        with open(os.path.join(self.folder, name), "wb") as file:
            file.write(data)

    def call(self, *words: str) -> Tuple[int, List[str]]:
        """How a call of the program ended, and the lines that it printed."""
        done = subprocess.run([self.program, *words], cwd=self.folder, stdin=subprocess.DEVNULL, capture_output=True, text=True,
                              timeout=SECONDS, check=False)
        rows = (done.stdout + done.stderr).splitlines()
        self.lines.update(rows)
        return done.returncode, rows

    def asked(self, verb: str, name: str) -> Any:
        """What the companion tells of a script."""
        words = [self.companion, verb, f"{name}.liq"]
        return json.loads(subprocess.run(words, cwd=self.folder, capture_output=True, timeout=SECONDS, check=True).stdout)

    def missing(self, title: str, name: str, *wanted: str) -> Iterator[str]:
        """What a chapter does not say of a script."""
        text = self.said.get((title, name), "")
        yield from (f"{title}, {name}: {part!r} is not there" for part in wanted if part not in text)


def edits(there: Followed) -> Iterator[str]:
    """Each edit that a chapter names, of a script or of its trace, is refused by the line that it names."""
    for (title, name), text in there.said.items():
        for new, old, line in EDIT.findall(text):
            is_trace = line.startswith("E33")
            source = "other.trace" if is_trace else f"{name}.liq"
            whole = content(os.path.join(there.folder, source)).decode()
            if old not in whole:
                yield f"{title}, {name}: {source} has no {old!r}"
            there.write("edited", whole.replace(old, new, 1).encode())
            told = there.call("replay", f"{name}.liq", "2", "edited") if is_trace else there.call("check", "edited")
            if told != (1, [line]):
                yield f"{title}, {name}: {new!r} gives {told}, and not {line!r}"


def texts(there: Followed) -> Iterator[str]:
    """Tokens, sources and files."""
    for name, script in there.scripts.items():
        tokens = there.asked("tokens", name)["tokens"]
        yield from there.missing("Tokens", name, f"{len(tokens)} tokens")
        for number, text in re.findall(r"[Tt]oken (\d+) (?:is |the text )?`([^`]+)`", there.said["Tokens", name]):
            begin, end = tokens[int(number)][1:3]
            if not script[begin:].startswith(text) or end - begin > len(text):
                yield f"Tokens, {name}: token {number} is {script[begin:end]!r}"
        told = there.asked("files", name)
        wanted = [f"node {at} is {WORDS[source['op']]}" if at == 0 else f"node {at} {WORDS[source['op']]}"
                  for at, source in enumerate(told["sources"])]
        text = there.said["Evaluation", name].replace("node 2 is ", "node 2 ")
        yield from (f"Evaluation, {name}: {part!r} is not there" for part in wanted if part not in text)
        yield from there.missing("Files", name, f"one file of {told['sounds'][0]['own']} cells")


def outputs(there: Followed) -> Iterator[str]:
    """Reports, bytes, cue files and traces; each line of a program that a chapter shows was printed."""
    for words in (("check", "first.liq"), ("check", "second.liq"), ("render", "second.liq", "2", "--one-thread"),
                  ("render", "first.liq", "2", "--cues", "--trace=T")):
        if there.call(*words)[0] != 0:
            yield f"{words} fails"
    there.lines.update(content(os.path.join(there.folder, "T")).decode().splitlines())
    data = content(os.path.join(there.folder, "A"))
    cues = content(os.path.join(there.folder, "A.cue")).decode().splitlines()
    yield from there.missing("Outputs and reports", "first", f"`A` has {len(data)} bytes", data[44:64].hex(" "), f"`{cues[0]}` and `{cues[1].strip()}`")
    yield from there.missing("Streams", "first", "offers " + " ".join(map(str, left_samples(there.folder, "A")[:8])))
    trace = [row for row in re.findall(r"`([^`]+)`", there.said["Traces", "second"]) if row.startswith(("liq trace", "window"))]
    there.write("other.trace", "".join(row + "\n" for row in trace).encode())
    if there.call("replay", "second.liq", "2", "other.trace")[0] != 0:
        yield "the other record is not replayed"
    there.lines.update(trace)
    yield from there.missing("Streams", "second", "offers nothing for 8 instants, and then " + " ".join(map(str, left_samples(there.folder, "D")[8:])))


def lines(there: Followed) -> Iterator[str]:
    """No chapter shows a line that no program printed."""
    for (title, name), text in there.said.items():
        yield from (f"{title}, {name}: nothing printed {row!r}" for row in re.findall(r"`([^`]+)`", text)
                    if LINE.match(row) and row not in there.lines)


def differences(program: str) -> List[str]:
    """What the page says of the two scripts and the programs do not."""
    with tempfile.TemporaryDirectory(prefix="liq-followed-") as folder:
        there = Followed(program, folder)
        found = [*outputs(there), *edits(there), *texts(there), *lines(there)]
        there.write("full.liq", there.scripts["first"].replace('"A"', '"/dev/full"').encode())
        status = there.call("render", "full.liq", "2")
        return found + ([] if status == (4, []) else [f"an output to /dev/full ends with {status}"])


checks: Dict[str, Callable[[str], List[str]]] = {"pages/followed": differences}
