"""A run of the program at a terminal, and the lines behind it."""
import os
import re
import shutil
import signal
import subprocess
import sys
from typing import List

from liq.command import tell as say
from liq.reading.companion import Companion, NoAnswer
from liq.reading.facts import Facts
from liq.reading.programs import TOP
from liq.showing.colours import drawn
from liq.showing.usage import meant
from liq.watching.names import shown_lines, typed
from liq.watching.progress import Line
from liq.watching.runs import Run, signal_of, write_out

WORDS = {3: "a file could not be read", 4: "something could not be written",
         5: "memory was refused, or a type of the script passes its bound"}
MOST_SCRIPT = 262144   # bytes; of a longer one the first fault alone is told
SECONDS = 10           # of the help behind a run that went wrong
LOOK = 1               # seconds of each of the two looks behind a run that went well


def say_lines(text: str) -> None:
    """Writes lines that hold colours on standard error, unless the terminal is gone."""
    try:
        print(text, file=sys.stderr, flush=True)
    except OSError:
        pass


def places(said: str, companion: Companion, file: str) -> str:
    """What the program said, with the places of the script; as it is where `where` does not pass all of it on."""
    try:
        return companion.where(file, said)
    except NoAnswer:
        return said


def advised(text: str, file: str, companion: Companion) -> str:
    """The lines with what to do behind them, where that is known."""
    try:
        from liq.advising.lines import passed
        return "".join(passed(text.splitlines(keepends=True), file, companion))
    except (ImportError, OSError, UnicodeError):
        return text


def further(said: bytes, file: str, companion: Companion, program: str) -> List[str]:
    """The further faults of a script whose first one is of its text, a line for each."""
    if not re.match(rb"E(0[2-9]|1\d) ", said):
        return []
    try:
        from liq.serving.lines import as_line, text_of
        from liq.serving.looking import Look
        from liq.serving.several import faults
        text = text_of(file, MOST_SCRIPT)
        found = list(faults(text, Look(program, companion))) if text is not None else []
    except (ImportError, OSError, UnicodeError, NoAnswer):
        return []
    return [as_line(file, text or "", told) for told in found[1:]]


def explain(said: bytes, words: List[str], companion: Companion, program: str, liq: str) -> None:
    """Passes on what the program said, with places, advice, further faults and how to draw it."""
    text = advised(places(said.decode("utf-8", "surrogateescape"), companion, words[1]), words[1], companion)
    lines = shown_lines("\n".join([text.removesuffix("\n"), *further(said, words[1], companion, program)]))
    say_lines(drawn(lines))
    if words[0] == "check" and re.match(r"E2[5-8] ", text):
        say_lines(f"to see it: {liq} picture {typed(words[1])} | dot -Tsvg -o picture.svg")


def ask_doctor(program: str, words: List[str]) -> List[str]:
    """What the doctor finds, in lines."""
    doctor = os.path.join(TOP, "bin", "liq-doctor")
    more = [word for word in words[2:] if word == "--cues" or word.startswith("--trace=")]
    try:
        done = subprocess.run([sys.executable, doctor, f"--program={program}", words[1], "--strict", *more],
                              capture_output=True, encoding="utf-8", errors="surrogateescape", check=False)
    except OSError:
        return []
    lines = [line for line in done.stdout.split("\n") if line and not line.startswith("liq check ends with status")]
    return lines if done.returncode == 1 else []


def end(run: Run, program: str, words: List[str]) -> None:
    """The lines behind an end that says nothing by itself."""
    if run.status < 0:
        why = "broken off" if run.stopped else f"ended by the signal {signal.Signals(-run.status).name}"
        kept = "; each output holds what it held before, or is whole" if words[:1] in (["render"], ["replay"]) else ""
        say(f"liq: {why}{kept}")
        if run.status == -signal.SIGKILL and not run.stopped:
            say("liq: the system does so where no memory is left")
    elif run.status in WORDS and len(words) > 1:
        say(f"liq: status {run.status}: {WORDS[run.status]}")
        if run.status in (3, 4) and words[0] in ("check", "render", "replay"):
            for line in ask_doctor(program, words) or ["the doctor finds nothing wrong now"]:
                say(f"  {line}")


def silent(companion: Companion, file: str, liq: str) -> List[str]:
    """Lines on what may be silent though the script is accepted: the hours of the week, and lists with entries that are
    not played."""
    from liq.doctoring.findings import Finding
    from liq.doctoring.lists import Entries
    from liq.weeks.told import told
    hours, facts = told(companion, file, is_placed=False).sum_of, companion.files(file)
    lines = [f"{hours}; {liq} week {typed(file)} says when"] if hours else []
    if isinstance(facts, Facts):
        firsts = [next(Entries(listed, facts).lines()) for listed in facts.lists if listed.state == "read"]
        lines += [line for line in firsts if isinstance(line, Finding)]
    return lines


def end_well(companion: Companion, words: List[str], liq: str) -> None:
    """The lines behind a check or a rendering that went well."""
    quick = Companion(companion.path, LOOK)
    try:
        for line in silent(quick, words[1], liq) if words[0] in ("check", "render") else []:
            say(f"liq: {line}")
    except NoAnswer as error:
        if error.status == 5:
            file = typed(words[1])
            say(f"liq: the week and the lists take longer to look at; {liq} week {file} and {liq} doctor {file} do so")
    except ImportError:
        pass


def name_of(called: str) -> str:
    """How `liq` is typed: by its name where PATH leads to it, else as it was called."""
    found = shutil.which("liq")
    if found and os.path.realpath(found) == os.path.realpath(called):
        return "liq"
    return typed(called)


def main(arguments: List[str]) -> int:
    """Runs the program, and says what is to be said."""
    program, path, called, *words = arguments
    line, takes_output, companion = Line(), os.isatty(1), Companion(path, SECONDS)
    try:
        run = Run([program, *words], takes_output, line.show, line.clear)
    except OSError as error:
        say(f"liq: {program}: {error.strerror}")
        return 126
    printed = shown_lines(run.printed.decode("utf-8", "surrogateescape")).encode() if run.printed else b""
    is_written, liq = write_out(printed), name_of(called)
    if run.status == 2 and run.said.startswith(b"usage: "):
        say_lines(shown_lines(run.said.decode("utf-8", "surrogateescape").removesuffix("\n")))
        say(f"liq: {meant(words, companion, liq)}")
    elif run.said:
        explain(run.said, words, companion, program, liq)
    end(run, program, words)
    if run.status == 0 and is_written and len(words) > 1:
        end_well(companion, words, liq)
    return signal_of(run.status) if is_written or run.status else 4
