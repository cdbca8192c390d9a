"""What bin/liq-prepare does."""
import os
import re
import shutil
from datetime import datetime
from typing import Any, Callable, Dict, Iterator, List, NamedTuple, Optional, Tuple

from liq.command import Stopped, tell
from liq.failed import Broken, Failed, Usage
from liq.preparing import names, sources, waves
from liq.preparing.programs import Programs
from liq.preparing.record import NAME, ROOM
from liq.preparing.work import Found, Work
from liq.reading.companion import Companion, companion_of
from liq.reading.facts import Facts, Refused
from liq.reports import add_line, last_of
from liq.watching.names import shown

USAGE = ("usage: liq prepare [--rate=HERTZ] [--loudness=LUFS] [--whole-seconds] [--shuffle=SEED] [--jobs=N] [--prune] "
         "[--strict] [--all-gone] [--quiet] [--report=FILE] FOLDER|LIST.m3u OUT")
BOUNDS = {"shuffle": (0, (1 << 64) - 1), "jobs": (1, 64)}
LOUDNESS = (-40, -5)           # LUFS
FLAGS = {"--whole-seconds": "whole", "--prune": "prune", "--strict": "strict", "--all-gone": "all_gone",
         "--quiet": "quiet"}
Options = Dict[str, Any]
LISTS, FILES = 20, 1000        # how many lists and files are told each by a line


def examined(source: str, out: str) -> None:
    """Fails where a run cannot begin."""
    for program in ("ffmpeg", "ffprobe"):
        if not shutil.which(program):
            raise Failed(f"{program} is missing: install the package ffmpeg", 3)
    if not os.path.exists(source):
        raise Failed(f"{shown(source)}: is not there", 3)
    if not names.is_held(out):
        raise Failed(f"{shown(out)}: no list can hold this name", 2)
    if out.startswith("#"):
        raise Failed(f"{shown(out)}: a line of a list that begins so is a remark; write ./ before it", 2)
    inner, outer = os.path.realpath(source), os.path.realpath(out)
    if os.path.isdir(source) and f"{inner}/".startswith(outer.rstrip("/") + "/"):
        raise Failed(f"{shown(out)}: holds what it is made of", 2)
    if not os.path.isdir(source) and not os.path.isfile(source):
        raise Failed(f"{shown(source)}: is neither a folder nor a list", 3)
    if os.path.isdir(out) and os.listdir(out) and not os.path.exists(os.path.join(out, NAME)):
        raise Failed(f"{shown(out)}: holds files that were not made by prepare; name a new folder", 4)


class Input(NamedTuple):
    """The sounds, how many other files lie between them, lines on what is left out, how the list of all is called, which
    other sounds may be there, since their folder could not be read, and the texts that a list has before its names."""
    found: Found
    others: int
    told: List[str]
    whole: str
    is_unread: Callable[[str], bool] = lambda _: False
    texts: Dict[str, Dict[str, str]] = {}


def found_in(source: str, out: str) -> Input:
    """What is to be made."""
    try:
        if os.path.isdir(source):
            below = sources.Below(source, out)
            return Input(below.found, below.others, below.told, "all.m3u", below.is_unread)
        whole = names.plain(os.path.splitext(os.path.basename(source))[0]) + ".m3u"
        named = sources.of_list(source)
        return Input(named.found, 0, named.told, whole, texts=named.texts)
    except OSError as error:
        raise Failed(f"{shown(str(error.filename or source))}: {error.strerror}", 3) from None


def some_of(lines: List[str], most: int, what: str) -> Iterator[str]:
    """The first of some lines, and how many more there are."""
    yield from lines[:most]
    if len(lines) > most:
        yield f"and {len(lines) - most} more {what}"


def gone_text(work: Work, found: Found, prunes: bool) -> str:
    """What is told of sounds that are no more there; nothing where there are none."""
    gone = len(work.gone(found))
    if prunes and not found:
        return "no sound is there, so nothing is removed"
    if prunes and any(map(work.is_unread, work.record.sources)):
        return "a folder could not be read, so nothing is removed"
    if prunes:
        removed = work.prune(found)
        return f"{removed} file{'s' * (removed != 1)} removed, of sounds that are gone" if removed else ""
    if not gone:
        return ""
    place = "in old lists" if work.old_lists() else "in no list"
    are = "s are" if gone > 1 else " is"
    return f"{gone} sound{are} no more there; what was made is left, {place}; --prune removes it"


class Done(NamedTuple):
    """What was found, lines on what was made, its status, and how many sounds were made and kept."""
    found: List[str]
    lines: List[str]
    status: int
    made: int
    kept: int


def prepared(source: str, out: str, options: Options, companion: Companion, limits: Facts) -> Done:
    """Does the work, by the limits of liq."""
    examined(source, out)
    os.makedirs(out, exist_ok=True)
    given = found_in(source, out)
    form = waves.Form(limits.rate, options["loudness"], options["whole"], limits.file_most)
    work = Work(out, form, Programs(), companion)
    try:
        work.told += given.told
        work.texts = given.texts
        found = work.with_unseen(given.found, given.is_unread)
        work.examine(found, options["all_gone"])
        work.run(found, options["jobs"])
        lines, size = work.write_lists(found, options["shuffle"], given.whole, os.path.isdir(source), limits)
        if os.path.isdir(source) and not options["prune"]:
            work.tell_old_lists()
        long_ones, gone = work.long_ones(found), gone_text(work, found, options["prune"])
    finally:
        work.end()
    more = [*some_of(long_ones, LISTS, "long sounds"), *some_of(lines, LISTS, "lists")]
    if gone:
        more.append(gone)
    rest = f", {given.others} other files passed over" if given.others else ""
    more.append(f"{work.made} made, {work.kept} as before, {len(work.told)} to look at{rest}; "
                f"{size.seconds / 3600:.1f} h, {size.bytes / 1e9:.1f} GB")
    is_bad = work.left or not size.bytes or options["strict"] and work.told
    return Done(list(some_of(work.told, FILES, "files")), more, 1 if is_bad else 0, work.made, work.kept)


def news_of(done: Done, path: Optional[str]) -> List[str]:
    """What was found and was not found by the run before, as its line in the report tells; all where there is none."""
    before = last_of(path).get("found", []) if path else []
    return [line for line in done.found if line not in before]


def number_of(word: str) -> Optional[Tuple[str, float]]:
    """An option with a number: its name and value; nothing where it is none."""
    match = re.fullmatch(r"--(rate|shuffle|jobs)=([0-9]{1,20})", word)
    if match:
        least, most = BOUNDS.get(match[1], (0, int(match[2])))
        return (match[1], int(match[2])) if least <= int(match[2]) <= most else None
    match = re.fullmatch(r"--loudness=(-[0-9]{1,2}(\.[0-9])?)", word)
    if match and LOUDNESS[0] <= float(match[1]) <= LOUDNESS[1]:
        return "loudness", float(match[1])
    return None


def option_of(word: str) -> Optional[Tuple[str, object]]:
    """An option: its name and value; nothing where it is none."""
    if word in FLAGS:
        return FLAGS[word], True
    if word.startswith("--report=") and word != "--report=":
        return "report", word.partition("=")[2]
    return number_of(word)


def words_of(words: List[str]) -> Optional[Tuple[str, str, Options]]:
    """The source, the folder and the options; nothing where the words are wrong."""
    options: Options = {"rate": None, "loudness": None, "shuffle": None, "report": None, "jobs": min(4, os.cpu_count() or 1),
               **dict.fromkeys(FLAGS.values(), False)}
    rest: List[str] = []
    for word in words:
        pair = option_of(word)
        if pair:
            options[pair[0]] = pair[1]
        elif word.startswith("--"):
            return None
        else:
            rest.append(word)
    return (rest[0], rest[1].rstrip("/") or "/", options) if len(rest) == 2 and all(rest) else None


def written(lines: List[str]) -> bool:
    """Prints lines; whether that was possible."""
    data = "".join(line + "\n" for line in lines).encode(errors="backslashreplace")
    try:
        while data:
            data = data[os.write(1, data):]
        return True
    except OSError as error:
        tell(f"prepare: standard output: {error.strerror}")
        return False


def ended(done: Done, report: Optional[str], is_quiet: bool) -> int:
    """Prints what is told, and notes it in the report; the exit status."""
    news = news_of(done, report)
    trouble = add_line(report, {"time": datetime.now().astimezone().isoformat(timespec="seconds"), "status": done.status,
                                "made": done.made, "kept": done.kept, "found": done.found, "new": news}) if report else None
    if trouble:
        tell(f"prepare: {shown(str(report))}: {trouble}; the run is not noted there")
    has_written = written(news if is_quiet else [*done.found, *done.lines])
    return 4 if trouble or not has_written else done.status


def main(words: List[str]) -> int:
    """Makes a library; the exit status."""
    call = words_of(words)
    if call is None:
        raise Usage(USAGE)
    companion = companion_of()
    limits = companion.limits(call[2]["rate"])
    if isinstance(limits, Refused):
        raise Usage(USAGE)
    try:
        done = prepared(*call, companion, limits)
        return ended(done, call[2]["report"], call[2]["quiet"])
    except OSError as error:
        place = str(error.filename or call[1]).partition(f"/{ROOM}")[0]
        raise Failed(f"{place}: {error.strerror}", 4) from None
    except Broken as error:
        raise Failed(str(error), 3) from None
    except Stopped:
        tell("prepare: broken off; what was made so far is kept, and the next run goes on from there")
        raise
