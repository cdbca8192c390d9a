"""What bin/liq-night does."""
import contextlib
import datetime
import io
import os
import sys
from typing import Dict, List, Optional, TextIO, Tuple

from liq.command import tell as tell_error
from liq.doctoring.looking import findings_of
from liq.failed import Usage
from liq.nights import called, dates, lacking, last, long_lists, page, parts, putting, rooms, seen, words
from liq.nights.failed import KEPT, Failed
from liq.nights.found import Found, Report
from liq.nights.library import Library, decoded_of
from liq.nights.station import Station
from liq.nights.work import Night, long_text
from liq.preparing import cache as caches
from liq.preparing import waves
from liq.reading.companion import Companion, NoAnswer, companion_of
from liq.reading.facts import Facts, Refused
from liq.reading.programs import LIQ, program_of
from liq.watching.names import shown

SOUNDS = os.path.join("liq", "sounds")         # the cache below the folder for caches of a user


def examine_files(file: str, program: str, companion: Companion, facts: Optional[Facts], found: Found) -> None:
    """Tells what the doctor finds. That all sounds are too many for one call (E24) is nothing here, as parts play
    fewer."""
    is_much = False
    more = [lambda outputs: [f"{name}.cue" for name in outputs]]
    for line in findings_of(file, program, more, facts, companion):
        is_much |= line.startswith("liq refuses the script: E24 ")
        weight = getattr(line, "weight", None)
        if is_much and line.startswith(("liq refuses", "  ")):
            continue
        if weight:
            found.tell(line, weight)
        else:
            print(shown(line), flush=True)


def cache_of(call: words.Call, facts: Facts, found: Found) -> Optional[caches.Cache]:
    """A cache where a list names what is decoded; nothing where there is none, or no program that decodes."""
    decoded = decoded_of(facts, call.loudness)
    if not decoded:
        return None
    home = os.environ.get("XDG_CACHE_HOME") or os.path.join(os.environ.get("HOME") or "/var", ".cache")
    folder = os.path.abspath(call.cache or os.path.join(home, SOUNDS))
    try:
        os.makedirs(os.path.dirname(folder), exist_ok=True)
        form = waves.Form(facts.rate, call.loudness, False, facts.file_most)
        return caches.Cache(folder, form, int(call.cache_size * 1e9))
    except (caches.Failed, OSError) as error:
        why = error.strerror if isinstance(error, OSError) else error
        found.tell(f"{len(decoded)} entries are not decoded: {why}")
        return None


def facts_seen(facts: Optional[Facts], cache: Optional[caches.Cache], found: Found) -> Optional[Facts]:
    """The facts as the doctor is to see them. What the night can do without is told here."""
    if facts is None:
        return None
    facts, lines = seen.spared(seen.with_decoded(facts) if cache else facts)
    for line in lines:
        found.tell(line)
    return facts


def facts_of(companion: Companion, file: str) -> Optional[Facts]:
    """The facts of a script; nothing where it has none, of which the doctor says more."""
    try:
        facts = companion.files(file)
    except NoAnswer:
        return None
    return None if isinstance(facts, Refused) else long_lists.whole(companion, facts)


def script_of(call: words.Call, found: Found) -> str:
    """The script of the day."""
    if call.calendar is None:
        return call.file
    calendar = dates.Calendar(call.calendar)
    for line in calendar.told + calendar.missing():
        found.tell(line)
    file = calendar.script(call.when.date, call.file)
    print(f"{call.when.date} is played by {shown(file)}", flush=True)
    return file


Looked = Tuple[Optional[Facts], lacking.Lacking, Optional[caches.Cache], Found]


def looked_at(call: words.Call, file: str, program: str, companion: Companion) -> Looked:
    """The facts of a script, what stands in for files that are lacking, the cache that its sounds take, and what was
    found."""
    found, facts, lack = Found(), facts_of(companion, file), lacking.Lacking()
    if facts:
        facts, lack, lines = lacking.of(companion, file, facts)
        for line in lines:
            found.tell(line)
    cache = cache_of(call, facts, found) if facts else None
    try:
        examine_files(file, program, companion, facts_seen(facts, cache, found), found)
        return facts, lack, cache, found
    except BaseException:
        close(cache)
        raise


def close(cache: Optional[caches.Cache]) -> None:
    """Uses a cache no more. What it cannot note, the next run finds out."""
    if cache is not None:
        with contextlib.suppress(OSError):
            cache.close()


def prepared(call: words.Call, found: Found) -> Tuple[Station, str, Library]:
    """The station, its program, and the library that it plays. Where its script is refused it is the one that was rendered
    last, if that can be played."""
    program = program_of(LIQ, call.program)
    companion = companion_of(program)
    scripts, first = last.candidates(script_of(call, found), call.goes_on), ""
    for file in scripts:
        facts, lack, cache, mine = looked_at(call, file, program, companion)
        why = mine.refusal(call, facts)
        if not why or file == scripts[-1]:
            break
        close(cache)
        first = why
    try:
        if first and not why:
            found.tell(f"{shown(scripts[0])}: {first}; {shown(file)}, which was rendered last, is played")
        found.take(mine)
        found.examine(call, facts, first)
        if facts is None:                       # which is refused
            raise AssertionError
        return Station(file, companion, facts, call.part, lack), program, Library(facts, cache)
    except BaseException:
        close(cache)
        raise


def ended(work: Night, groups: List[List[str]], found: Found, report: Report) -> str:
    """Makes the page; the last line."""
    for output, group in zip(work.station.outputs, groups):
        with contextlib.suppress(OSError):
            for name in [output] + rooms.numbered(output):
                if name not in group and os.path.exists(name):
                    print(f"{shown(name)}: is left from an earlier night")
    for line in work.library.told():
        with contextlib.suppress(OSError):      # the outputs are there, also where nobody reads that
            found.tell(line)
    told = found.stops + found.told
    try:
        made = page.page_of(work, groups, told)
    except (OSError, Failed):
        made = None                             # the outputs are there, so that nothing has failed
    count, names = len(work.borders) + 1, [name for group in groups for name in group]
    seconds, gaps = work.done / work.station.rate, work.gaps / work.station.rate
    silence = f"{gaps:.1f} s with nothing to play" if work.gaps else "never without something to play"
    report.add(length=round(seconds, 2), parts=count, gaps=round(gaps, 2), tracks=work.tracks, played=len(work.played),
               skipped=work.library.skipped(), outputs=names, found=told)
    line = (f"{long_text(seconds)} in {count} part{'s' * (count > 1)}: {', '.join(map(shown, names))}; {silence}; "
            + page.last_words(made, work.station.outputs[0] + ".html"))
    return line + (f"; found {len(told)}: {shown(told[0])}" + ", .." * (len(told) > 1) if told else "")


def night(call: words.Call, found: Found, report: Report) -> str:
    """Does it all; answers the last line."""
    station, program, library = prepared(call, found)
    report.add(script=station.file)
    try:
        rooms.examine(station.outputs, not parts.fits([int(call.seconds * station.rate) * 2 * station.width]))
        made = rooms.Rooms(station.outputs)
        try:
            report.put = putting.end_begun(made)
            for name in report.put:
                print(f"{shown(name)}: is put in its place now, as a night was killed while it did so", flush=True)
            moment = call.when.moment if call.when.is_given else None
            work = Night(station, program, call.when.second, call.seconds, made, library, moment)
            for line in work.go_on(call.when.is_dated) if call.goes_on else []:
                found.tell(line)
            work.run(call.is_anyway)
            for line in work.name_titles():
                found.tell(line)
            groups = work.put()
            if call.goes_on:
                last.keep(station.file, station.text)
            return ended(work, groups, found, report)
        finally:
            made.end()
    finally:
        close(library.cache)


def tell(line: str) -> None:
    """The last line of a night that is there. Where it cannot be printed the night is there all the same."""
    try:
        print(line, flush=True)
    except OSError as error:
        tell_error(f"night: standard output: {error.strerror}; {line}")
        os.dup2(os.open(os.devnull, os.O_WRONLY), sys.stdout.fileno())


def end_of(call: words.Call, report: Report) -> Dict[int, str]:
    """Renders a night; its status, and why where it is not 0."""
    found = Found()
    try:
        line = night(call, found, report)
        if not call.is_quiet or found.stops or found.told:
            tell(line)
        return {0: ""}
    except Failed as error:
        return {error.status: report.kept(str(error))}
    except OSError as error:
        return {4: report.kept(f"{shown(str(error.filename or 'standard output'))}: {error.strerror}; {KEPT}")}
    except KeyboardInterrupt as error:
        return {128 + int(error.args[0]): report.kept(f"broken off; {KEPT}")}
    finally:
        report.add(**({} if "found" in report.told else {"found": found.stops + found.told}))


def quiet_end_of(call: words.Call, report: Report) -> Dict[int, str]:
    """The same, where nothing is printed unless something is found or fails."""
    text, out = io.StringIO(), sys.stdout
    sys.stdout = text
    try:
        found = end_of(call, report)
    finally:
        sys.stdout = out
    if report.told["found"] or 0 not in found:
        write(text.getvalue(), out)
    return found


def write(text: str, out: TextIO) -> None:
    """Writes what was printed. Where that cannot be, the night is there all the same."""
    with contextlib.suppress(OSError):
        out.write(text)
        out.flush()


def main(arguments: List[str]) -> int:
    """Renders a night; the exit status."""
    call = words.read(arguments, datetime.datetime.now())
    if call is None:
        raise Usage(words.USAGE)
    report = Report(call)
    (status, error), = (quiet_end_of if call.is_quiet else end_of)(call, report).items()
    lines = [error, report.write(status, error)]
    if status == 0 and call.address:
        why = called.why_not(call.address)
        lines.append(why and f"{call.address}: {why}")
    for line in filter(None, lines):
        tell_error(f"night: {line}")
    return status
