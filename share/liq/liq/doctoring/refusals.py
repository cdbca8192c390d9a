"""What liq says of a script: what the facts tell, and what else it is asked."""
import re
import subprocess
from typing import Iterator, Optional

from liq.doctoring.findings import Finding, counted
from liq.doctoring.paths import WAITS, trouble_of
from liq.reading import patience
from liq.reading.companion import SECONDS, Companion, NoAnswer
from liq.reading.facts import Facts, Sound
from liq.watching.names import shown, shown_lines

STATUS = "liq check ends with status {}"
UNREAD, WAITING = STATUS.format(3), "a call waits for a file"
TOO_MUCH = "E24 files too large"


def fault_of_leaf(name: str, state: str, fault: int = 0) -> Optional[str]:
    """What a file that cannot be used ends a call with: the line of liq, the status 3, or that it waits."""
    if state == "unread":
        return WAITING if trouble_of(name) in WAITS else UNREAD
    return {"missing": f"E20 missing file {name}", "not wav": f"E21 bad audio {name}: {fault}",
            "too large": f"E23 file too large {name}"}.get(state)


def fault_of_files(facts: Facts) -> Optional[str]:
    """The first fault of a file, as a call meets them: source for source, and of a list entry for entry."""
    lists, met, total = {listed.name: listed for listed in facts.lists}, set(), 0
    for source in facts.sources:
        if source.file is None:
            continue
        listed = lists[source.file] if source.op == "playlist" else None
        found = fault_of_leaf(listed.name, listed.state) if listed else None
        if found:
            return found
        for sound in (facts.sounds[name] for name in (listed.entries if listed else [source.file])):
            if sound.state == "unread" or listed is None and not sound.is_used:
                return fault_of_leaf(sound.name, sound.state, sound.fault)
            total += 0 if sound.name in met else counted_bytes(sound)
            met.add(sound.name)
            if total > facts.most:
                return TOO_MUCH
    return None


def counted_bytes(sound: Sound) -> int:
    return sound.bytes if sound.is_used else 0


def fault_of_outputs(facts: Facts) -> Optional[str]:
    """E25, of the first output that may have nothing to play."""
    return next((f"E25 fallible output {output.name}" for output in facts.outputs
                 if not output.fallible and not facts.sources[output.source].always), None)


def weights_told(facts: Facts) -> str:
    """For how much the sounds count that are played, and which of them for most."""
    used = [sound for sound in facts.sounds.values() if sound.is_used]
    weights = sorted(((sound.bytes, sound.name) for sound in used), reverse=True)
    most = ", ".join(f"{shown(name)} with {weight >> 20}" for weight, name in weights[:3])
    return (f"{counted(len(weights), 'file counts', 'files count')} for {facts.bytes >> 20} MiB at {facts.rate} samples a "
            f"second, and {facts.most >> 20} may be: {most}")


def asked(program: str, script: str) -> "tuple[int, str]":
    """The status of `liq check`, and what it says."""
    try:
        done = patience.run([program, "check", script], SECONDS)
    except subprocess.TimeoutExpired:
        return 1, f"liq check stands still for {SECONDS} seconds"
    except (OSError, ValueError) as error:
        return 1, f"liq cannot be asked: {error}"
    return done.returncode, done.stderr.decode("utf-8", "surrogateescape").removesuffix("\n")


def places_and_advice(companion: Companion, script: str, said: str, first: str = "") -> Iterator[str]:
    """Where a fault stands in the script, and what to do, as `liq where` and `liq advice` tell it: of their lines those that
    begin so."""
    from liq.advising.lines import passed
    try:
        shown_where = companion.where(script, said + "\n")
    except NoAnswer:
        shown_where = said + "\n"
    lines = list(passed(shown_where.splitlines(keepends=True), script, companion))[1:]
    for line in shown_lines("".join(lines).removesuffix("\n")).split("\n") if lines else ():
        if line.startswith(first):
            yield Finding("  " + line)


def refusals(program: str, companion: Companion, script: str, facts: Optional[Facts]) -> Iterator[str]:
    """What `liq check` ends with, if that is something wrong. It is asked where the facts do not tell it: for a script
    without a plan, and for one whose clocks are in conflict."""
    said = fault_of_files(facts) or fault_of_outputs(facts) if facts else None
    status = 1 if said else 0
    if said is None and (facts is None or any(output.clock is None for output in facts.outputs)):
        status, said = asked(program, script)
    if said == WAITING:
        return
    if said == UNREAD:
        yield Finding(UNREAD)
    elif status == 1:
        is_fault = re.match("E[0-9]{2} ", said or "")
        yield Finding(f"liq refuses the script: {shown(said or '')}" if is_fault else shown(said or ""))
        if said == TOO_MUCH and facts is not None:
            yield Finding(f"  {weights_told(facts)}")
        elif said and is_fault and not re.match("E2[0-4] ", said):      # what is wrong with files is told already
            yield from places_and_advice(companion, script, said)
        elif said and said.startswith("E20 "):
            yield from places_and_advice(companion, script, said, "help: ")
    elif status == 5:
        yield Finding(f"{STATUS.format(5)}: memory is refused, or a type of the script passes its bound")
    elif status:
        yield Finding(STATUS.format(status))
