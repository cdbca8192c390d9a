"""What is wrong with a sound that a script names."""
import os
from typing import Optional

from liq.doctoring.formats import trouble_of_fault
from liq.doctoring.paths import absence_of, says, trouble_of
from liq.reading.facts import Facts, Sound

COMMON = 44100      # samples a second, of two sides of 16 bits, of which minutes are told where the file does not tell them
HEADER = 4096       # bytes that are left for what stands before the samples


def parts_of(facts: Facts, rate: int, sides: int) -> str:
    """What to do about a file that is too long."""
    return (f"cut it into files of at most {(facts.file_most - HEADER) // (2 * sides * rate) // 60} minutes, "
            "or let liq prepare do so")


def trouble_of_size(sound: Sound, facts: Facts) -> str:
    """Why a sound is too large: its file is, or what is made of it at the rate of the script."""
    if not sound.rate or os.stat(sound.name).st_size > facts.file_most:
        return f"has more than {facts.file_most} bytes; {parts_of(facts, max(facts.rate, COMMON), 2)}"
    return (f"has more than {facts.file_most} bytes at {facts.rate} samples a second; "
            f"{parts_of(facts, facts.rate, sound.sides)}")


def trouble_of_sound(sound: Sound, facts: Facts) -> Optional[str]:
    """Why a file is not played, or nothing where it is."""
    try:
        if sound.is_used:
            return None
        if sound.state == "missing":
            return absence_of(sound.name)
        if sound.state == "too large":
            return trouble_of_size(sound, facts)
        if sound.state == "not wav":
            return trouble_of_fault(sound.name, sound.fault)
    except OSError as error:
        return says(error)
    return trouble_of(sound.name) or "could not be read"
