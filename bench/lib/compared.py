"""The sounds of two programs, and what their comparison is in words. A cell is a sample of each side."""
import os
import struct

from lib.both_scripts import FRAME


def content(path):
    with open(path, "rb") as file:
        return file.read()


def write(path, data):
    os.makedirs(os.path.dirname(path), exist_ok=True)
    with open(path, "wb") as file:
        file.write(data)


def sound(path):
    """The number of sides of a WAV file of 16 bits, and its samples, as far as they are there."""
    if not os.path.exists(path):
        return 2, []
    data = content(path)
    sides = struct.unpack_from("<H", data, 22)[0]
    data = data[data.index(b"data") + 8:]
    return sides, list(struct.unpack_from(f"<{len(data) // 2}h", data[:len(data) // 2 * 2]))


def first_difference(one, other, sides):
    return next((k // sides for k, (a, b) in enumerate(zip(one, other)) if a != b), None)


def shifted(theirs, ours, sides):
    """By how many cells ours come later in theirs, if they do, and at least four frames of both can be compared."""
    theirs = theirs[:len(ours)]
    for cells in range(1, len(theirs) // sides - 4 * FRAME):
        kept = theirs[cells * sides:]
        if kept == ours[:len(kept)]:
            return cells
    return None


def result(theirs, ours):
    """What the comparison of both sounds is, in words."""
    (their_sides, there), (sides, here) = theirs, ours
    if their_sides != sides:
        return f"{their_sides} sides there, {sides} here"
    count = len(here)
    if len(there) < count:
        return f"there {len(there) // sides} of {count // sides} cells"
    there = there[:count]
    if there == here:
        return "same bytes"
    units = [abs(a - b) for a, b in zip(there, here)]
    changed = sum(map(bool, units))
    if max(units) == 1:
        ways = {abs(a) < abs(b) for a, b in zip(there, here) if a != b}
        told = {(True,): ", there nearer to zero", (False,): ", there further from zero"}.get(tuple(ways), "")
        return f"1 off in {changed} of {count} samples" + told
    later = shifted(there, here, sides)
    if later is not None:
        return f"the same, {later} cells later there"
    silent = shifted(here, there, sides)
    if silent is not None and not any(here[:silent * sides]):
        return f"the same, here behind {silent} cells of silence"
    first = first_difference(there, here, sides)
    return f"differs from cell {first} on, in {changed} of {count} samples, at most by {max(units)}"
