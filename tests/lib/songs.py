"""Songs of four minutes, and the memory in which the companion tells what becomes of them."""
import json
import os
import subprocess
import sys
import tempfile

from lib.common import COMPANION, header
from liq.reading.programs import beside

SONGS, BYTES = 12, 44100 * 4 * 240
LITTLE_KB = 20 * 1024                           # of memory, less than one song has
LONG = b"JUNK" + (32768).to_bytes(4, "little") + bytes(32768)    # a chunk behind which no head is seen
MEASURED = ("import resource, subprocess, sys\ndone = subprocess.run(sys.argv[1:])\n"
            "print(resource.getrusage(resource.RUSAGE_CHILDREN).ru_maxrss, file=sys.stderr)\nsys.exit(done.returncode)")


def differ(program):
    """All songs of a list are told by their heads alone. One with a longer head is read whole: where memory for it is refused,
    nothing is told, and the status is 5."""
    companion = beside(program, COMPANION)
    with tempfile.TemporaryDirectory(prefix="liq-songs-") as place:
        for k in range(SONGS):
            with open(os.path.join(place, f"s{k}.wav"), "wb") as file:
                file.write(header(BYTES, 2))
                file.truncate(44 + BYTES)
        with open(os.path.join(place, "l"), "w", encoding="ascii") as file:
            file.writelines(f"s{k}.wav\n" for k in range(SONGS))
        with open(os.path.join(place, "f"), "w", encoding="ascii") as file:
            file.write('output.file(%wav, "A", mksafe(playlist("l")))\n')
        told = subprocess.run([sys.executable, "-c", MEASURED, companion, "files", "f"], cwd=place, capture_output=True, check=False)
        facts, kilobytes = json.loads(told.stdout), int(told.stderr)
        if facts["bytes"] != SONGS * (44 + BYTES) or kilobytes > LITTLE_KB:
            return f"{facts['bytes']} bytes are told in {kilobytes} KiB"
        song = header(BYTES, 2)
        with open(os.path.join(place, "s0.wav"), "wb") as file:
            file.write(song[:12] + LONG + song[12:])
            file.truncate(44 + len(LONG) + BYTES)
        words = f"ulimit -v {LITTLE_KB} && exec '{companion}' files f"
        refused = subprocess.run(["sh", "-c", words], cwd=place, capture_output=True, check=False)
    return "" if (refused.returncode, refused.stdout, refused.stderr) == (5, b"", b"") else f"where memory is refused: {refused}"
