"""Words, and the status of a call of them, each by the table of forms in docs/formats.md. tests/run compares it, and what each call leaves:
where the words have no form the usage line alone, where the script is not there its line alone, and else a report alone."""
import os
import subprocess
import tempfile

from lib.common import usage_of

SECONDS = 60

# Two outputs in one clock. There is no script `g`.
SCRIPT = b"""set("frame.audio.samplerate", 8000)
set("frame.duration", 0.001)
s = blank()
output.file(%wav, "A", s)
output.file(%wav, "C", clock(id="b", s))
"""

DONE = (
    "check f", "render f 1", "render f 1 --one-thread", "render f 1 --start=1:00:00:00 --one-thread", "render f 1 --window=1000000",
    "render f 1 --start=1:00:00:00 --window=1", "render f 1 --trace=t", "render f 1 --cues", "render f 1 --one-thread --cues", "make 0 1",
    "make 18446744073709551615 100",
)
NO_SCRIPT = ("check g", "render g 1", "render g 1 --one-thread", "render g 1 --window=3 --trace=A")
NO_FORM = (
    "render", "render f 1 --window=0", "render f 1 --window=1000001", "render f 1 --window=01", "render f 1 --window=1 --window=1",
    "render f 1 --one-thread --window=2", "render f 1 --window=2 --one-thread", "check f --window=2", "render f 1 --trace=",
    "render f 1 --trace=t --trace=t", "render f 1 --trace=t --one-thread", "check f --trace=t", "render f 1 --cues --cues", "check f --cues",
    "make 1 1 --cues", "make 18446744073709551616 1", "make 01 1", "make 1 0", "make 1 101", "make 1", "make 1 1 1",
)


def trouble_of(program, words, status, line):
    """What is wrong with a call of these words, where this line is wanted on `err`, or a report."""
    with tempfile.TemporaryDirectory(prefix="liq-case-") as place:
        with open(os.path.join(place, "f"), "wb") as file:
            file.write(SCRIPT)
        done = subprocess.run([program, *words.split(" ")], cwd=place, stdin=subprocess.DEVNULL, capture_output=True, timeout=SECONDS)
        is_written = os.path.exists(os.path.join(place, "A"))
    is_well = (done.returncode, done.stderr) == (status, line) and bool(done.stdout) == (status == 0)
    if is_well and is_written == (status == 0 and words.startswith("render")):
        return ""
    return f"{words}: status {done.returncode}, stdout {done.stdout!r}, stderr {done.stderr!r}, A {is_written}"


def differences(program):
    rows = [(words, 0, b"") for words in DONE] + [(words, 1, b"E01 no script\n") for words in NO_SCRIPT]
    rows += [(words, 2, usage_of(program)) for words in NO_FORM]
    return [trouble for row in rows if (trouble := trouble_of(program, *row))]
