"""Scripts at both sides of each limit that a script can meet: the largest that is taken, and the first that is refused.

The limits are those of docs/faults.md and docs/builtins.md. At 8000 samples a second a decimal of a script can name each
count of samples exactly, as a sample lasts 125 millionths.
"""
import os
import subprocess
import tempfile

SECONDS = 60
OUTPUT = 'output.file(%wav, "A", blank())\n'
TAKEN = "output A clock main infallible\n"
SAMPLE = 125                    # millionths of a second that a sample lasts at 8000 a second


def rate(samples):
    return f'set("frame.audio.samplerate", {samples})\n'


def lasting(samples):
    """A decimal of so many samples at 8000 a second."""
    return f"{samples * SAMPLE // 10 ** 6}.{samples * SAMPLE % 10 ** 6:06}"


def tick(samples):
    return rate(8000) + f'set("frame.duration", {lasting(samples)})\n'


def source_of(text):
    return rate(8000) + f"x = {text}\n" + OUTPUT


def chunks(samples):
    """A buffer of so many chunks, of a sample each."""
    return tick(1) + f"x = buffer(buffer=0., max={lasting(samples)}, blank())\n" + OUTPUT


def outputs(count):
    return "s = blank()\n" + "".join(f'output.file(%wav, "{k}", s)\n' for k in range(count))


def crossfades(count):
    return "s = blank()\n" + "s = crossfade(s)\n" * count + OUTPUT


def calls(count):
    """A chain of defs of which each calls the one before."""
    return "def f() = 1 end\n" + "def f() = f() end\n" * (count - 1) + "x = f()\n" + OUTPUT


def clocks(count):
    """So many clocks: that of the output, and one for each buffer but for it."""
    return "".join(f'b{k} = buffer(clock(id="c{k}", blank()))\n' for k in range(count - 1)) + OUTPUT


def work(cost):
    """Statements that cost so much: a list of 999 numbers costs 1000, and so does its name; the output costs 3."""
    lists, rest = divmod(cost - 3 - 1000, 1000)
    return "x = [" + ", ".join(["1"] * 999) + "]\n" + "y = x\n" * lists + "z = 1\n" * rest + OUTPUT


def brackets(depth):
    return "x = " + "[" * depth + "1" + "]" * depth + "\n" + OUTPUT


def bytes_of(size):
    return "x=1;" * (size // 4) + " " * (size % 4)


# A limit: what makes a script of a number, the last number that is taken, and the first that is refused, each with the front
# of what a check prints.
BORDERS = {
    "the least rate": (lambda n: rate(n) + OUTPUT, (8000, TAKEN), (7999, "E13 statement 1: bad setting\n")),
    "the greatest rate": (lambda n: rate(n) + OUTPUT, (192000, TAKEN), (192001, "E13 statement 1: bad setting\n")),
    "samples of a tick": (lambda n: tick(n) + OUTPUT, (65536, TAKEN), (65537, "E13 statement 2: bad setting\n")),
    "a tick of a sample": (lambda n: tick(n) + OUTPUT, (1, TAKEN), (0, "E13 statement 2: bad setting\n")),
    "overlap": (lambda n: source_of(f"crossfade(duration={lasting(n)}, blank())"), (4194304, TAKEN),
                (4194305, "E19 too large: overlap\n")),
    "prefill": (lambda n: source_of(f"buffer(buffer={lasting(n)}, blank())"), (4194304, TAKEN),
                (4194305, "E19 too large: prefill\n")),
    "capacity": (chunks, (65536, TAKEN), (65537, "E19 too large: capacity\n")),
    "outputs": (outputs, (64, "".join(f"output {k} clock main infallible\n" for k in range(64))),
                (65, "E19 too large: outputs\n")),
    "children": (lambda n: f"s = blank()\nx = add([{'s, ' * (n - 1)}s])\n" + OUTPUT, (65535, TAKEN),
                 (65536, "E19 too large: children\n")),
    "crossfades": (crossfades, (4, TAKEN), (5, "E19 too large: crossfades\n")),
    "calls": (calls, (16, TAKEN), (17, "E19 too large: calls\n")),
    "sources": (lambda n: "blank()\n" * (n - 1) + OUTPUT, (4096, TAKEN), (4097, "E16 too many sources\n")),
    "work": (work, (999999, TAKEN), (1000000, "E15 statement 1997: too much work\n")),
    "depth": (brackets, (200, TAKEN), (201, "E07 too deep at token 202\n")),
    "bytes of a script": (bytes_of, (1048576, "E17 no output\n"), (1048577, "E05 script too long\n")),
    "clocks": (clocks, (64, "output A clock main infallible\nbuffer 0 from c0 to main "), (65, "E28 too many clocks\n")),
}


def told(program, text):
    """The status of a check of a script, and what it prints."""
    with tempfile.TemporaryDirectory(prefix="liq-case-") as place:
        with open(os.path.join(place, "f.liq"), "w", encoding="utf-8") as file:
            file.write(text)
        done = subprocess.run([program, "check", "f.liq"], cwd=place, stdin=subprocess.DEVNULL, capture_output=True,
                              timeout=SECONDS)
    return done.returncode, (done.stdout + done.stderr).decode()


def differences(program):
    """The borders that stand elsewhere."""
    found = []
    for limit, (made, *sides) in BORDERS.items():
        for number, wanted in sides:
            status, text = told(program, made(number))
            if not text.startswith(wanted) or status != wanted.startswith("E"):
                found.append(f"{limit}, {number}: status {status}, {text[:80]!r}, wanted {wanted[:80]!r}")
    return found
