"""Texts that are traces or not, each by the form in docs/formats.md: what a `replay` tells of each. tests/run compares the lines."""
import subprocess
import tempfile

SECONDS = 60

SCRIPT = b'output.file(%wav, "A", mksafe(buffer(blank())))\n'

# A trace of two windows of two buffers.
HEAD = b"liq trace 1 3 2 2\n"
LINES = (
    b"window 0 buffer 0 puts AF takes -\n",
    b"window 0 buffer 1 puts - takes GE\n",
    b"window 1 buffer 0 puts A takes G\n",
    b"window 1 buffer 1 puts - takes -\n",
)
WHOLE = HEAD + b"".join(LINES)

TRACES = (
    WHOLE,
    b"liq trace 1 0 16 1\n",
    b"liq trace 1 0 1 4096\n",
    b"liq trace 1 1000000000 1 0\n",
    b"liq trace 1 1000000000 1000000 0\n",
    b"liq trace 1 1 16 1\nwindow 0 buffer 0 puts A takes E\n",
    b"liq trace 1 1 16 1\nwindow 0 buffer 0 puts A takes GE\n",
    b"liq trace 1 2 1 1\nwindow 0 buffer 0 puts AAAF takes GGEG\nwindow 1 buffer 0 puts F takes -\n",
)

# First lines that are none.
FIRST_LINES = (
    b"", b"\n", b"liq trace 1 0 16 1", b"liq trace 1 0 16 1\r\n", b"liq trace 1 0 16 1 \n", b" liq trace 1 0 16 1\n",
    b"liq  trace 1 0 16 1\n", b"liq trace 1 0 16  1\n", b"liq trace 1\t0 16 1\n", b"LIQ trace 1 0 16 1\n", b"liq trace 2 0 16 1\n",
    b"liq trace 01 0 16 1\n", b"liq trace 1 0 16\n", b"liq trace 1 0 16 1 0\n", b"liq trace 1  16 1\n", b"liq trace 1 00 16 1\n",
    b"liq trace 1 01 16 1\n", b"liq trace 1 0 016 1\n", b"liq trace 1 0 16 01\n", b"liq trace 1 -1 16 1\n", b"liq trace 1 +1 16 0\n",
    b"liq trace 1 1000000001 16 0\n", b"liq trace 1 18446744073709551616 16 0\n", b"liq trace 1 0 0 1\n", b"liq trace 1 0 1000001 1\n",
    b"liq trace 1 0 16 4097\n", b"\xef\xbb\xbfliq trace 1 0 16 1\n", b"liq trace 1 \xc2\xb9 16 0\n", b"liq trace 1 0 16 1\x00\n",
    b"liq trace 1 0\xc2\xa016 1\n",
)

# Lines behind `liq trace 1 1 16 1` that are none.
LATER_LINES = (
    b"", b"\n", b"window 0 buffer 0 puts A takes X\n", b"window 0 buffer 0 puts A takes E", b"window 0 buffer 0 puts A takes E\r\n",
    b"window 0 buffer 0 puts A takes E \n", b"window 0 buffer 0  puts A takes E\n", b"window 0 buffer 0 puts A  takes E\n",
    b" window 0 buffer 0 puts A takes E\n", b"Window 0 buffer 0 puts A takes E\n", b"window 00 buffer 0 puts A takes E\n",
    b"window 0 buffer 00 puts A takes E\n", b"window 1 buffer 0 puts A takes E\n", b"window 0 buffer 1 puts A takes E\n",
    b"window 18446744073709551616 buffer 0 puts A takes E\n", b"window 0 buffer 18446744073709551616 puts A takes E\n",
    b"window  buffer 0 puts A takes E\n", b"window 0 puts A takes E\n", b"window 0 buffer 0 takes E puts A\n", b"window 0 buffer 0 puts A\n",
    b"window 0 buffer 0 puts  takes E\n", b"window 0 buffer 0 puts A takes \n", b"window 0 buffer 0 puts -- takes E\n",
    b"window 0 buffer 0 puts -A takes E\n", b"window 0 buffer 0 puts A- takes E\n", b"window 0 buffer 0 puts A takes G-\n",
    b"window 0 buffer 0 puts a takes E\n", b"window 0 buffer 0 puts G takes E\n", b"window 0 buffer 0 puts A takes F\n",
    b"window 0 buffer 0 puts A,F takes E\n", b"window 0 buffer 0 puts \xc3\x84 takes E\n", b"window 0 buffer 0 puts A\xff takes E\n",
    b"window 0 buffer 0 puts A takes \x00\n", b"\x80window 0 buffer 0 puts A takes E\n",
)

# Lines of the whole trace by their numbers, behind its first, where another byte stands as it is; and the line that is told.
ORDERS = (
    (b"1122", 2), (b"1233", 4), (b"1134", 2), (b"12334", 4), (b"2234", 1), (b"134", 2), (b"124", 3), (b"123", 4), (b"234", 1), (b"2134", 1),
    (b"1324", 2), (b"1243", 3), (b"12341", 5), (b"1234\n", 5), (b"1234x", 5), (b"11234", 2), (b"12344", 5), (b"1x34", 2), (b"123\x80", 4),
)


def lined(numbers):
    return HEAD + b"".join(LINES[byte - ord("1")] if byte in b"1234" else bytes([byte]) for byte in numbers)


def rows():
    """Each text, with the line that is the first outside the form, or nothing where it is a trace."""
    yield from ((text, None) for text in TRACES)
    yield from ((text, 0) for text in FIRST_LINES)
    yield from ((b"liq trace 1 1 16 1\n" + text, 1) for text in LATER_LINES)
    yield from ((lined(numbers), line) for numbers, line in ORDERS)
    # a trace that is cut is told at the line that is not whole
    yield from ((WHOLE[:length], WHOLE[:length].count(b"\n")) for length in range(len(WHOLE)))


def differences(program):
    found = []
    with tempfile.TemporaryDirectory(prefix="liq-case-") as place:
        with open(f"{place}/f", "wb") as file:
            file.write(SCRIPT)
        for text, line in rows():
            with open(f"{place}/T", "wb") as file:
                file.write(text)
            told = subprocess.run([program, "replay", "f", "1", "T"], cwd=place, stdin=subprocess.DEVNULL, capture_output=True, timeout=SECONDS)
            is_told = told.stderr == b"E32 not a trace: line %d\n" % line if line is not None else told.stderr in (b"", b"E33 trace does not fit\n")
            if told.returncode not in (0, 1) or not is_told:
                found.append(f"{text!r}: status {told.returncode}, stderr {told.stderr!r}")
    return found
