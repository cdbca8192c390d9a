"""Texts that are scripts or not, each by the page docs/grammar.md and the tables of docs/language.md: what `check` tells of
each. tests/run compares the lines.

Bytes and tokens are counted from 0; a name and the `(` directly behind it are one token. Where nothing is wanted, the text
is a script: it is told by no fault of its bytes, its tokens and its grammar, but by one of a later step, or by none.
"""
import re
import subprocess
import tempfile

SECONDS = 60

# A line of the steps before names and types.
OF_A_TEXT = re.compile(b"E0[1-7] ")

SCRIPTS = (
    b"", b"x = -3", b"x = 1.", b"x = (1, 2)", b"x = ()", b"x = (1)", b"x = [1, -2, [3]]", b"f(a = 1, b)", b"f(a = -2, 7);", b"f(a == 1)",
    b"x = {22h-6h}", b"x = {2h or not true and 3h-4h or false}", b"x = {not (2h or true) and 5h}",
    b"x = {not (2h or 3h-4h and true)}", b"def f(~a, ~b=1, c) = x = 1; y = x; y end", b"def f(~a, ~b=1, c) x = 1 y = x y end",
    b"x = if a then b else c end", b"if a then b else c end", b"x = if a then 1 else 2 end", b"x = %wav(samplesize=16)",
    b"def f() = x = %wav (1, 2) end", b"def f() = x = %wav(samplesize) end", b"def f() = x = %wav (samplesize = 16) y end",
    b"def f() = a or b and not c < 1 + 2 * 3 end", b"x = 1 y = 2; f(x)", b'x = [1, -2, "a"] and not true or false',
    b"x = 1 + 2 * 3 - 4 / 5 <= 6", b"x = 1 # c \xff\"\ny = 2", b"#\n#\nx = 1# \xc3(",
)

# Each text, and the token to which no script begins with its tokens.
SYNTAX = (
    (b"x = 1 - -2", 4), (b"x = -2 - 1", 4), (b"x =", 2), (b"x = (1", 4), (b"x = (", 3), (b"x = 1 y = (1 + (", 9), (b"x = (1,)", 5),
    (b"x = (1, 2) x", 8), (b"x = {}", 3), (b"x = {2h - 3h or}", 7), (b"x = {2h - true and 3h}", 5), (b"x = {not not true}", 4),
    (b"x = {(2h or true}", 7), (b"x = {(2h 3h)}", 5), (b"x = %wav(other=16)", 4), (b"x = %wav (y)", 4), (b"x = %wav (1, 2)", 4),
    (b"def f() = x = %wav (1 +)", 10), (b"x = not not a", 3), (b"x = a < b < c", 5), (b"x = 1;; y = 2", 4), (b"def f() = -1 end", 4),
    (b"x = -3 * 2", 4), (b"f(1) + 2", 3), (b"f(a = 1 b)", 4), (b"x = f(a = 1 b)", 6), (b"if a then 1 end", 4), (b"x = if a then 1 end", 6),
)

# Each text, and the fault of its bytes: the first byte that cannot go on, a text that is not closed, or a number past its bounds.
BYTES = (
    (b"a.", b"E02 bad byte at 1"), (b".5", b"E02 bad byte at 0"), (b"x!", b"E02 bad byte at 1"), (b"\xc3\xa9", b"E02 bad byte at 0"),
    (b"-9223372036854775808", b"E04 number too large at 1"), (b"1.2.3", b"E02 bad byte at 3"), (b"1.0000000", b"E04 number too large at 0"),
    (b"x 1000000000.000001", b"E04 number too large at 2"), (b"22h30.5", b"E02 bad byte at 5"), (b"8w", b"E04 number too large at 0"),
    (b"25h", b"E04 number too large at 0"), (b"1w61s", b"E04 number too large at 0"), (b"22h61", b"E04 number too large at 0"),
    (b'"\\x"', b"E02 bad byte at 1"), (b'"\\\xc3\xa9"', b"E02 bad byte at 1"), (b' "ab', b"E03 string not closed at 1"),
    (b'"ab\\', b"E03 string not closed at 0"), (b'"ab\\"', b"E03 string not closed at 0"), (b'"a\nb', b"E02 bad byte at 2"),
    (b'"\t"', b"E02 bad byte at 1"), (b'"\x7f"', b"E02 bad byte at 1"), (b'"\xe2\x82"', b"E02 bad byte at 1"), (b'"\xc0\xaf"', b"E02 bad byte at 1"),
    (b'"a\xed\xa0\x80"', b"E02 bad byte at 2"), (b'"\xf4\x90\x80\x80"', b"E02 bad byte at 1"), (b"a\x0b", b"E02 bad byte at 1"),
    (b'1.0000000 $ "', b"E04 number too large at 0"), (b"9" * 400, b"E04 number too large at 0"), (b"$" * 1048576, b"E02 bad byte at 0"),
    (b"$" * 1048577, b"E05 script too long"), (b" " * 1048576, b"E17 no output"), (b"x = " + b"0" * 400, b"E17 no output"),
    (b"x = 9223372036854775807 y = 1000000000.000000", b"E17 no output"), (b"x = {7w24h60m60s}", b"E17 no output"),
)

# What opens a level and how often, what stands within all of them, what closes one and how often, and the line.
NESTED = (
    (b"(", 200, b"1", b")", 200, None),
    (b"[", 200, b"1", b"]", 200, None),
    (b"f(", 200, b"1", b")", 200, None),
    (b"if ", 200, b"a", b" then b else c end", 200, None),
    (b"(", 200, b"1", b")", 199, b"E06 syntax at token 402"),
    (b"(", 201, b"1", b")", 201, b"E07 too deep at token 202"),
    (b"[", 201, b"1", b"]", 201, b"E07 too deep at token 202"),
    (b"[", 200, b"", b"]", 200, None),
    (b"[", 201, b"", b"]", 201, b"E07 too deep at token 202"),
    (b"(", 201, b"", b")", 0, b"E07 too deep at token 202"),
    (b"(", 200, b"+ (1", b")", 201, b"E06 syntax at token 202"),
    (b"(", 200, b"1 (1", b")", 201, b"E06 syntax at token 203"),
)

# Of these the last statement is wrong: it is the 262144th, and its token the last but one.
MANY = b"x=1;" * 262143 + b"x=y;", b"E08 statement 262144: unknown name at token 1048574"

# `and` binds before `or`, and each product before a sum: the name of the output says what was read.
READ_AS = (
    (b"true or true and false", b"A"), (b"(true or true) and false", b"B"), (b"not false and false", b"B"), (b"not (false and false)", b"A"),
    (b"1 + 2 * 3 == 7", b"A"), (b"(1 + 2) * 3 == 7", b"B"), (b"7 - 2 - 1 == 4", b"A"), (b"7 - (2 - 1) == 4", b"B"), (b"8 / 4 / 2 == 1", b"A"),
)


# Whether a predicate is always true by its form, so that a switch over it always has something to play.
ALWAYS = ((b"0h-24h", False), (b"not (12h and false)", True), (b"12h or true", True), (b"not 12h or 12h", False), (b"true and not false", True))


def rows():
    """Each text, with the line that is wanted, or nothing where it is a script."""
    yield from BYTES
    yield from ((text, None) for text in SCRIPTS)
    yield from ((text, b"E06 syntax at token %d" % token) for text, token in SYNTAX)
    for opened, openings, within, closed, closings, line in NESTED:
        yield b"x = " + opened * openings + within + closed * closings, line
    yield MANY


def check(program, place, text):
    with open(f"{place}/f", "wb") as file:
        file.write(text)
    return subprocess.run([program, "check", "f"], cwd=place, stdin=subprocess.DEVNULL, capture_output=True, timeout=SECONDS)


def differences(program):
    found = []
    with tempfile.TemporaryDirectory(prefix="liq-case-") as place:
        for text, line in rows():
            told = check(program, place, text)
            is_wanted = told.stderr == line + b"\n" if line else not OF_A_TEXT.match(told.stderr)
            if told.returncode not in (0, 1) or not is_wanted:
                found.append(f"{text[:60]!r}: status {told.returncode}, stderr {told.stderr!r}")
        for test, name in READ_AS:
            told = check(program, place, b'output.file(%%wav, if %s then "A" else "B" end, blank())' % test)
            if told.stdout != b"output %s clock main infallible\n" % name:
                found.append(f"{test!r}: stdout {told.stdout!r}, stderr {told.stderr!r}")
        for pred, is_always in ALWAYS:
            told = check(program, place, b'output.file(%%wav, "A", switch([({%s}, blank())]))' % pred)
            if told.stderr != (b"" if is_always else b"E25 fallible output A\n"):
                found.append(f"{pred!r}: stdout {told.stdout!r}, stderr {told.stderr!r}")
    return found
