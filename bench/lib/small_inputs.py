"""Inputs of bench/small: a script and the files that it names, at most 4096 bytes each, and how chance changes them."""
import random
import re
import struct
from typing import Callable, Dict, List, Sequence

MOST = 4096
Files = Dict[str, bytes]

TOKEN = re.compile(rb"[A-Za-z_][\w.]*|\d+h\d+|\d+[wdhms]|\d+\.?\d*|\"[^\"\n]*\"|%wav|[=!<>]=|->|\s+|#[^\n]*|.", re.S)
NUMBER = re.compile(rb"(?<![\w.])\d+\.?\d*(?![\w.])")
NUMBERS = (b"0", b"1", b"2", b"8000", b"44100", b"192000", b"0.", b"0.001", b"0.0001", b"0.000125", b"0.34133", b"1.486", b"0.04",
           b"1.", b"21.", b"21.8", b"90.", b"95.", b"440.", b"3.", b"1000.", b"20000.", b"0.01")
MARKS = (b"0h", b"5h", b"1s", b"1h-2h", b"1m", b"3w", b"0s-1s", b"23h59m59s", b"0m-30m", b"true", b"1s-2s")
LEAVES = (b"blank()", b"square(440.)", b'single("w")', b'mksafe(playlist("l"))', b"fail()", b"blank(duration=0.001)",
          b'playlist("l")', b'mksafe(playlist(loop=false,"l"))')
# Operators over a source, at % its place.
OVER = (b"amplify(0.5,%)", b"mean(%)", b"stereo(%)", b"mksafe(%)", b"crossfade(duration=21.8,%)", b"crossfade(duration=1.,%)",
        b"crossfade(duration=0.001,%)", b"buffer(buffer=21.,max=20000.,%)", b"buffer(buffer=0.,max=10.,%)", b"buffer(%)", b"add([%,%])",
        b"add([%,%,%,%])", b"fallback([%,%])", b"fallback(track_sensitive=false,[%,blank()])", b"rotate([%,%])", b"random([%,%])",
        b"sequence([%,%])", b"switch([({5h},%),({1h-2h},%)])", b"clock(%)", b'clock(id="b",%)', b"add(normalize=false,[%,%])",
        b"switch(track_sensitive=false,[({0s-1s},%),({true},%)])", b"(%,%)", b"[%,%]", b"add([%,blank()])")
SETTINGS = (b'set("frame.audio.samplerate",192000)\n', b'set("frame.audio.samplerate",8000)\n', b'set("frame.duration",0.34133)\n',
            b'set("frame.duration",0.000125)\n', b'set("frame.duration",1.486)\n', b'set("frame.duration",0.001)\n')
OUTPUT = b'output.file(%wav,fallible=true,"o",s)\n'


def size_of(files: Files) -> int:
    """The bytes of all files of an input."""
    return sum(map(len, files.values()))


def repeated(chance: random.Random, text: bytes) -> bytes:
    """A stretch of tokens, often one statement or one item of a list, once more or many times."""
    tokens = TOKEN.findall(text)
    if not tokens:
        return text
    at = chance.randrange(len(tokens))
    count = chance.choice((1, 2, 3, 4, 6, 8, 12, 20, 40))
    part = b"".join(tokens[at:at + count])
    times = chance.choice((1, 1, 2, 4, 8, 16, 64))
    return b"".join(tokens[:at]) + part * times + b"".join(tokens[at:])


def doubled_line(chance: random.Random, text: bytes) -> bytes:
    lines = text.splitlines(keepends=True)
    if not lines:
        return text
    at = chance.randrange(len(lines))
    lines[at:at] = [lines[at]] * chance.choice((1, 1, 2, 4, 8))
    return b"".join(lines)


def less(chance: random.Random, text: bytes) -> bytes:
    """Without some tokens or a line."""
    lines = text.splitlines(keepends=True)
    if chance.random() < 0.5 and len(lines) > 1:
        del lines[chance.randrange(len(lines))]
        return b"".join(lines)
    tokens = TOKEN.findall(text)
    at = chance.randrange(len(tokens) + 1)
    del tokens[at:at + chance.choice((1, 2, 4, 16))]
    return b"".join(tokens)


def other_number(chance: random.Random, text: bytes) -> bytes:
    found = list(NUMBER.finditer(text))
    if not found:
        return text
    match = chance.choice(found)
    new = chance.choice(NUMBERS)
    if chance.random() < 0.3:       # each that is the same
        return text.replace(match[0], new)
    return text[:match.start()] + new + text[match.end():]


def other_source(chance: random.Random, text: bytes) -> bytes:
    """Another leaf or operator in the place of a leaf, once or wherever it stands."""
    found = [leaf for leaf in LEAVES if leaf in text]
    if not found:
        return text
    leaf, new = chance.choice(found), chance.choice(LEAVES)
    if chance.random() < 0.6:
        new = chance.choice(OVER).replace(b"%", new)
    return text.replace(leaf, new, chance.choice((1, -1)))


def wrapped(chance: random.Random, text: bytes) -> bytes:
    """The last name in a def, or a name in the last lines, within one more operator."""
    found = list(re.finditer(rb"\b[a-z]\w?\b(?![\w(=.])", text))
    if not found:
        return text
    match = chance.choice(found)
    return text[:match.start()] + chance.choice(OVER).replace(b"%", match[0]) + text[match.end():]


def in_defs(chance: random.Random, text: bytes) -> bytes:
    """The last output over what a def makes, which calls another one, and so on: many sources of few bytes."""
    inner = chance.choice(OVER).replace(b"%", chance.choice((b"s", chance.choice(LEAVES))))
    many, levels = chance.choice((2, 4, 8, 16)), chance.choice((1, 2, 2, 3))
    if chance.random() < 0.5:
        made = b"def f0(s)=" + b" ".join([b"s=" + inner] * many) + b" s end\n"
        made += b"".join(b"def f%d(s)=" % n + b" ".join([b"s=f%d(s)" % (n - 1)] * many) + b" s end\n" for n in range(1, levels))
    else:
        joined = chance.choice((b"add", b"fallback", b"rotate", b"random", b"sequence"))
        made = b"def f0(s)=" + joined + b"([" + b",".join([inner] * many) + b"]) end\n"
        made += b"".join(b"def f%d(s)=" % n + joined + b"([" + b",".join([b"f%d(s)" % (n - 1)] * many) + b"]) end\n"
                         for n in range(1, levels))
    front, found, back = text.rpartition(b"output.file")
    return front + b"s=blank()\n" + made + b"s=f%d(s)\n" % (levels - 1) + found + back if chance.random() < 0.5 else (
        front + b"s=" + chance.choice(LEAVES) + b"\n" + made + b"s=f%d(s)\n" % (levels - 1) + OUTPUT)


def setting(chance: random.Random, text: bytes) -> bytes:
    """Another rate or length of a tick."""
    new = chance.choice(SETTINGS)
    return new + re.sub(rb"^" + re.escape(new.split(b",")[0]) + rb".*\n", b"", text, flags=re.M)


def predicate(chance: random.Random, text: bytes) -> bytes:
    """Another term in a predicate, or many more."""
    found = list(re.finditer(rb"\{[^{}\n]*\}", text))
    if not found:
        return text + b"p={5h}\n"
    match = chance.choice(found)
    terms = [chance.choice(MARKS) for _ in range(chance.choice((1, 2, 8, 50, 150)))]
    new = b"{" + chance.choice((b" or ", b" and ")).join(terms) + b"}"
    return text.replace(match[0], new) if chance.random() < 0.5 else text[:match.start()] + new + text[match.end():]


def joined(chance: random.Random, text: bytes, others: Sequence[Files]) -> bytes:
    """Lines of another input between these."""
    lines, strange = text.splitlines(keepends=True), chance.choice(others)["f"].splitlines(keepends=True)
    if not strange:
        return text
    at, begin = chance.randrange(len(lines) + 1), chance.randrange(len(strange))
    lines[at:at] = strange[begin:begin + chance.choice((1, 1, 2, 4))]
    return b"".join(lines)


def wav(chance: random.Random) -> bytes:
    """A sound of at most so many bytes, of any head."""
    sides, width = chance.choice((1, 2)), chance.choice((2, 3))
    rate = chance.choice((1, 3, 10, 1000, 8000, 44099, 44100, 48000, 192000, 4294967295, chance.randrange(1, 200000)))
    count = chance.choice((1, 2, 100, (MOST - 46) // (sides * width), chance.randrange(1, 700)))
    data = bytes(chance.randrange(256) for _ in range(count * sides * width))[:MOST - 46]
    data = data[:len(data) // (sides * width) * sides * width]
    head = struct.pack("<IHHIIHH", 16, 1, sides, rate, rate * sides * width & 0xffffffff, sides * width, 8 * width)
    size = chance.choice((len(data), len(data), len(data), 0, 4294967295))
    return b"RIFF" + struct.pack("<I", 36 + len(data)) + b"WAVEfmt " + head + b"data" + struct.pack("<I", size) + data + b"\0" * (len(data) % 2)


def play_list(chance: random.Random) -> bytes:
    """Names of one file, spelled in many ways or in one long way, or of none."""
    way = chance.randrange(5)
    if way == 0:
        return b"\n".join([b"w"] * chance.choice((1, 100, 2000)))
    if way == 1:
        spelled = [b"./" * n + b"w" for n in range(90)] + [b".//" * n + b"w" for n in range(1, 40)]
        chance.shuffle(spelled)
        return b"\n".join(spelled)[:MOST]
    if way == 2:
        return b"./" * chance.choice((10, 500, 2000)) + b"w"
    if way == 3:
        return b"".join(b"%d\n" % n for n in range(900))[:MOST]
    return bytes(chance.randrange(256) for _ in range(chance.choice((10, 1000, MOST))))


CHANGES: "Sequence[Callable[[random.Random, bytes], bytes]]" = (
    repeated, repeated, doubled_line, less, other_number, other_number, other_source, wrapped, in_defs, setting, predicate)


def changed(chance: random.Random, files: Files, others: List[Files]) -> Files:
    """The input with a few changes; never with a file of more bytes than may be."""
    made = {"w": wav(chance), "l": play_list(chance), **files}
    for _ in range(chance.choice((1, 1, 2, 3))):
        way = chance.random()
        if way < 0.08:
            made["w"] = wav(chance)
        elif way < 0.16:
            made["l"] = play_list(chance)
        elif way < 0.24:
            made["f"] = joined(chance, made["f"], others)
        else:
            made["f"] = chance.choice(CHANGES)(chance, made["f"])
    while len(made["f"]) > MOST:
        lines = made["f"].splitlines(keepends=True)
        if len(lines) < 3:
            return files
        del lines[chance.randrange(len(lines) - 1)]
        made["f"] = b"".join(lines)
    return made
