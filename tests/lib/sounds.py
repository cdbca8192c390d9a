"""WAV files that others wrote, whole and damaged, lists with strange lines, and outputs at the bound of their length: what a run over
them has to do, by the tables of docs/formats.md and docs/streams.md. tests/run compares it."""
import os
import random
import struct
import subprocess
import tempfile

SECONDS = 60


def chunk(name, body, size=None):
    return name + struct.pack("<I", len(body) if size is None else size) + body


def form(tag=1, channels=1, rate=44100, block=2, bits=16, more=b""):
    return struct.pack("<HHIIHH", tag, channels, rate, rate * 2, block, bits) + more


def riff(*chunks):
    return b"RIFF\0\0\0\0WAVE" + b"".join(chunks)


SAMPLES = struct.pack("<3h", 1, 2, 3)
DATA = chunk(b"data", SAMPLES)
GUID = bytes.fromhex("0100000000001000800000aa00389b71")
LONG = struct.pack("<HHI", 22, 16, 4) + GUID
LONG_OF_24 = struct.pack("<HHI", 22, 24, 4) + GUID
PADDED = chunk(b"LIST", b"abc") + b"\0"
MONO = chunk(b"fmt ", form())
WIDE = form(block=3, bits=24)

# Mono files at 44100 a second, and the samples of each.
READ = (
    # a format of 18 bytes, and the extensible form of 40
    (riff(chunk(b"fmt ", form(more=b"\0\0")), DATA), [1, 2, 3]),
    (riff(chunk(b"fmt ", form(tag=0xFFFE, more=LONG)), DATA), [1, 2, 3]),
    # a chunk of odd size and its pad byte, before the format and before the data
    (riff(PADDED, MONO, PADDED, DATA), [1, 2, 3]),
    # a second format, and a chunk behind the data that passes the file's end
    (riff(MONO, chunk(b"fmt ", b"abc", 3), b"\0", DATA), [1, 2, 3]),
    (riff(MONO, DATA, chunk(b"LIST", b"", 0xFFFFFFFF)), [1, 2, 3]),
    # data of unknown size
    (riff(MONO, chunk(b"data", SAMPLES, 0xFFFFFFFF)), [1, 2, 3]),
    # the lowest and the highest sample, and a byte that is none
    (riff(MONO, chunk(b"data", struct.pack("<4h", 1, -1, -32768, 32767) + b"\5")), [1, -1, -32768, 32767]),
    # 24 bits: two bytes at the end are no block; the extensible form; a byte behind odd data; and the lowest byte is dropped
    (riff(chunk(b"fmt ", WIDE), chunk(b"data", b"\xff\x01\x00\x02\x03")), [1]),
    (riff(chunk(b"fmt ", form(tag=0xFFFE, block=3, bits=24, more=LONG_OF_24)), chunk(b"data", b"\xff\x01\x00")), [1]),
    (riff(chunk(b"fmt ", WIDE), chunk(b"data", b"\xff\x01\x00"), b"\0"), [1]),
    (riff(chunk(b"fmt ", WIDE), chunk(b"data", b"\xff\x00\x00\x00\xff\xff\xff\xff\x7f")), [0, -1, 32767]),
)

# Files that are none, and the number of the first row that applies.
REFUSED = (
    # 32 bits; the tag 3 with 24; blocks of two bytes, or three channels, with 24; and two bytes of data
    (riff(chunk(b"fmt ", form(block=4, bits=32))), 4),
    (riff(chunk(b"fmt ", form(tag=3, block=3, bits=24))), 4),
    (riff(chunk(b"fmt ", form(block=2, bits=24))), 3),
    (riff(chunk(b"fmt ", form(channels=3, block=9, bits=24))), 3),
    (riff(chunk(b"fmt ", WIDE), chunk(b"data", b"\1\0")), 6),
    # data before the format
    (riff(chunk(b"data", b"\1\0"), MONO), 2),
    # three channels of 8 bits, then three of 16, and blocks of four bytes in mono
    (riff(chunk(b"fmt ", form(channels=3, block=2, bits=8))), 4),
    (riff(chunk(b"fmt ", form(channels=3, block=6))), 3),
    (riff(chunk(b"fmt ", form(block=4))), 3),
    # the tag 3, and the tag of the extensible form in a body of 16
    (riff(chunk(b"fmt ", form(tag=3))), 4),
    (riff(chunk(b"fmt ", form(tag=0xFFFE))), 4),
    # a format of 17 bytes, and one that passes the file's end
    (riff(chunk(b"fmt ", form(more=b"\0")), b"\0"), 3),
    (riff(chunk(b"fmt ", form(more=b"\0\0"), 40)), 3),
    # the rate 0
    (riff(chunk(b"fmt ", form(rate=0))), 3),
    # an odd size without its pad byte: the next chunk is read one byte late
    (riff(chunk(b"LIST", b"abc"), MONO), 2),
)

# Lists, and their names.
LISTS = (
    (b"\xef\xbb\xbf#x\r\na\r\n\nb", [b"a", b"b"]),
    (b"", []),
    (b"\xef\xbb\xbf", []),
    (b"one name\n\xff\n two\r\r\n\xef\xbb\xbfthree", [b"one name", b" two\r", b"\xef\xbb\xbfthree"]),
)

# The most samples that the file of an output can have: of how many bits, whether in stereo.
MOST = ((16, True, 1073741814), (16, False, 2147483629), (24, False, 1431655752), (24, True, 715827876))

# Files of other rates: samples a second, channels, bits, blocks, and the rate of the script. The first three grow by more than 64
# fold, to some nine million samples and more.
RATES = (
    (10, 1, 16, 2000, 44100), (1, 1, 16, 690, 44100), (300, 1, 24, 120000, 44100),
    (48000, 1, 16, 9000, 44100), (48000, 2, 16, 9000, 44100), (44100, 2, 24, 9000, 48000), (22050, 1, 24, 5, 8000),
    (44100, 1, 16, 1, 48000), (4294967295, 1, 16, 3000, 8000), (192000, 2, 16, 30000, 96000), (96000, 1, 16, 30000, 65535), (96000, 2, 24, 30000, 65536),
)


def changed(side, own, wanted):
    """The samples of one channel at another rate, by the formula of docs/formats.md."""
    made, last = [], len(side) - 1
    for at in range(max(1, len(side) * wanted // own)):
        before, rest = divmod(at * own, wanted)
        whole = side[before] * (wanted - rest) + side[min(before + 1, last)] * rest
        made.append(whole // wanted if whole >= 0 else -(-whole // wanted))
    return made


def run(program, place, words, files):
    for name, data in files.items():
        with open(os.path.join(os.fsencode(place), name), "wb") as file:
            file.write(data)
    return subprocess.run([program, *words], cwd=place, stdin=subprocess.DEVNULL, capture_output=True, timeout=SECONDS)


def trouble_of_a_file(program, data, samples):
    """What is wrong with the first tick of a file; both sides have its samples again and again."""
    with tempfile.TemporaryDirectory(prefix="liq-case-") as place:
        done = run(program, place, ["render", "f", "1"], {b"f": b'output.file(%wav, "A", single("B"))\n', b"B": data})
        if done.returncode or done.stdout != b"output A samples 1764 gaps 0\n":
            return f"status {done.returncode}, stderr {done.stderr!r}"
        with open(os.path.join(place, "A"), "rb") as file:
            played = struct.unpack("<3528h", file.read()[44:])
    wanted = [samples[at // 2 % len(samples)] for at in range(3528)]
    return "" if list(played) == wanted else f"plays {played[:16]}"


def of_a_rate(own, channels, bits, blocks):
    """A file of such samples, drawn by its numbers, and its sides."""
    draw = random.Random(own * 7 + channels + bits + blocks)
    drawn = [draw.choice((-32768, 32767, 0, -1, draw.randrange(-32768, 32768))) for _ in range(channels * blocks)]
    width = bits // 8
    body = b"".join(bytes(width - 2) + struct.pack("<h", sample) for sample in drawn)
    head = chunk(b"fmt ", struct.pack("<HHIIHH", 1, channels, own, 0, channels * width, bits))
    return riff(head, chunk(b"data", body)), [drawn[side::channels] for side in range(channels)]


def front(side, own, wanted, count):
    """The first samples of one channel at another rate, again and again where there are fewer."""
    needed = count * own // wanted + 2
    made = changed(side, own, wanted) if len(side) <= needed and len(side) * wanted // own <= count else changed(side[:needed], own, wanted)
    return [made[at % len(made)] for at in range(count)]


def trouble_of_a_rate(program, row, is_mono):
    """What is wrong with the first ticks of a file of another rate, in a source of two sides or of one."""
    own, channels, bits, blocks, wanted = row
    data, sides = of_a_rate(own, channels, bits, blocks)
    source = 'fallback([single("B"), mean(blank())])' if is_mono else 'single("B")'
    script = f'set("frame.audio.samplerate", {wanted})\nset("frame.duration", 0.04)\noutput.file(%wav, "A", {source})\n'
    count = wanted * 4 // 100 * 3
    with tempfile.TemporaryDirectory(prefix="liq-case-") as place:
        done = run(program, place, ["render", "f", "3"], {b"f": script.encode(), b"B": data})
        if done.returncode:
            return f"status {done.returncode}, stderr {done.stderr!r}"
        with open(os.path.join(place, "A"), "rb") as file:
            bytes_made = file.read()[44:]
    played = struct.unpack(f"<{len(bytes_made) // 2}h", bytes_made)
    heard = [front(side, own, wanted, count) for side in sides]
    if is_mono and channels == 2:
        sums = [left + right for left, right in zip(*heard)]
        heard = [[total // 2 if total >= 0 else -(-total // 2) for total in sums]]
    expected = heard[0] if is_mono else [sample for pair in zip(heard[0], heard[-1]) for sample in pair]
    if list(played) == expected:
        return ""
    at = next((at for at, (one, other) in enumerate(zip(played, expected)) if one != other), min(len(played), len(expected)))
    return f"sample {at} of {len(played)} is {played[at:at + 4]}, not {expected[at:at + 4]} of {len(expected)}"


def trouble_of_a_list(program, text, names):
    """What is wrong with the names of a list: its files have 400 samples each, and each begins with its name in the cue file."""
    sound = riff(MONO, chunk(b"data", b"\1\0" * 400))
    script = b'output.file(%wav, fallible=true, "o", playlist(loop=false, "L"))\n'
    files = {b"f": script, b"L": text, **{name: sound for name in names}}
    wanted = b"".join(b"%d %s\n" % (400 * at, name) for at, name in enumerate(names))
    with tempfile.TemporaryDirectory(prefix="liq-case-") as place:
        done = run(program, place, ["render", "f", "1", "--cues"], files)
        if done.returncode:
            return f"status {done.returncode}, stderr {done.stderr!r}"
        with open(os.path.join(place, "o.cue"), "rb") as file:
            told = file.read()
    return "" if told == wanted else f"its cue file is {told!r}"


def told_of_length(program, bits, is_stereo, samples):
    """The line of an output of so many samples, at 8000 a second: ticks of so many that few enough of them make it."""
    tick = next(tick for tick in range(1, 65537) if samples % tick == 0 and samples // tick <= 1000000000)
    source = "blank()" if is_stereo else "mean(blank())"
    script = (f'set("frame.audio.samplerate", 8000)\nset("frame.duration", {tick * 125 / 1000000:.6f})\n'
              f'output.file(%wav(samplesize={bits}), "A", {source})\n')
    with tempfile.TemporaryDirectory(prefix="liq-case-") as place:
        return run(program, place, ["replay", "f", str(samples // tick), "gone"], {b"f": script.encode()}).stderr


def lengths(most):
    """The longest length that ticks can make up to the bound, and the shortest behind it."""
    makes = lambda samples: any(samples % tick == 0 and samples // tick <= 1000000000 for tick in range(1, 65537))
    return next(s for s in range(most, 0, -1) if makes(s)), next(s for s in range(most + 1, most + 65537) if makes(s))


def differences(program):
    found = []
    for data, samples in READ:
        found.append((data, trouble_of_a_file(program, data, samples)))
    for data, number in REFUSED:
        with tempfile.TemporaryDirectory(prefix="liq-case-") as place:
            told = run(program, place, ["check", "f"], {b"f": b'output.file(%wav, "A", single("B"))\n', b"B": data}).stderr
        found.append((data, "" if told == b"E21 bad audio B: %d\n" % number else f"is told as {told!r}"))
    for row in RATES:
        for is_mono in (False, True):
            found.append((f"{row}, {is_mono}".encode(), trouble_of_a_rate(program, row, is_mono)))
    for text, names in LISTS:
        found.append((text, trouble_of_a_list(program, text, names)))
    for bits, is_stereo, most in MOST:
        fits, too_long = (told_of_length(program, bits, is_stereo, samples) for samples in lengths(most))
        if (fits, too_long) != (b"E30 no trace gone\n", b"E29 output too long A\n"):
            found.append((f"{bits} bits, {is_stereo}".encode(), f"is told as {fits!r} and {too_long!r}"))
    return [f"{data[:80]!r}: {trouble}" for data, trouble in found if trouble]
