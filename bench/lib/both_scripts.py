"""The sounds and the scripts of bench/both. Each script plays into a file of its own name, and its text is the same for
both programs.

A second has RATE samples and a frame FRAME of them. Most files are whole frames long. Each left sample tells its file
by its thousands and its place by the rest; most right sides are the left one turned over.
"""
import struct

RATE = 8000
FRAME = 80
FRAMES = 16

HEAD = f'set("frame.audio.samplerate", {RATE})\nset("frame.duration", 0.01)\n'


def header(rate, sides, bits, size):
    """The 44 bytes that `liq` writes before the samples of a file."""
    cell = sides * bits // 8
    form = struct.pack("<IHHIIHH", 16, 1, sides, rate, rate * cell, cell, bits)
    return b"RIFF" + struct.pack("<I", 36 + size) + b"WAVEfmt " + form + b"data" + struct.pack("<I", size)


def wav(sides, samples, rate=RATE):
    data = struct.pack(f"<{len(samples)}h", *samples)
    return header(rate, sides, 16, len(data)) + data


def stereo(first, cells):
    return wav(2, [side for k in range(cells) for side in (first + k, -first - k)])


def sounds():
    """By name the files beside the scripts."""
    return {
        "a.wav": stereo(1000, 3 * FRAME),
        "b.wav": stereo(11000, 2 * FRAME),
        "c.wav": stereo(21000, FRAME),
        "low.wav": stereo(2000, FRAMES * FRAME),
        "high.wav": wav(2, [side for k in range(FRAMES * FRAME) for side in (15001 + 3 * k, 7 * k - 15000)]),
        "left.wav": wav(1, [5000 + k for k in range(2 * FRAME)]),
        "two.wav": wav(2, [side for k in range(2 * FRAME) for side in (7000 + k, 101 * k % 9000)]),
        "loud.wav": wav(2, [side for k in range(FRAME) for side in (32767 - k, k - 32768)]),
        "half.wav": stereo(3000, 2 * FRAME + FRAME // 2),
        "other.wav": wav(2, [side for k in range(6 * FRAME) for side in (4000 + k, -4000 - k)], 2 * RATE),
        "list.m3u": b"a.wav\nb.wav\nc.wav\n",
    }


ENDED = 'sequence([single("c.wav"), fail()])'

# By name: the script without the statements of HEAD, and what it is in the table. OUT stands for the name of its file.
SCRIPTS = {
    "single": ('s = single("a.wav")', "`single` of a stereo file"),
    "ends": ('s = single("loud.wav")', "`single`, samples at both ends of 16 bits"),
    "sequence": ('s = sequence([single("a.wav"), single("b.wav"), single("c.wav")])', "`sequence` of three files"),
    "rotate": ('s = mksafe(rotate([single("a.wav"), single("b.wav"), single("c.wav")]))', "`rotate` of three files"),
    "fallback": (f's = fallback([{ENDED}, single("b.wav")])', "`fallback`, its first source ends"),
    "fallback-at-once": (f's = fallback(track_sensitive=false, [{ENDED}, single("b.wav")])',
                         "`fallback(track_sensitive=false, ..)`, its first source ends"),
    "switch": ('s = switch([({not true}, single("a.wav")), ({true}, single("b.wav"))])',
               "`switch` of `{not true}` and `{true}`"),
    "switch-at-once": ('s = switch(track_sensitive=false, [({true}, single("c.wav")), ({true}, single("b.wav"))])',
                       "`switch(track_sensitive=false, ..)`"),
    "mksafe": (f"s = mksafe({ENDED})", "`mksafe` of a source that ends"),
    "blank": ('s = sequence([blank(duration=0.02), single("b.wav"), blank()])', "`blank`, for two frames and for good"),
    "amplify": ('s = amplify(0.5, single("a.wav"))', "`amplify(0.5, ..)`"),
    "amplify-cut": ('s = amplify(2.0, single("c.wav"))', "`amplify(2.0, ..)`, cut at the ends of 16 bits"),
    "amplify-twice": ('s = amplify(2., amplify(0.5, single("a.wav")))', "`amplify(2., amplify(0.5, ..))`"),
    "add": ('s = add([single("low.wav"), single("high.wav")])', "`add` of two files, no track ends"),
    "add-sum": ('s = add(normalize=false, [single("low.wav"), single("high.wav")])',
                "`add(normalize=false, ..)`, no track ends"),
    "add-ends": ('s = add([single("a.wav"), single("b.wav")])', "`add` of files of three frames and of two"),
    "add-cut": ('s = add(normalize=false, [single("c.wav"), single("c.wav")])',
                "`add(normalize=false, ..)`, cut at the ends of 16 bits"),
    "add-fail": ('s = add([single("a.wav"), fail()])', "`add([s, fail()])`"),
    "stereo": ('s = stereo(single("left.wav"))', "`audio_to_stereo`, here `stereo`, of a mono file"),
    "mean": ('s = stereo(mean(single("two.wav")))', "`mean` of a stereo file, on both sides"),
    "clock": ('s = clock(id="night", single("a.wav"))', "`clock(id=\"night\", ..)`"),
    "def": ('def softer(~k=0.5, s) =\n  amplify(k, s)\nend\nlist = [single("a.wav"), single("b.wav")]\n'
            's = if 1 + 1 == 2 and not (0.5 > 1.) then sequence(list) else softer(single("c.wav")) end',
            "`def` with a label, a list, `if`, arithmetic, comparisons"),
    "part": ('s = single("half.wav")', "`single` of a file of two and a half frames"),
    "mono": ('s = single("left.wav")', "`%wav` of `single` of a mono file: stereo"),
    "rate": ('s = single("other.wav")', "`single` of a file of twice the rate"),
    "square": ("s = square(500.)", "`square`"),
    "crossfade": ('s = mksafe(crossfade(duration=0.01, single("a.wav")))', "`crossfade(duration=0.01, ..)`"),
    "playlist": ('s = playlist(mode="normal", "list.m3u")', "`playlist(mode=\"normal\", ..)` of three files"),
    "buffer": ('s = buffer(buffer=0.02, max=1., single("a.wav"))', "`buffer(buffer=0.02, max=1., ..)`"),
}
FALLIBLE = ("playlist", "buffer")         # sources that may have nothing to play


def text(name):
    """The statements of a script behind HEAD."""
    may_stop = "fallible=true, " if name in FALLIBLE else ""
    return f'{SCRIPTS[name][0]}\noutput.file({may_stop}%wav, "{name}.wav", s)\n'


# What Liquidsoap is told before the scripts: no log, frames as short as these, the two names that are other there, and
# that each frame is written at once. They play in time, and all but one in one clock.
PRELUDE = """settings.init.allow_root.set(true)
settings.log.stdout.set(false)
settings.log.file.set(false)
settings.log.level.set(1)
settings.frame.video.framerate.set(100)
def fail() = source.fail() end
def stereo(s) = audio_to_stereo(s) end
write_file = output.file
def output.file(~fallible=false, format, name, s) = write_file(flush=true, fallible=fallible, format, name, s) end
"""
OWN_READER = 'settings.decoder.decoders.set(["WAV"])\n'


def liquidsoap(names, own_reader):
    """All these scripts one after the other, for one call of Liquidsoap."""
    return PRELUDE + (OWN_READER if own_reader else "") + HEAD + "".join(map(text, names))
