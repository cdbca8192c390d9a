"""The sounds and the scripts of bench/station, and what SoX, ffmpeg and Liquidsoap are asked for the same sound."""
import math
import os
import re
import struct
import wave

RATE = 44100
OTHER_RATE = 48000
FILES = 20
WIDE = "one file to one file, 24 bits"
RATED = "one file of 48000 samples a second"
ROTATED = "rotate of 20 files of 3 s"
BUFFER = 'mksafe(buffer(buffer=0.04, max=1., x))'


def make_tone(place, name, pitch, seconds, width=2, rate=RATE):
    """Writes a mono file of one tone; the samples of 24 bits are those of 16 with a byte of 0 below."""
    cycle = [bytes(width - 2) + struct.pack("<h", round(9000 * math.sin(2 * math.pi * pitch * n / rate)))
             for n in range(rate)]
    with wave.open(os.path.join(place, name), "wb") as file:
        file.setnchannels(1)
        file.setsampwidth(width)
        file.setframerate(rate)
        for _ in range(seconds):
            file.writeframes(b"".join(cycle))


def make_sounds(place, seconds):
    """Writes files as long as the output, also of 24 bits and of another rate, and some of 3 s with a list of them."""
    make_tone(place, "long.wav", 440, seconds)
    make_tone(place, "short.wav", 440, 3)
    make_tone(place, "wide.wav", 440, seconds, 3)
    make_tone(place, "other.wav", 440, seconds, 2, OTHER_RATE)
    names = [f"t{k}.wav" for k in range(FILES)]
    for k, name in enumerate(names):
        make_tone(place, name, 200 + 20 * k, 3)
    with open(os.path.join(place, "list.m3u"), "w", encoding="utf-8") as file:
        file.write("#EXTM3U\n" + "\n".join(names) + "\n")


def output(source):
    """The line of the output o.wav."""
    return f'output.file(%wav, "o.wav", {source})\n'


def playing(name, clock, source):
    """The line of an output in a clock."""
    return f'output.file(%wav, "{name}.wav", clock(id="{clock}", {source}))\n'


def summed(names):
    """A sum of sources that are made quieter."""
    return f'add(normalize=false, [{", ".join(f"amplify(0.05, {name})" for name in names)}])'


def chain(count):
    """A script of so many nodes, each over the one before it."""
    lines = ["s0 = blank()"] + [f"s{k} = amplify(1., s{k - 1})" for k in range(1, count)]
    return "\n".join(lines) + "\n" + output(f"s{count - 1}")


def graph():
    """A script of 100 nodes: leaves, sums over neighbours, selections over those."""
    leaves = [f'a{k} = amplify(0.1, single("t{k % FILES}.wav"))' for k in range(30)]
    sums = [f"b{k} = add(normalize=false, [a{k}, a{(k + 1) % 30}])" for k in range(20)]
    picks = [f"c{k} = fallback(track_sensitive=false, [b{k}, b{(k + 7) % 20}])" for k in range(19)]
    names = ", ".join(f"c{k}" for k in range(19))
    return "\n".join(leaves + sums + picks) + "\n" + output(f"add(normalize=false, [{names}])")


def buffered():
    """A script whose buffer has both ends in one clock."""
    return 'x = clock(id="a", single("long.wav"))\n' + output('clock(id="a", mksafe(buffer(buffer=0.04, max=1., x)))')


def scripts():
    """The scripts of one output: a name and a text each."""
    singles = [f'single("t{k}.wav")' for k in range(FILES)]
    files = ", ".join(singles)
    picks = ('mksafe(switch([({22h-6h}, single("long.wav")), '
             '({true}, fallback([playlist("list.m3u"), single("short.wav")]))]))')
    return [
        ("one file to one file", output('single("long.wav")')),
        ("a file of 3 s, looped", output('single("short.wav")')),
        ("sum of 20 amplified files", output(summed(singles))),
        ("tracks of 3 s, crossfade of 1 s", output('mksafe(crossfade(duration=1., playlist("list.m3u")))')),
        ("mksafe(switch(fallback))", output(picks)),
        ("graph of 100 nodes", graph()),
        (ROTATED, output(f"rotate([{files}])")),
        ("random of 20 files of 3 s", output(f"random([{files}])")),
        ("a file through a buffer of its own clock", buffered()),
    ]


def compared():
    """The scripts that are compared with plain C: each one's number in station.c, its name and its text."""
    plain = dict(scripts())
    rows = [(number, name, plain[name]) for number, name in enumerate(list(plain)[:6])]
    rows.append((7, ROTATED, plain[ROTATED]))
    rows.append((6, WIDE, 'output.file(%wav(samplesize=24), "o.wav", single("wide.wav"))\n'))
    rows.append((8, RATED, output('single("other.wav")')))
    rows.append((9, "two clocks and a buffer", copied()))
    return rows


def copied():
    """A file, and its copy in another clock behind a buffer."""
    return ('x = clock(id="a", single("long.wav"))\noutput.file(%wav, "o.wav", x)\n'
            f'output.file(%wav, "p.wav", clock(id="b", {BUFFER}))\n')


def one_sided(text):
    """The script whose outputs are mono: what takes each source as mono is a source that no output plays."""
    lines = []
    for number, line in enumerate(text.splitlines()):
        found = re.fullmatch(r'output\.file\((%wav(?:\(.*?\))?), "(\w\.wav)", (.*)\)', line)
        if found:
            name = f"side{number}"
            lines += [f"{name} = {found[3]}", f"unused{number} = stereo({name})",
                      f'output.file({found[1]}, "{found[2]}", {name})']
        else:
            lines.append(line)
    return "\n".join(lines) + "\n"


def clocked():
    """Stations of several clocks: a name, how many clocks, and the text; a clock of all but the last sums up 20 files."""
    work = summed([f'single("t{k}.wav")' for k in range(FILES)])
    fed = f'x = clock(id="a", {work})\n' + playing("a", "a", "x")
    read = f"add(normalize=false, [buffer(buffer=0.04, max=40., x), {work}])"
    named = (("one clock", "a"), ("two clocks", "ab"), ("four clocks", "abcd"), ("eight clocks", "abcdefgh"))
    rows = [(name, len(names), "".join(playing(one, one, work) for one in names)) for name, names in named]
    rows.insert(2, ("two clocks and a buffer", 2, fed + playing("b", "b", read)))
    return rows + [("a file and its copy by a buffer", 2, copied())]


def light():
    """Two clocks that do little, joined by a buffer of five ticks."""
    fed = 'x = clock(id="a", single("t0.wav"))\n' + playing("a", "a", "x")
    read = playing("b", "b", "mksafe(buffer(buffer=0.04, max=0.2, x))")
    return ("two light clocks and a short buffer", 2, fed + read)


def ring():
    """Two clocks of eight samples a tick, each of which plays what the other one leaves in a buffer."""
    return ('set("frame.audio.samplerate", 8000)\nset("frame.duration", 0.001)\n'
            'x = clock(id="a", blank())\n'
            'y = clock(id="b", mksafe(buffer(buffer=0.001, max=0.1, x)))\n'
            'output.file(%wav, "o.wav", clock(id="a", mksafe(buffer(buffer=0.001, max=0.1, y))))\n'
            'output.file(%wav, "p.wav", y)\n')


def peers(name, seconds, sides):
    """What SoX and ffmpeg are asked for the same sound, with so many channels, where they have a form of it."""
    asked = [sox(seconds).get(name), ffmpeg(seconds).get(name)]
    if sides == 2:
        return asked
    return [words and ["1" if word == "2" and words[at - 1] in ("-c", "-ac") else word for at, word in enumerate(words)]
            for words in asked]


def sox(seconds):
    """SoX's words for the scripts that it has a form of."""
    # An input that is played again and again is one that another call of SoX plays into a pipe: the effect `repeat`
    # behind a mix would mix three seconds, and copy them.
    again = seconds // 3
    mixed = ["-m"] + [word for k in range(FILES) for word in ("-v", "0.05", f"|sox t{k}.wav -p repeat {again}")]
    cut = ["trim", "0", str(seconds)]
    files = [f"t{k}.wav" for k in range(FILES)]
    return {
        "one file to one file": ["sox", "long.wav", "-c", "2", "s.wav"] + cut,
        "a file of 3 s, looped": ["sox", "short.wav", "-c", "2", "s.wav", "repeat", str(again)] + cut,
        "sum of 20 amplified files": ["sox"] + mixed + ["-c", "2", "s.wav"] + cut,
        ROTATED: ["sox"] + files + ["-c", "2", "s.wav", "repeat", str(seconds // (3 * FILES))] + cut,
        WIDE: ["sox", "wide.wav", "-c", "2", "s.wav"] + cut,
        RATED: ["sox", "other.wav", "-c", "2", "-r", str(RATE), "s.wav", "rate", "-q"],
    }


def ffmpeg(seconds):
    """ffmpeg's words for the same."""
    quiet = ["ffmpeg", "-nostdin", "-loglevel", "error", "-y"]
    end = ["-ac", "2", "-t", str(seconds), "f.wav"]
    inputs = [word for k in range(FILES) for word in ("-stream_loop", "-1", "-i", f"t{k}.wav")]
    mixed = "".join(f"[{k}:a]" for k in range(FILES)) + f"amix=inputs={FILES}"
    return {
        "one file to one file": quiet + ["-i", "long.wav"] + end,
        "a file of 3 s, looped": quiet + ["-stream_loop", "-1", "-i", "short.wav"] + end,
        "sum of 20 amplified files": quiet + inputs + ["-filter_complex", mixed] + end,
        WIDE: quiet + ["-i", "wide.wav", "-c:a", "pcm_s24le"] + end,
        RATED: quiet + ["-i", "other.wav", "-ar", str(RATE)] + end,
    }


def liquidsoap(script, seconds):
    """The script for Liquidsoap: on its own clock as fast as it goes, and shut down behind the last second."""
    head = "settings.init.allow_root.set(true)\nsettings.log.stdout.set(false)\nsettings.log.file.set(false)\n"
    play = ('output.file(fallible=true, on_stop=shutdown, %wav, "l.wav", '
            f'clock(sync="none", max_duration({seconds}., ')
    return head + script.replace('output.file(%wav, "o.wav", ', play).rstrip("\n") + "))\n"
