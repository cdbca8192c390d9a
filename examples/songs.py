#!/usr/bin/env python3
"""Makes the sounds of station.liq below the folder `songs`: songs for the day and the night, news and a jingle, all synthetic.

A song is four chords, played as broken chords over a bass, at a tempo and in a key of its own. Mono, 16 bits, 22050 samples a
second."""
import math
import os
import struct
import wave

RATE, STEPS = 22050, 8          # samples a second; notes of a bar
CHORDS = {"day": ((0, 4, 7), (9, 12, 16), (5, 9, 12), (7, 11, 14)), "night": ((0, 3, 7), (8, 12, 15), (5, 8, 12), (7, 10, 14))}
TITLES = {"day": ("Morning Bus", "Tin Roof", "Lemon Tree"), "night": ("Harbour", "Low Tide")}


def tone(pitch, seconds, loud):
    """A plucked tone, as samples between -1 and 1; pitch counts half tones from 220 Hz."""
    step, count = 2 * math.pi * 220 * 2 ** (pitch / 12) / RATE, int(seconds * RATE)
    return [loud * math.exp(-4 * n / count) * (math.sin(step * n) + 0.4 * math.sin(2 * step * n)) for n in range(count)]


def bar(chord, key, seconds):
    """One bar: a bass note, and the chord note by note."""
    samples = tone(key + chord[0] - 12, seconds, 0.3) + [0.0]
    for k in range(STEPS):
        at = int(k * seconds / STEPS * RATE)
        for n, sample in enumerate(tone(key + chord[(k * 2) % 3] + 12 * (k % 4 == 3), seconds / STEPS, 0.25)):
            samples[at + n] += sample
    return samples


def write(path, samples):
    """Writes a WAV file of whole seconds, whose end is faded out within half a second."""
    samples = samples + [0.0] * (-len(samples) % RATE)
    fade = RATE // 2
    for n in range(1, min(fade, len(samples)) + 1):
        samples[-n] *= n / fade
    os.makedirs(os.path.dirname(path), exist_ok=True)
    with wave.open(path, "wb") as file:
        file.setnchannels(1)
        file.setsampwidth(2)
        file.setframerate(RATE)
        file.writeframes(b"".join(struct.pack("<h", round(20000 * max(-1.0, min(1.0, it)))) for it in samples))


def main():
    for part, seconds in (("day", 1.6), ("night", 2.4)):
        names = []
        for number, title in enumerate(TITLES[part]):
            bars = [sample for chord in CHORDS[part] for sample in bar(chord, 2 * number - 3, seconds + number / 10)]
            names.append(f"songs/{part}/{title}.wav")
            write(names[-1], bars * 3)
        with open(f"songs/{part}.m3u", "w", encoding="utf-8") as file:
            file.write("".join(name + "\n" for name in names))
    write("songs/news.wav", [it for pitch in (12, 12, 19) for it in tone(pitch, 0.6, 0.5)] + tone(0, 6.2, 0.3))
    write("songs/jingle.wav", [it for pitch in (0, 4, 7, 12) for it in tone(pitch, 0.75, 0.5)])


if __name__ == "__main__":
    main()
