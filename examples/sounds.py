#!/usr/bin/env python3
"""Makes the audio files of the examples in the folder in which it is run: tones in mono, 16 bits, 44100 samples a second."""
import math
import struct
import wave

RATE = 44100
TONES = [("morning.wav", 330, 3), ("noon.wav", 440, 3), ("sunset.wav", 550, 3), ("night.wav", 220, 1), ("jingle.wav", 880, 1)]


def samples(pitch, seconds):
    return [round(12000 * math.sin(2 * math.pi * pitch * n / RATE)) for n in range(RATE * seconds)]


for name, pitch, seconds in TONES:
    with wave.open(name, "wb") as file:
        file.setnchannels(1)
        file.setsampwidth(2)
        file.setframerate(RATE)
        file.writeframes(b"".join(struct.pack("<h", sample) for sample in samples(pitch, seconds)))
with open("music.m3u", "w") as file:
    file.write("#EXTM3U\nmorning.wav\nnoon.wav\nsunset.wav\n")
