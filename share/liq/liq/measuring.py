"""The loudness, the peak and the quiet stretches of sounds, as ffmpeg measures them."""
import math
import re
import subprocess
import tempfile
from typing import List, Sequence

from liq.reading.companion import NoAnswer

FLOOR = -70.0          # LUFS, the gate of EBU R 128: below it ffmpeg tells no loudness


def said_by(paths: Sequence[str], effects: str) -> str:
    """What ffmpeg says of these WAV files, which follow one another, under these filters."""
    with tempfile.NamedTemporaryFile("w", prefix="liq-measure-", suffix=".txt") as listed:
        for path in paths:
            listed.write("file '" + path.replace("'", "'\\''") + "'\n")
        listed.flush()
        words = ["ffmpeg", "-hide_banner", "-nostdin", "-nostats", "-f", "concat", "-safe", "0", "-i", listed.name,
                 "-af", effects, "-f", "null", "-"]
        try:
            done = subprocess.run(words, stdin=subprocess.DEVNULL, stdout=subprocess.DEVNULL, stderr=subprocess.PIPE,
                                  check=False)
        except OSError:
            raise NoAnswer("ffmpeg is missing, which measures sounds: install the package ffmpeg", 126) from None
    said = done.stderr.decode(errors="replace")
    if done.returncode:
        raise NoAnswer(f"ffmpeg cannot measure the sound: {said.strip().splitlines()[-1:]}", 5)
    return said


def number(said: str, form: str) -> float:
    """The last number of this form in what ffmpeg said."""
    found = re.findall(form, said)
    if not found:
        raise NoAnswer("ffmpeg tells no loudness; version 4.3 or later does", 126)
    return float(found[-1])


def peak_of(paths: Sequence[str]) -> float:
    """The loudest sample of WAV files that follow one another, in dB of full scale; minus infinity of silence."""
    return number(said_by(paths, "astats=measure_perchannel=none:measure_overall=Peak_level"),
                  r"Peak level dB: (-?inf|-?[\d.]+)")


def loudness_of(paths: Sequence[str]) -> float:
    """The loudness of the same by EBU R 128, in LUFS; minus infinity below the gate, -70."""
    found = number(said_by(paths, "ebur128=framelog=verbose"), r"I:\s+(-?inf|-?[\d.]+) LUFS")
    return found if found > FLOOR else -math.inf


def quiet_in(paths: Sequence[str], longer: float, below: float, seconds: float) -> "List[tuple[float, float]]":
    """The stretches of at least so many seconds in which no sample reaches so many dB of full scale, as pairs of
    seconds; the sounds last `seconds` in all."""
    said = said_by(paths, f"silencedetect=noise={below}dB:duration={longer}")
    starts = [float(one) for one in re.findall(r"silence_start: (-?[\d.]+)", said)]
    ends = [float(one) for one in re.findall(r"silence_end: ([\d.]+)", said)]
    return [(max(0.0, start), end) for start, end in zip(starts, ends + [seconds])]
