"""WAV files: how ffmpeg makes them of a sound, and whether one is whole."""
import errno
import os
import re
import struct
from dataclasses import dataclass, field
from typing import BinaryIO, List, Optional, Tuple

from liq.preparing.programs import Broken, Programs
from liq.preparing.sounds import Told, last_line, looked_at, state_of

HEADER = 44            # bytes before the samples
FRONT = 128            # bytes among which they begin in any case
SPARE = 4096           # bytes that are kept for what stands before the samples
SOFT = "-50dB"         # what is below it counts as silence where a long file is cut
PAUSE = 0.4            # seconds of it, at least
SLACK = 0.25           # seconds that a form may tell beside those of the sound
PATIENCE = 60          # seconds that ffmpeg may take beside the length of the sound
UNKNOWN = 3600         # seconds that count as its length where none is told
QUIET = -70            # LUFS of what counts as silence
PEAK = -1              # dB that the true peak has at most
FULL = {os.strerror(number): number for number in (errno.ENOSPC, errno.EDQUOT, errno.EFBIG, errno.EROFS)}
FINE = ":resampler=soxr:precision=28"
PLAIN = ":filter_size=64:cutoff=0.97"      # where ffmpeg was built without soxr
FFMPEG = ["ffmpeg", "-nostdin", "-hide_banner", "-nostats"]


@dataclass(frozen=True)
class Form:
    """How WAV files are made: samples a second, the loudness in LUFS or None, whether silence is added to whole seconds,
    and how many bytes a file may have."""
    rate: int
    loudness: Optional[float]
    whole: bool
    most: int = field(compare=False)

    def seconds(self, sides: int) -> int:
        """How long a file may be."""
        return (self.most - SPARE) // (2 * sides * self.rate)


@dataclass
class Made:
    """What was made of a file: the paths of its parts, and a remark or nothing."""
    parts: List[str] = field(default_factory=list)
    remark: str = ""


def filter_of(programs: Programs) -> str:
    """The words of the best filter between rates that this ffmpeg has, as far as it answers."""
    words = [*FFMPEG, "-v", "error", "-f", "lavfi", "-i", "anullsrc=r=8000:d=0.1", "-af", f"aresample=44100{FINE}",
             "-f", "null", "-"]
    try:
        return FINE if programs.call(words, PATIENCE)[2] == 0 else PLAIN
    except Broken:
        return PLAIN


def patience(sound: Told) -> float:
    """How many seconds ffmpeg may take to read a sound."""
    return PATIENCE + (sound.seconds or UNKNOWN)


def bytes_of(sound: Told, rate: int) -> int:
    """How many bytes the WAV file of a sound has about."""
    return HEADER + 2 * sound.sides * round(sound.seconds * rate)


def pauses_of(programs: Programs, path: str, seconds: float) -> List[float]:
    """The middles of the pauses of a file, in seconds."""
    words = [*FFMPEG, "-i", f"file:{path}", "-map", "0:a:0", "-af", f"silencedetect=noise={SOFT}:d={PAUSE}", "-f", "null", "-"]
    said = programs.call(words, seconds)[1]
    starts = [float(text) for text in re.findall(r"silence_start: (-?[\d.]+)", said)]
    ends = [float(text) for text in re.findall(r"silence_end: ([\d.]+)", said)]
    return [(start + end) / 2 for start, end in zip(starts, ends)]


def cuts_of(seconds: float, most: float, pauses: List[float]) -> List[float]:
    """Where a long sound is cut: in the last pause of the second half of what a part may hold, or where that ends."""
    found, at = [], 0.0
    while seconds - at > most:
        within = [place for place in pauses if at + most / 2 < place <= at + most]
        at = within[-1] if within else at + most
        found.append(at)
    return found


def gain_of(programs: Programs, path: str, sound: Told, wanted: float) -> float:
    """By how many decibels a sound is brought to a loudness by EBU R 128, with a true peak of at most -1 dB. A sound of
    one side counts as played on both."""
    sides = "mono" if sound.sides == 1 else "stereo"
    measure = f"aformat=channel_layouts={sides},ebur128=peak=true:dualmono=true:framelog=verbose"
    words = [*FFMPEG, "-i", f"file:{path}", "-map", "0:a:0", "-af", measure, "-f", "null", "-"]
    _, said, status = programs.call(words, patience(sound))
    loud, peak = (re.findall(form, said) for form in (r"I:\s+(-?[0-9.]+) LUFS", r"Peak:\s+(-?[0-9.]+) dBFS"))
    if status or not loud or not peak or float(loud[-1]) <= QUIET:
        return 0.0
    return min(wanted - float(loud[-1]), PEAK - float(peak[-1]))


def words_of(programs: Programs, path: str, sound: Told, form: Form, fine: str) -> List[str]:
    """The call of ffmpeg, but for what it writes."""
    change = ""
    if form.loudness is not None:
        change = f"volume={gain_of(programs, path, sound, form.loudness):.2f}dB:precision=float,"
    return [*FFMPEG, "-v", "error", "-i", f"file:{path}", "-map", "0:a:0", "-map_metadata", "-1", "-map_chapters", "-1",
            "-ac", str(sound.sides), "-af", f"{change}aresample={form.rate}{fine}:dither_method=triangular",
            "-ar", str(form.rate), "-c:a", "pcm_s16le", "-fflags", "+bitexact", "-flags:a", "+bitexact"]


def converted(programs: Programs, path: str, sound: Told, form: Form, fine: str, place: str) -> Made:
    """Makes the WAV file of a sound in an empty folder, or several of a long one."""
    most, cuts = form.seconds(sound.sides), []
    if sound.seconds > most:
        cuts = cuts_of(sound.seconds, most - 1, pauses_of(programs, path, patience(sound)))
    words = words_of(programs, path, sound, form, fine)
    if cuts:
        name = os.path.join(place.replace("%", "%%"), "%03d.wav")
        words += ["-f", "segment", "-segment_times", ",".join(f"{cut:.3f}" for cut in cuts), "-segment_format", "wav"]
    else:
        name = os.path.join(place, "000.wav")
        words += ["-f", "wav"]
    _, said, status = programs.call([*words, f"file:{name}"], patience(sound))
    for text, number in FULL.items():
        if text in said:
            raise OSError(number, text, os.path.dirname(place))
    if status != 0:
        raise Broken(last_line(said, path))
    return examined([os.path.join(place, name) for name in sorted(os.listdir(place))], sound, form, said, path)


def examined(parts: List[str], sound: Told, form: Form, said: str, path: str) -> Made:
    """What ffmpeg made, where it is whole; Broken where it is not."""
    frames = [frames_in(part) for part in parts]
    if None in frames:
        raise Broken("ffmpeg wrote no whole WAV file")
    seconds = sum(count or 0 for count in frames) / form.rate
    if seconds == 0:
        raise Broken("there is no sound in it")
    if any(os.path.getsize(part) > form.most for part in parts):
        raise Broken(f"it lasts {seconds / 60:.0f} minutes, and its length was not told: cut it")
    if form.whole:
        fill(parts[-1], form.rate)
    return Made(parts, "" if sound.is_estimate else remark_on(seconds, sound.seconds, said, path))


def made_of(programs: Programs, path: str, form: Form, fine: str, place: str) -> Tuple[Told, Made, List[int]]:
    """Makes the WAV files of a file in an empty folder: its sound, what was made, and the state of the file. Broken where
    it changes meanwhile."""
    state = state_of(path)
    sound = looked_at(programs, path)
    made = converted(programs, path, sound, form, fine, place)
    if state_of(path) != state:
        raise Broken("it changed while it was read")
    return sound, made, state


def form_in(file: BinaryIO) -> Optional[Tuple[int, int, int]]:
    """The bytes of an instant in a WAV file of this program, where its samples begin, and how many bytes they have;
    nothing where it is cut, or is none."""
    head, size = file.read(FRONT), os.fstat(file.fileno()).st_size
    if len(head) < HEADER or head[:4] != b"RIFF" or head[8:16] != b"WAVEfmt ":
        return None
    at = 28 + struct.unpack_from("<I", head, 16)[0]        # the form is longer above 48000 samples a second
    if head[at - 8:at - 4] != b"data" or len(head) < at:
        return None
    whole, block, data = (struct.unpack_from(form, head, k)[0] for form, k in (("<I", 4), ("<H", 32), ("<I", at - 4)))
    return (block, at, data) if block and whole + 8 == size and data + at == size else None


def frames_in(path: str) -> Optional[int]:
    """How many samples a side a WAV file of this program has; nothing where it is cut, or is none."""
    with open(path, "rb") as file:
        form = form_in(file)
    return form[2] // form[0] if form else None


def fill(path: str, rate: int) -> None:
    """Adds silence to a WAV file up to a whole second."""
    with open(path, "r+b") as file:
        form = form_in(file)
        more = -(form[2] // form[0]) % rate * form[0] if form else 0
        if not form or not more:
            return
        file.seek(0, os.SEEK_END)
        file.write(bytes(more))
        for at, size in ((4, form[1] + form[2] + more - 8), (form[1] - 4, form[2] + more)):
            file.seek(at)
            file.write(struct.pack("<I", size))


def remark_on(seconds: float, told: float, said: str, path: str) -> str:
    """What is to be known of a file that was made of a sound that is told to last so long."""
    if told and seconds < 0.98 * told - SLACK:
        why = f" ({last_line(said, path)})" if said.strip() else ""
        return f"damaged: {seconds:.1f} s of {told:.1f} s are played{why}"
    return ""
