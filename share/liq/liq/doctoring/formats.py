"""What an audio file is that is no WAV file of liq's, in words; that it is none, and why, the companion says."""
import struct
from typing import BinaryIO, Optional

NOT_RIFF, NO_FORMAT, BAD_FORMAT, NOT_PCM, NO_DATA, EMPTY = range(1, 7)     # the numbers of E21
FORMS = (
    (b"ID3", "is an MP3 file"), (b"OggS", "is an Ogg file"), (b"fLaC", "is a FLAC file"),
    (b"RF64", "is an RF64 file, the WAV form of more than 4 GiB"), (b"BW64", "is a BW64 file, a WAV form of more than 4 GiB"),
    (b"FORM", "is an AIFF file"), (b"RIFX", "is a WAV file with the high bytes first"), (b"#EXTM3U", "is a list of names"),
    (b"\x1aE\xdf\xa3", "is a Matroska file"))
TAGS = {2: "ADPCM", 3: "floating-point samples", 6: "A-law", 7: "mu-law", 17: "ADPCM", 80: "MPEG sound", 85: "MP3 sound",
        0xFFFE: "samples of a form of its own"}
CONVERT = "make a WAV file of 16 bits of it by liq prepare, or ffmpeg -i OLD -c:a pcm_s16le NEW.wav"
CONVERT_SIDES = "make a WAV file of one or two sides of it, as by ffmpeg -i OLD -ac 2 -c:a pcm_s16le NEW.wav"
AGAIN = "it was cut, so copy it again"
LISTED = "play it by playlist(..) in place of single(..)"
CHUNKS = 1000       # chunks of a file that are passed on the way to the one that is described


def form_of(front: bytes) -> str:
    """What a file is that is no WAV file, by its first bytes."""
    if not front:
        return "is empty"
    if front[4:8] == b"ftyp":
        return "is an MP4 file"
    if front[0] == 0xFF and front[1:2] and front[1] & 0xE0 == 0xE0:
        return "is an MP3 file" if front[1] & 0x06 else "is an AAC file"
    return next((words for begin, words in FORMS if front.startswith(begin)), "is no WAV file")


def chunk_of(file: BinaryIO, wanted: bytes) -> "tuple[int, bytes]":
    """How long the chunk of a name is said to be, and its first bytes; nothing of it where it is far away."""
    file.seek(12)
    for _ in range(CHUNKS):
        head = file.read(8)
        if len(head) < 8:
            break
        name, length = struct.unpack("<4sI", head)
        if name == wanted:
            return length, file.read(min(length, 40))
        file.seek(length + length % 2, 1)
    return 0, b""


def trouble_of_format(length: int, body: bytes) -> Optional[str]:
    """What the chunk `fmt ` says that liq does not play, or nothing where that is not known."""
    if length not in (16, 18, 40) or len(body) < length:
        cut = "is cut" if length in (16, 18, 40) else f"has {length} bytes"
        return f"is a WAV file whose chunk `fmt ` {cut}; {CONVERT}"
    tag, channels, rate, _, block, bits = struct.unpack_from("<HHIIHH", body)
    if tag == 0xFFFE and len(body) == 40:
        own = struct.unpack_from("<H", body, 24)[0]
        tag = own if own != 1 or bits not in (16, 24) else tag
    if tag not in (1, 0xFFFE) or bits not in (16, 24):
        told = TAGS.get(tag, f"the form {tag}") if tag != 1 else f"samples of {bits} bits"
        return f"holds {told}, and samples of 16 and of 24 bits are read; {CONVERT}"
    if channels not in (1, 2):
        return f"has {channels} channels, and one or two are read; {CONVERT_SIDES}"
    if rate == 0:
        return f"has a rate of 0 samples a second; {CONVERT}"
    if block != channels * bits // 8:
        return f"has {block} bytes for the samples of an instant, where {channels * bits // 8} are due; {CONVERT}"
    return f"holds {TAGS[0xFFFE]}, and samples of 16 and of 24 bits are read; {CONVERT}" if tag != 1 else None


def trouble_of_fault(name: str, fault: int) -> str:
    """What is wrong with a file that the companion read, by the number of E21, and what to do."""
    if fault == NO_FORMAT:
        return f"is a WAV file without a chunk `fmt ` before its sound; {CONVERT}"
    if fault == NO_DATA:
        return f"is a WAV file without a chunk `data`; {AGAIN}"
    with open(name, "rb") as file:
        if fault == NOT_RIFF:
            told = form_of(file.read(12))
            is_list = "list of names" in told or name.lower().endswith((".m3u", ".m3u8"))
            return f"{told}; {LISTED if is_list else CONVERT}"
        if fault == EMPTY:
            return "is a WAV file without a sample" + (f"; {AGAIN}" if chunk_of(file, b"data")[0] else "")
        return trouble_of_format(*chunk_of(file, b"fmt ")) or f"is a WAV file of a form that is not read; {CONVERT}"
