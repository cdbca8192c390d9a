"""Names: which files are sounds, how their WAV files are called, and in which order a list has them."""
import hashlib
import os
import unicodedata
from typing import Callable, Container, Dict, List

SOUNDS = (".mp3", ".mp2", ".flac", ".ogg", ".oga", ".opus", ".m4a", ".m4b", ".mp4", ".aac", ".wav", ".wave", ".w64",
          ".aif", ".aiff", ".aifc", ".wma", ".ape", ".wv", ".mpc", ".tta", ".au", ".snd", ".caf", ".ac3", ".mka",
          ".webm", ".spx")
LONGEST = 180          # bytes of a name without its ending, so that what stands behind it has room
AHEAD = 50             # names among which one of another artist is sought
UNHELD = ("Cc", "Cs", "Zl", "Zp")      # kinds of characters that no line of a list holds, or that are no UTF-8


def is_sound(name: str) -> bool:
    return name.lower().endswith(SOUNDS)


def is_held(text: str) -> bool:
    """Whether a line of a list can hold a text as it is."""
    return not any(unicodedata.category(c) in UNHELD for c in text)


def plain(name: str) -> str:
    """A part of a path as a line of a list can hold it, and not too long."""
    text = "".join("_" if unicodedata.category(c) in UNHELD else c for c in name)
    return text.encode()[:LONGEST].decode(errors="ignore") or "_"


def new_path(path: str) -> str:
    """How the WAV file of a relative path is called, where nothing else has this name."""
    folder, last = os.path.split(path)
    parts = [plain(part) for part in folder.split("/") if part]
    return "/".join(parts + [plain(os.path.splitext(last)[0]) + ".wav"])


def free(wanted: str, taken: Container[str], ending: str) -> str:
    """A path that is not taken: the one that is wanted, or with the old ending before the new one, or with a number."""
    front = wanted.removesuffix(".wav")
    if wanted not in taken:
        return wanted
    if ending and f"{front}{ending}.wav" not in taken:
        return f"{front}{ending}.wav"
    return next(path for k in range(2, 1 << 40) if (path := f"{front} ({k}).wav") not in taken)


def part_of(seed: int, text: str) -> float:
    """A number from 0 to 1 that a seed and a text have."""
    data = hashlib.sha256(f"{seed}\0{text}".encode(errors="surrogateescape")).digest()
    return int.from_bytes(data[:6], "big") / (1 << 48)


def mixed(names: List[str], seed: int, artist_of: Callable[[str], str]) -> List[str]:
    """Names in an order of a seed, with each artist's names as far apart as may be. One more name leaves those of other
    artists in their order."""
    of_artist: Dict[str, List[str]] = {}
    for name in names:
        of_artist.setdefault(artist_of(name) or f"\0{name}", []).append(name)
    places = []
    for artist, own in of_artist.items():
        first = part_of(seed, artist)
        for k, name in enumerate(sorted(own, key=lambda name: (part_of(seed, name), name))):
            places.append(((k + first + (part_of(seed, name) - 0.5) / 5) / len(own), part_of(seed, name), name))
    return apart([name for _, _, name in sorted(places)], artist_of)


def apart(names: List[str], artist_of: Callable[[str], str]) -> List[str]:
    """Names in their order, but a name behind one of the same artist changes its place with the next one that fits."""
    found = list(names)
    for k in range(1, len(found)):
        artist = artist_of(found[k])
        if artist and artist == artist_of(found[k - 1]):
            for j in range(k + 1, min(len(found), k + AHEAD)):
                if artist_of(found[j]) != artist:
                    found[k], found[j] = found[j], found[k]
                    break
    return found
