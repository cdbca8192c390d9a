"""What to do about a file that is not there (E01, E20), is no sound (E21), or is too large (E23, E24)."""
import difflib
import os
import re
import stat
from typing import Iterator, List, Optional, Sequence, Set

from liq.reading.facts import Facts

LISTS = (".m3u", ".m3u8", ".pls", ".xspf", ".txt")
SHOWN = 3              # names in a line
# How files begin that ffmpeg reads and liq does not, and what they are.
FORMS = ((b"ID3", "MP3"), (b"OggS", "Ogg"), (b"fLaC", "FLAC"), (b"FORM", "AIFF"), (b"\x1aE\xdf\xa3", "Matroska"),
         (b"caff", "CAF"), (b"RIFX", "RIFX"), (b"0&\xb2u", "WMA"))
LARGE = (b"RF64", b"BW64")
PARTS = {"2": "it is damaged, or of a form of its own: `ffmpeg -i {old} -c:a pcm_s16le {new}`, where that plays it",
         "3": "make it stereo and of 16 bits: `ffmpeg -i {old} -ac 2 -c:a pcm_s16le {new}`",
         "4": "make it of 16 bits: `ffmpeg -i {old} -c:a pcm_s16le {new}`",
         "5": "it was cut: copy it again", "6": "it holds no sample: look at how it was made"}


def entries(folder: str) -> List[str]:
    """The names in a folder, or none where it cannot be read."""
    try:
        return sorted(os.listdir(folder or "."))
    except (OSError, ValueError):
        return []


def front_of(name: str) -> Optional[bytes]:
    """The first bytes of a regular file, or nothing where it cannot be read."""
    try:
        if not stat.S_ISREG(os.stat(name).st_mode):
            return None
        with open(name, "rb") as file:
            return file.read(12)
    except (OSError, ValueError):
        return None


def only(names: Sequence[str]) -> Optional[str]:
    """The one of some names, or nothing where there are none or several."""
    return names[0] if len(names) == 1 else None


def roles(plan: Optional[Facts], name: str) -> "set[str]":
    """In which calls a name of a file stands: `single`, `playlist`, or both; none where no plan is known."""
    return {source.op for source in plan.sources if source.file == name} if plan else set()


def no_script(file: str) -> str:
    """E01."""
    folder, last = os.path.split(file)
    scripts = [other for other in entries(folder) if other.endswith(".liq")]
    near = only([other for other in scripts if other == last + ".liq" or other.lower() == last.lower()]) \
        or only(difflib.get_close_matches(last, scripts, 2, 0.8))
    if near:
        return f"do you mean `{os.path.join(folder, near)}`?"
    place = os.path.abspath(folder or ".")
    if not scripts:
        return f"no script lies in `{place}`"
    more = f" and {len(scripts) - 3} more" if len(scripts) > 3 else ""
    return f"`{place}` has no `{last}`; its scripts are {', '.join(f'`{one}`' for one in sorted(scripts)[:3])}{more}"


def missing(name: str, plan: Optional[Facts], file: str) -> Optional[str]:
    """E20, of a name in a script that lies in a file."""
    if re.match(r"[a-z][a-z0-9+.-]+:", name):
        return "this is an address, and nothing is fetched: save what it plays as a WAV file"
    if "#{" in name:
        return "a text is taken letter by letter: `#{..}` is not filled in"
    if name.startswith("~"):
        return "`~` is not the folder of a user here: write it out"
    folder = os.path.dirname(name)
    beside = os.path.join(os.path.dirname(file), name)
    if os.path.dirname(file) and os.path.exists(beside):
        return ("it lies beside the script, and names count from the folder of the call: call `liq` in "
                f"`{os.path.dirname(file)}`")
    if folder and not os.path.isdir(folder):
        return f"there is no folder `{folder}`"
    near = meant(name, roles(plan, name))
    return f"do you mean `{near}`?" if near else None


def meant(name: str, how: Set[str]) -> Optional[str]:
    """The file in the folder of a name that is meant, or nothing where none is or several may be."""
    folder, last = os.path.split(name)
    ends = LISTS[:3] if how == {"playlist"} else (".wav",) if how == {"single"} else (".wav", *LISTS[:3])
    here = [other for other in entries(folder) if os.path.isfile(os.path.join(folder, other))]
    stem, end = os.path.splitext(last)
    near = only([other for other in here if other.lower().strip() == last.lower().strip()])
    if near is None:
        played = [other for other in here if other.lower().endswith(ends)]
        near = only([other for other in played if os.path.splitext(other)[0] == stem]
                    or [other for other in played if os.path.splitext(other)[0] == last])
    if near is None:
        found = difflib.get_close_matches(last, [other for other in here if other.endswith(end)], 2, 0.8)
        near = only(found)
    return os.path.join(folder, near) if near is not None else None


def bad(name: str, number: str) -> Optional[str]:
    """E21."""
    if number in PARTS:
        return PARTS[number].format(old=quoted(name), new=quoted(new_name(name)))
    front = front_of(name)
    if front == b"":
        return "it is empty: look at how it was made"
    if name.lower().endswith(LISTS) or front and front.startswith(b"#EXTM3U"):
        return f'a list is played by `playlist("{name}")`'
    wav = os.path.splitext(name)[0] + ".wav"
    if wav != name and (front_of(wav) or b"").startswith(b"RIFF"):
        return f"`{wav}` lies beside it: play that"
    if front and front.startswith(LARGE):
        return "it is a WAV file of the large form: cut it into parts of less than 256 MiB, or let `liq prepare` do so"
    if front and front.lower().startswith((b"<!doctype", b"<html", b"<?xml")):
        return "it is a page, as HTML, and no sound: save the sound itself"
    what = form_of(front)
    if what is None:
        return None
    return (f"it is {what}, and no WAV file: `ffmpeg -i {quoted(name)} -c:a pcm_s16le {quoted(new_name(name))}`, or "
            "`liq prepare` for a folder")


def form_of(front: Optional[bytes]) -> Optional[str]:
    """What a file is by its first bytes, or nothing where they do not tell it."""
    if not front:
        return None
    if front[4:8] == b"ftyp":
        return "MP4"
    if front[0] == 0xFF and front[1:2] and front[1] & 0xE0 == 0xE0:
        return "MP3" if front[1] & 0x06 else "AAC"
    return next((words for begin, words in FORMS if front.startswith(begin)), None)


def too_large(name: str, plan: Facts) -> Optional[str]:
    """E23: which of the lines of docs/faults.md it is, by the call and the size of the file."""
    how = only(sorted(roles(plan, name)))
    try:
        size = os.stat(name).st_size
    except (OSError, ValueError):
        return None
    if how == "playlist":
        return f"a list has at most {plan.list_most} bytes: make several lists, and a `sequence` of their playlists"
    if how == "single" and size > plan.file_most:
        return f"an audio file has at most {plan.file_most} bytes: cut it, and play the parts by a list; `liq prepare` does so"
    if how == "single":
        return (f"at the rate of the script it has more than {plan.file_most} bytes: set a lower `frame.audio.samplerate`, "
                "or cut it")
    return None


def new_name(name: str) -> str:
    front, end = os.path.splitext(name)
    return f"{front}.wav" if end.lower() != ".wav" else f"{front}.16.wav"


def quoted(name: str) -> str:
    """A name as a word of a shell."""
    if name.startswith("-"):
        name = "./" + name
    return name if re.fullmatch(r"[\w./-]+", name, re.A) else "'" + name.replace("'", "'\\''") + "'"


def all_too_large(facts: Facts, way: str) -> str:
    """E24: of which lists the files are the most, and what to do."""
    found = sorted(weights(facts), reverse=True)
    most = [f"`{name}` {size / 1e9:.1f} GB" for size, name in found[:SHOWN] if size > facts.file_most]
    if not most:
        return way
    return (f"the files of a script have at most {facts.most / 1e9:.2f} GB together, each once; those of {', '.join(most)}: "
            f"{way}, or render it by `liq night`")


def weights(facts: Facts) -> "Iterator[tuple[int, str]]":
    """For how many bytes the files of each list count, each once, and each file of `single`."""
    for listed in facts.lists:
        yield sum(weight(facts, entry) for entry in set(listed.entries)), listed.name
    yield from ((weight(facts, name), name) for name in facts.singles)


def weight(facts: Facts, name: str) -> int:
    """For how many bytes a sound counts, if it is played."""
    return facts.sounds[name].bytes if facts.sounds[name].is_used else 0
