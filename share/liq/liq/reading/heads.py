"""Where the samples of WAV files lie. The companion is shown the fronts of the files, so that no long file is read."""
import os
import stat
from typing import Dict, Iterable, Iterator, List, NamedTuple, Optional

from liq.reading.companion import Companion, NoAnswer, temporary_folder
from liq.reading.facts import Refused, Sound

# How many bytes of a file are shown, and how many files at a time. A head that is longer is shown again, with more bytes.
FRONTS = ((1 << 12, 10000), (1 << 20, 64))
LIST = "fronts"
SCRIPT = f'output.file(%wav, "o", mksafe(playlist("{LIST}")))'.encode()


class Head(NamedTuple):
    """How the samples of a WAV file lie in it: sides, bits of a sample, samples a second, the byte at which they begin, and
    how many bytes they have."""
    sides: int
    bits: int
    rate: int
    place: int
    size: int


class Front(NamedTuple):
    """The first bytes of a regular file, and how many it has in all."""
    data: bytes
    length: int


def front_of(path: str, size: int) -> Optional[Front]:
    """The front of a file; nothing of one that is not there, may not be read, or could keep the reader waiting."""
    try:
        if not stat.S_ISREG(os.stat(path).st_mode):
            return None
        with open(path, "rb") as file:
            return Front(file.read(size), os.fstat(file.fileno()).st_size)
    except (OSError, ValueError):
        return None


def looked_at(companion: Companion, fronts: Iterable[Front]) -> List[Sound]:
    """What the companion says of fronts, in their order."""
    with temporary_folder("liq-fronts-") as folder:
        names: List[str] = []
        for front in fronts:
            names.append(str(len(names)))
            with open(os.path.join(folder, names[-1]), "wb") as file:
                file.write(front.data)
        with open(os.path.join(folder, LIST), "w", encoding="ascii") as file:
            file.writelines(f"{name}\n" for name in names)
        facts = companion.files_of(SCRIPT, folder)
    if isinstance(facts, Refused):
        raise NoAnswer("the companion takes no list of sounds", 126)
    return [facts.sounds[name] for name in names]


def head_in(front: Front, sound: Sound) -> Optional[Head]:
    """The head of a file with this front; nothing where the companion finds no samples."""
    if not sound.sides or len(front.data) < sound.place:
        return None
    said = int.from_bytes(front.data[sound.place - 4:sound.place], "little")       # samples stand behind their size
    size = max(0, min(said, front.length - sound.place))
    return Head(sound.sides, sound.bits, sound.rate, sound.place, size)


def some(paths: List[str], size: int, count: int) -> "Iterator[Dict[str, Front]]":
    """The fronts of files, so many at a time."""
    for at in range(0, len(paths), count):
        found = {path: front_of(path, size) for path in paths[at:at + count]}
        yield {path: front for path, front in found.items() if front}


def heads_of(companion: Companion, paths: Iterable[str]) -> Dict[str, Head]:
    """The heads of WAV files, by their paths. What liq does not play has none."""
    heads: Dict[str, Head] = {}
    left = list(dict.fromkeys(paths))
    for size, count in FRONTS:
        longer = []
        for fronts in some(left, size, count):
            for (path, front), sound in zip(fronts.items(), looked_at(companion, fronts.values())):
                head = head_in(front, sound)
                if head:
                    heads[path] = head
                elif front.length > size:
                    longer.append(path)
        left = longer
    return heads
