"""Temporary files that runs left beside their outputs."""
import os
import re
from typing import Iterator, Set

LONGEST = 230  # bytes of a name beside which a temporary file has the name and more


def writers_of(path: str) -> "list[str]":
    """The processes that have a file open, as far as this user may see them."""
    found = set()
    there = os.stat(path)
    for process in filter(str.isdigit, os.listdir("/proc")):
        try:
            for handle in os.scandir(f"/proc/{process}/fd"):
                if os.path.samestat(os.stat(handle.path), there):
                    found.add(process)
        except OSError:
            continue
    return sorted(found, key=int)


def temporary_files_of(place: str, named: Set[str]) -> "Iterator[tuple[str, str]]":
    """The temporary files beside an output, but for files that the script names, each with what is to be known of it."""
    folder, last = os.path.split(place)
    front = last if len(os.fsencode(last)) <= LONGEST else "liq"
    try:
        here = sorted(os.listdir(folder))
    except OSError:
        return
    for other in here:
        path = os.path.join(folder, other)
        if not re.fullmatch(re.escape(front) + r"\.unfinished[0-9]*", other) or path in named:
            continue
        writers = writers_of(path)
        if writers:
            yield path, f"is being written by process {' and '.join(writers)}"
        else:
            yield path, f"lies there with {os.stat(path).st_size} bytes: a run that was killed left it; remove it where it is none of yours"
