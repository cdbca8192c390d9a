"""The folder of the nights that are played: each by its start, so that a new one takes the place of none."""
import contextlib
import datetime
import json
import os
import re
import shutil
from typing import List

from liq.nights import starts
from liq.pages import titles
from liq.preparing import disk

FOLDER, LIST, NEW = "air", "all.json", ".new"
BESIDE = (".cue", starts.ENDING, titles.ENDING)            # what stands beside a rendering
FORM = "%Y-%m-%dT%H%M"
NAME = re.compile(r"([0-9]{4}-[0-9]{2}-[0-9]{2}T[0-9]{4})-.*", re.S)


def front_of(start: datetime.datetime) -> str:
    """How the names of a night begin."""
    return start.strftime(FORM) + "-"


def names() -> List[str]:
    try:
        return sorted(os.listdir(FOLDER))
    except FileNotFoundError:
        return []


def list_of(start: datetime.datetime) -> str:
    """The list of the renderings of a night, which is there when all of them are."""
    return os.path.join(FOLDER, front_of(start) + LIST)


def has(start: datetime.datetime) -> bool:
    """Whether the night of a start is there, with all its renderings."""
    try:
        with open(list_of(start), "rb") as file:
            told = json.loads(file.read())
        return all(os.path.exists(os.path.join(FOLDER, str(name))) for name in told)
    except (OSError, ValueError, TypeError):
        return False


def take(start: datetime.datetime, files: List[str]) -> None:
    """Takes the renderings of a night. Where that breaks off, the night is not there."""
    os.makedirs(FOLDER, exist_ok=True)
    found = [front_of(start) + os.path.basename(file) for file in files]
    for file, name in zip(files, found):
        for ending in (*BESIDE, ""):
            if os.path.exists(file + ending):
                place(file + ending, os.path.join(FOLDER, name + ending))
    disk.synced(FOLDER)
    disk.write(os.path.join(FOLDER, NEW), [json.dumps(found).encode() + b"\n"])
    disk.replace(os.path.join(FOLDER, NEW), list_of(start))


def place(file: str, target: str) -> None:
    """Gives a file another name too; a copy where the disk has no links."""
    part = os.path.join(FOLDER, NEW)
    with contextlib.suppress(FileNotFoundError):
        os.remove(part)
    try:
        os.link(file, part)
    except OSError:
        shutil.copy2(file, part)
    os.replace(part, target)


def prune(now: datetime.datetime, days: float) -> int:
    """Removes the nights that began before so many days, but for the last one; how many."""
    begun = {match[1] for name in names() if (match := NAME.fullmatch(name))}
    limit = (now - datetime.timedelta(days=days)).strftime(FORM)
    old = {front for front in sorted(begun)[:-1] if front < limit}
    for name in names():
        match = NAME.fullmatch(name)
        if match and match[1] in old:
            os.remove(os.path.join(FOLDER, name))
    return len(old)
