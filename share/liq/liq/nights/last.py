"""The script that was rendered last by --go-on: FILE.last beside the script, which is played where that is refused."""
import contextlib
import os
from typing import List

from liq.preparing import disk

ENDING = ".last"


def path_of(file: str) -> str:
    return file + ENDING


def candidates(file: str, goes_on: bool) -> List[str]:
    """The scripts that may be played, the first that can be."""
    last = path_of(file)
    return [file, last] if goes_on and os.path.isfile(last) else [file]


def keep(file: str, text: bytes) -> None:
    """Keeps a script that was rendered, where that can be."""
    if file.endswith(ENDING):
        return
    part = path_of(file) + ".part"
    with contextlib.suppress(OSError):
        disk.write(part, [text])
        disk.replace(part, path_of(file))
