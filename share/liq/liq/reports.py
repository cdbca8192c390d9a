"""Reports: files with a line of JSON for each run of a command."""
import json
import os
from typing import Any, Dict, Optional

LAST = 1 << 20         # bytes of a report in which its last line is sought


def last_of(path: str) -> Dict[str, Any]:
    """The last line of a report; nothing where there is none. A pipe or a device is not read, since that may have no end."""
    try:
        if not os.path.isfile(path):
            return {}
        with open(path, "rb") as file:
            file.seek(max(0, os.path.getsize(path) - LAST))
            told = json.loads(file.read(LAST).rstrip(b"\n").rpartition(b"\n")[2])
        return told if isinstance(told, dict) else {}
    except (OSError, ValueError):
        return {}


def is_broken(path: str) -> bool:
    """Whether the last line of a report has no end. A pipe or a device has none."""
    if not os.path.isfile(path) or not os.path.getsize(path):
        return False
    with open(path, "rb") as file:
        file.seek(-1, os.SEEK_END)
        return file.read() != b"\n"


def add_line(path: str, told: Dict[str, Any]) -> Optional[str]:
    """Adds a line to a report, and brings it to the disk; why that cannot be, or nothing. A line that broke off, as by a power
    cut, is ended first."""
    try:
        with open(path, "ab") as file:
            file.write((b"\n" if is_broken(path) else b"") + json.dumps(told, ensure_ascii=True).encode() + b"\n")
            file.flush()
            os.fsync(file.fileno())
        return None
    except OSError as error:
        return error.strerror
