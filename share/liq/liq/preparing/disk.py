"""Files and folders that are brought to the disk before anything rests on them."""
import errno
import os
from typing import Iterable


def synced(path: str) -> None:
    """Brings a file, or the names of a folder, to the disk. A folder that cannot be is left to the system."""
    handle = os.open(path, os.O_RDONLY)
    try:
        os.fsync(handle)
    except OSError as error:
        if error.errno not in (errno.EINVAL, errno.ENOTSUP) or not os.path.isdir(path):
            raise
    finally:
        os.close(handle)


def write(path: str, lines: Iterable[bytes]) -> None:
    """Writes a file and brings it to the disk."""
    with open(path, "wb") as file:
        file.writelines(lines)
        file.flush()
        os.fsync(file.fileno())


def replace(path: str, target: str) -> None:
    """Puts a whole file at a name, and brings the name to the disk."""
    os.replace(path, target)
    synced(os.path.dirname(target) or ".")
