"""Why a path cannot be read or written, in words, by what the system says of it."""
import errno
import os
import stat
from typing import Optional

from liq.watching.names import shown

WAITS = ("is a pipe: a run waits until another program has written into it",
         "is no regular file: a run reads it to its end, if it has one, and may wait")
WORDS = {
    errno.ENOENT: "is not there",
    errno.ENOTDIR: "lies below something that is no folder",
    errno.EISDIR: "is a folder",
    errno.EACCES: "may not be opened by this user",
    errno.EPERM: "may not be opened: the system does not allow it",
    errno.ELOOP: "is a link that leads in a circle",
    errno.ENAMETOOLONG: "has a name that is too long for the system",
    errno.ENOSPC: "has no room: the disk is full",
    errno.EDQUOT: "has no room: the share of this user is used up",
    errno.EROFS: "lies on a disk that may only be read",
    errno.ENXIO: "cannot be opened: nobody reads it",
    errno.ETXTBSY: "is a program that is running",
    errno.EMFILE: "cannot be opened: too many files are open",
}


def says(error: OSError) -> str:
    """What went wrong, in words."""
    return WORDS.get(error.errno or 0, f"cannot be opened: {error.strerror}")


def first_missing(name: str) -> Optional[str]:
    """The first folder of a path that is not there, or nothing."""
    parts = name.split("/")
    for k in range(1, len(parts)):
        folder = "/".join(parts[:k]) or "/"
        if not os.path.exists(folder):
            return folder
    return None


def absence_of(name: str) -> str:
    """What is to be said of a file that is not there."""
    missing = first_missing(name)
    return f"is not there: there is no folder {shown(missing)}" if missing else WORDS[errno.ENOENT]


def trouble_of(name: str) -> Optional[str]:
    """Why a file cannot be read, or nothing. One that is no regular file is not opened, since that may wait."""
    try:
        mode = os.stat(name).st_mode
        if stat.S_ISDIR(mode):
            return WORDS[errno.EISDIR]
        if not stat.S_ISREG(mode):
            return WAITS[not stat.S_ISFIFO(mode)]
        with open(name, "rb") as file:
            file.read(1)
        return None
    except FileNotFoundError:
        return absence_of(name)
    except OSError as error:
        return says(error)
    except ValueError:
        return "has a NUL in its name, which no file can have"
