"""A temporary folder that goes with the process, however that ends: also by a signal that nothing hears."""
import os
import shutil
import subprocess
import tempfile

from liq.failed import Failed

# What removes the folder once its standard input ends. That it does when this process is gone, and all that it forked.
GUARD = 'trap "" HUP INT TERM; read -r _; rm -rf -- "$1" || rm -rf -- "$1"'


class Folder:
    """A temporary folder that this user alone may read. Its name begins with a prefix. `Failed` where none can be made."""

    def __init__(self, prefix: str) -> None:
        self.owner = os.getpid()
        try:
            self.path = tempfile.mkdtemp(prefix=prefix)
        except OSError as error:
            raise Failed(f"a temporary folder: {error.strerror}", 4) from None
        try:
            words = ["/bin/sh", "-c", GUARD, "liq", self.path]
            self.guard = subprocess.Popen(words, cwd="/", stdin=subprocess.PIPE, stdout=subprocess.DEVNULL,
                                          stderr=subprocess.DEVNULL, start_new_session=True)
        except OSError as error:
            shutil.rmtree(self.path, ignore_errors=True)
            raise Failed(f"/bin/sh: {error.strerror}", 126) from None

    def at(self, *names: str) -> str:
        """The path of a file in it."""
        return os.path.join(self.path, *names)

    def write(self, name: str, data: bytes) -> str:
        """Writes a file in it, and answers its path."""
        path = self.at(name)
        with open(path, "wb") as file:
            file.write(data)
        return path

    def end(self) -> None:
        """Removes it, unless this process was forked from the one that made it. Later calls do nothing."""
        if os.getpid() != self.owner:
            return
        shutil.rmtree(self.path, ignore_errors=True)
        if self.guard.stdin is not None:
            self.guard.stdin.close()
        self.guard.wait()
