"""Why there is no night."""
import contextlib
from typing import Iterator

from liq.failed import Failed, NoMemory

__all__ = ["Failed", "NoMemory", "Crowded", "KEPT", "named"]


class Crowded(Failed):
    """The cache has no room beside what other nights use."""


KEPT = "each output holds what it held before"


@contextlib.contextmanager
def named(path: str) -> Iterator[None]:
    """Has an error of the system that names no file name this one."""
    try:
        yield
    except OSError as error:
        if error.filename is None:
            error.filename = path
        raise
