"""How much memory a call of liq may take here."""
import os
import re
import resource
from typing import Iterator, Optional

OWN = 96 << 20         # bytes that liq has beside its sounds, with some room
SHARE = 0.9            # of the free memory
THREADS = 512 << 20    # bytes of addresses that the threads of liq take and do not use


def free() -> Optional[int]:
    """The bytes that a program which is started now may still take: the least of what the machine has, the limit of
    this process and those of its group. Nothing where none is known."""
    found = [size for size in (available(), own_limit(), *group_limits()) if size is not None]
    return min(found, default=None)


def for_sounds() -> Optional[int]:
    """The bytes that the sounds of a call may take."""
    size = free()
    return None if size is None else max(0, int((size - OWN) * SHARE))


def available() -> Optional[int]:
    """What the machine has free, or could free."""
    told = re.search(rb"^MemAvailable:\s+(\d+) kB", content("/proc/meminfo"), re.M)
    return int(told[1]) << 10 if told else None


def own_limit() -> Optional[int]:
    """What the limit of `ulimit -v` leaves, which counts addresses."""
    size = resource.getrlimit(resource.RLIMIT_AS)[0]
    return None if size == resource.RLIM_INFINITY else max(size - THREADS, size // 4)


def group_limits() -> Iterator[int]:
    """What is left to the groups of this process, as systemd's MemoryMax= and containers set them."""
    told = re.search(rb"^0::(/.*)$", content("/proc/self/cgroup"), re.M)
    path = os.fsdecode(told[1]) if told else "/"
    while True:
        folder = "/sys/fs/cgroup" + path.rstrip("/")
        most, used = number(folder + "/memory.max"), number(folder + "/memory.current")
        if most is not None and used is not None:
            cached = re.search(rb"^inactive_file (\d+)$", content(folder + "/memory.stat"), re.M)
            yield max(0, most - used + (int(cached[1]) if cached else 0))
        if path in ("/", ""):
            return
        path = os.path.dirname(path)


def number(path: str) -> Optional[int]:
    """The number in a file; nothing where there is none, as where no limit is set."""
    data = content(path).strip()
    return int(data) if data.isdigit() else None


def content(path: str) -> bytes:
    try:
        with open(path, "rb") as file:
            return file.read()
    except OSError:
        return b""
