"""What tools/install and tools/package put in place: the lines of tools/installed, and the text PROVED beside them.

Only files that a line names are put in place, so that no file of a checkout which is private gets out.
"""
import email.utils
import hashlib
import os
import re
import shutil
import subprocess
import sys
from typing import Dict, Iterator, List, Optional, Set, Tuple

TOP = os.path.dirname(os.path.dirname(os.path.realpath(__file__)))
DOC = os.path.join("share", "doc", "liq")
# Who is named where no commit is known.
MAINTAINER = "Dizhuppan maintainers <maintainers@users.noreply.dizhuppan.example>"
PROVED = """These programs, of version {version}, were built from {told}
of the repository Dizhuppan{changed}, by the kit that this text names. It proves each function before anything is built. In a
package of Debian the symbols of the programs are stripped.

commit {commit}
kit {kit}
{digests}

What was said of each:

{lines}

To prove it again: check out this commit where the same kit's command rt is on PATH, and run ./test.
"""


class Failed(Exception):
    """What cannot be done, in a line."""


def said(*words: str) -> str:
    """What a command prints."""
    try:
        done = subprocess.run(words, cwd=TOP, capture_output=True, encoding="utf-8", errors="replace", check=False)
    except OSError as error:
        raise Failed(f"{words[0]}: {error.strerror}") from error
    if done.returncode != 0:
        raise Failed(f"{words[0]} ends with {done.returncode}: {' '.join(done.stderr.split())}")
    return done.stdout.strip()


def content(path: str) -> bytes:
    with open(path, "rb") as file:
        return file.read()


def listed() -> List[List[str]]:
    """The lines of tools/installed: how, the source, and the place."""
    with open(os.path.join(TOP, "tools", "installed"), encoding="utf-8") as file:
        return [line.split() for line in file if not line.startswith("#")]


def built() -> Dict[str, str]:
    """The paths of the programs, by their names. Where they cannot be built the process ends with the status of
    tools/program, which says why."""
    names = [source for how, source, _ in listed() if how == "program"]
    done = subprocess.run([os.path.join(TOP, "tools", "program"), *names], stdout=subprocess.PIPE, encoding="utf-8",
                          check=False)
    if done.returncode != 0:
        sys.exit(done.returncode)
    return dict(zip(names, done.stdout.splitlines()))


def is_changed() -> bool:
    """Whether a file that is put in place, or any file that git knows, is not as it is in the commit."""
    sources = [source for how, source, _ in listed() if how == "file"]
    tracked = set(said("git", "-c", "core.quotePath=false", "ls-files", "--", *sources).split("\n"))
    return not tracked.issuperset(sources) or said("git", "status", "--porcelain", "--untracked-files=no") != ""


class Commit:
    """The commit that is checked out, with the version of its packages. Where none is known, `why` is a line, the version is
    that of the file VERSION alone, and so is the time."""

    def __init__(self) -> None:
        path = os.path.join(TOP, "VERSION")
        self.version, self.why = content(path).decode().strip(), ""
        try:
            self.read()
        except Failed as error:
            self.why = f"the version is {self.version} alone, as no commit is known: {error}"
            self.name, self.changed, self.author, self.time = "", "", MAINTAINER, int(os.stat(path).st_mtime)

    def read(self) -> None:
        """Reads it from git."""
        if os.path.realpath(said("git", "rev-parse", "--show-toplevel")) != TOP:
            raise Failed("this folder is no checkout")
        if said("git", "rev-parse", "--is-shallow-repository") != "false":
            raise Failed("this clone has not all commits")
        self.name = said("git", "rev-parse", "HEAD")
        self.time = int(said("git", "log", "-1", "--format=%ct"))
        self.author = said("git", "log", "-1", "--format=%an <%ae>")
        has_changes = is_changed()
        self.changed = ", with changes that are in no commit" if has_changes else ""
        count = said("git", "rev-list", "--count", "HEAD")
        self.version += f"+{count}.{self.name[:8]}{'.changed' if has_changes else ''}"

    def told(self) -> str:
        return f"the commit {self.name}" if self.name else "sources of no known commit"

    def date(self) -> str:
        return email.utils.formatdate(self.time).replace("-0000", "+0000")


class Dist:
    """What dist/PROVED tells of the programs that stand in the repository."""

    def __init__(self) -> None:
        try:
            self.text = content(os.path.join(TOP, "dist", "PROVED")).decode(errors="replace")
        except OSError:
            self.text = ""
        self.digests = set(re.findall(r"(?m)^program (\w+)  ", self.text))

    def has(self, path: str) -> bool:
        """Whether a program is one of them."""
        return hashlib.sha256(content(path)).hexdigest() in self.digests

    def kit(self) -> str:
        return "".join(re.findall(r"(?m)^kit (.*)$", self.text)) or "of which dist/PROVED tells nothing"


def line_of(path: str) -> str:
    """The last line that rt said of a program."""
    try:
        return content(os.path.join(os.path.dirname(path), "proved")).decode().strip()
    except OSError:
        return "not kept; it was not built by tools/build"


def proved(commit: Commit, programs: Dict[str, str], placed: Dict[str, str]) -> bytes:
    """The text of PROVED. `programs` are those that were built, and `placed` those that are put in place."""
    dist = Dist()
    theirs = {name for name, path in programs.items() if dist.has(path)}
    below = "what dist/PROVED tells, below"
    lines = {name: below if name in theirs else line_of(path) for name, path in programs.items()}
    if len(theirs) == len(programs):
        kit = dist.kit()
    elif shutil.which("rt"):
        kit = said("rt", "version")
    else:
        kit = "of which nothing is known here: its command rt is not on PATH"
    digests = [f"program {hashlib.sha256(content(path)).hexdigest()}  {name}" for name, path in placed.items()]
    text = PROVED.format(version=commit.version, told=commit.told(), commit=(commit.name or "not known") + commit.changed,
                         changed=commit.changed, kit=kit, digests="\n".join(digests),
                         lines="\n".join(f"{name}: {line}" for name, line in lines.items()))
    return (text + (f"\ndist/PROVED of the repository:\n\n{dist.text}" if theirs else "")).encode()


def files(programs: Dict[str, str], text: bytes) -> Iterator[Tuple[str, bytes, int]]:
    """Each file that is put in place: its place, its bytes and its mode."""
    for how, source, place in listed():
        if how == "program":
            yield place, content(programs[source]), 0o755
        elif how == "file":
            path = os.path.join(TOP, source)
            yield place, content(path), 0o755 if os.access(path, os.X_OK) else 0o644
        elif how == "theorem":
            yield place, said(os.path.join(TOP, "tools", "theorem"), "--page", source).encode() + b"\n", 0o644
    yield os.path.join(DOC, "PROVED"), text, 0o644


def put(path: str, data: Optional[bytes], mode: int = 0o644, link: str = "") -> None:
    """Puts a file or a link in its place: it is made beside it, and a file is on the disk before it gets its name."""
    os.makedirs(os.path.dirname(path), exist_ok=True)
    beside = os.path.join(os.path.dirname(path), f".liq-{os.getpid()}")
    try:
        if data is None:
            os.symlink(link, beside)
        else:
            with open(beside, "wb") as file:
                os.fchmod(file.fileno(), mode)
                file.write(data)
                file.flush()
                os.fsync(file.fileno())
        os.replace(beside, path)
    except BaseException:
        if os.path.lexists(beside):
            os.remove(beside)
        raise


def unit(data: bytes, prefix: str) -> bytes:
    """A unit of systemd that names the commands below a prefix."""
    path = prefix.rstrip("/").replace("\\", "\\\\").replace("%", "%%").replace('"', '\\"')

    def command(match: "re.Match[bytes]") -> bytes:
        found = f"{path}/bin/{match[1].decode()}"
        return (f'"{found}"' if re.search(r"[\s\"';\\]", found) else found).encode()
    return re.sub(rb"/usr/bin/(liq[\w-]*)", command, data)


def lay(root: str, programs: Dict[str, str], text: bytes, prefix: str = "/usr") -> Set[str]:
    """Lays all files below a folder, and answers their places. Units of systemd name the commands below `prefix`."""
    found = set()
    for place, data, mode in files(programs, text):
        is_unit = "/systemd/" in place
        put(os.path.join(root, place), unit(data, prefix) if is_unit else data, mode)
        found.add(place)
    for how, source, place in listed():
        if how == "link":
            put(os.path.join(root, place), None, link=source)
            found.add(place)
    return found
