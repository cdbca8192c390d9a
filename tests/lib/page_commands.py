"""The commands that pages show, each as it stands there, and which of them tests/commands does not run."""
import re
from typing import Dict, Iterator, List, NamedTuple, Tuple

# What an indented block begins with where its lines are commands and none stands behind `$`.
FIRST = re.compile(r"(?:\./|\.\./)?(?:bin/)?liq(?:-[a-z]+| (?!trace\b))|\./test\b|(?:tools|tests)/\w|(?:python3|cd|export|git|dpkg|pip|rt) ")

# A form of a call, with what may be left out in brackets; it is no command.
FORM = re.compile(r"\[-")

# A line of a crontab: five fields, and the command.
CRON = re.compile(r"(?:[\d*/,-]+ ){5}(.+)")

# Commands that are not run, by a part of their text, each with the reason. Each stands on a page.
NOT_RUN: Dict[str, str] = {
    "useradd ": "root, who makes a user",
    "cp /usr/share/liq/systemd/": "root, and systemd; tests/install looks at the units",
    "dpkg -i ": "root; tests/package installs the package below a folder of its own",
    "tools/package": "half a minute each; tests/package makes all packages",
    "pip install ": "an environment of its own; tests/package installs the wheel in one",
    "liq air ": "an icecast server of one's own; tests/air has one",
    "liq try ": "a browser, and it goes on until Ctrl-C; tests/try has one",
    "icecast://": "an icecast server of one's own",
    "--sshloginfile ": "other machines",
    "./test": "some tens of minutes: it calls all runners, this one too",
    "tests/": "the runners, which ./test calls",
    "tools/dist ": "programs that the prover built here; tests/dist calls it",
    "git add dist": "a commit of the repository",
}

# What is made shorter, or put into the folder of a test: a pattern, and what stands in its place.
SHORTER: Tuple[Tuple[str, str], ...] = (
    (r"\b(?:540000|90000)\b", "50"),                              # hours of ticks
    (r"(liq night [^\n]*\.liq) 12$", r"\1 0.01"),                 # a night
    (r"hours = 12\b", "hours = 0.01"),
    (r"liq station radio\b", "liq station --once radio"),         # else it keeps the station for ever
    (r"/srv/music\b", "{home}/Music"),
    (r"/srv/radio\b", "."),
    (r"/usr/local\b", "{home}/local"),
    (r"\bREPOSITORY\b", "'{repository}'"),
)


class Command(NamedTuple):
    """A command or a block of them: the line of the page on which it begins, its text, and the lines that the page shows as
    what it prints."""
    line: int
    text: str
    shown: Tuple[str, ...]

    def why_not(self) -> str:
        """Why it is not run, or nothing."""
        return next((why for part, why in NOT_RUN.items() if part in self.text), "")

    def shorter(self, **places: str) -> str:
        """Its text as it is run."""
        text = self.text
        for pattern, instead in SHORTER:
            text = re.sub(pattern, instead.format(**places), text, flags=re.M)
        return text


def logical(lines: List[str]) -> Iterator[Tuple[int, str]]:
    """The lines of a block, a line that goes on with those on which it does; each with its number in the block."""
    at = 0
    while at < len(lines):
        end = at
        while lines[end].endswith("\\") and end + 1 < len(lines):
            end += 1
        yield at, "\n".join(lines[at:end + 1])
        at = end + 1


def of_block(first: int, lines: List[str]) -> Iterator[Command]:
    """The commands of an indented block whose first line has this number."""
    if not lines[0].startswith("$ "):
        if FIRST.match(lines[0]):
            yield from (Command(first + at, text, ()) for at, text in logical(lines) if text.strip() and not FORM.search(text))
        return
    starts = [at for at, line in enumerate(lines) if line.startswith("$ ")]
    for at, end in zip(starts, [*starts[1:], len(lines)]):
        yield Command(first + at, lines[at][2:], tuple(lines[at + 1:end]))


def commands_of(text: str) -> Iterator[Command]:
    """The commands of a page in their order: a block for a shell as one, the lines of the indented blocks, those of a crontab, and
    the calls in the cells of tables that begin with `liq --`, `liq help` or `tools/`."""
    lines, at = text.split("\n"), 0
    while at < len(lines):
        end = at + 1
        if lines[at].startswith("```"):
            while end < len(lines) and not lines[end].startswith("```"):
                end += 1
            if lines[at] == "```sh":
                yield Command(at + 2, "\n".join(lines[at + 1:end]), ())
            elif lines[at] == "```":
                found = ((number, CRON.fullmatch(line)) for number, line in enumerate(lines[at + 1:end], at + 2))
                yield from (Command(number, match[1], ()) for number, match in found if match)
            end += 1
        elif lines[at].startswith("    ") and lines[at].strip():
            while end < len(lines) and lines[end].startswith("    "):
                end += 1
            yield from of_block(at + 1, [line[4:] for line in lines[at:end]])
        else:
            for call in re.findall(r"`((?:liq (?:--[a-z]|help [a-z])|tools/(?:install|package) |\./test\b)[^`]*)`", lines[at]):
                if not re.search(r"\b[A-Z]{2,}\b", call):
                    yield Command(at + 1, call, ())
        at = end
