"""What `liq check` says of a script of Liquidsoap, at the lines of that script: it is brought over, and what stops there by
itself is made to stop here, so that what is left out does not make silence look safe."""
import re
from dataclasses import dataclass, field
from typing import IO, Dict, Iterator, List, Optional, Tuple

from liq.adopting.answer import Asked, answer, place_in, put
from liq.adopting.marks import Places
from liq.adopting.notes import LESS, YOU, Notes
from liq.adopting.scope import content
from liq.adopting.tokens import Token, Trouble, tokens_of
from liq.adopting.tree import Tree
from liq.adopting.whole import Brought, brought_over, same_places
from liq.advising.lines import Advice, place_of
from liq.reading.companion import Companion, temporary_folder
from liq.reading.facts import Facts
from liq.weeks.told import told

FAULT, SILENT, HINT = "fault", "silent", "hint"
OUTPUT = re.compile(r"output (.*) clock .* (fallible|infallible)")
SAID = "this output may fall silent"
WAY = "this may stop by itself: put `mksafe(..)` round it, or behind it another source by `fallback([.., ..])`"


@dataclass(frozen=True)
class Told:
    """What is said of a place of the old script: `sort` is "fault", "silent", "hint", "less" or "you"; `at` and `behind` are
    characters of the script, from 0; `line` and `column` count from 1, a column in characters; `help` is what to do, or
    nothing."""
    sort: str
    at: int
    behind: int
    line: int
    column: int
    what: str
    help: Optional[str] = None


@dataclass
class Verdict:
    """What is said of a script. `is_same`: liq takes it as it stands. `new` is the text that liq was asked of, and `places`
    has for each place of it, in characters, that of the old script. `is_refused`: liq refuses `new`. `may_fall_silent`: an
    output may have nothing to play, or has silence in some hour of the week. `told` is the verdict; `rests` what it rests
    on: each edit by which something is lost, or that the reader has to decide."""
    text: str
    new: str
    places: Places
    is_same: bool = False
    is_refused: bool = False
    may_fall_silent: bool = False
    told: List[Told] = field(default_factory=list)
    rests: List[Told] = field(default_factory=list)

    @property
    def status(self) -> int:
        """0 if no output may fall silent, liq takes the script, and nothing is left to decide; else 1."""
        return int(self.is_refused or self.may_fall_silent or any(one.sort == YOU for one in self.rests))

    def old_place(self, line: int, column: int) -> Tuple[int, int]:
        """The line and the column in the old script of a line and a column of `new`; both count from 1."""
        return line_and_column(self.text, self.places.of(character(self.new, line, column)))


class Within(Companion):
    """A companion that is called in a folder, from which names count."""

    def __init__(self, other: Companion, folder: str) -> None:
        super().__init__(other.path, other.seconds)
        self.folder = folder

    def call(self, verb: str, file: str, given: bytes = b"", folder: Optional[str] = None,
             out: Optional[IO[bytes]] = None) -> bytes:
        return super().call(verb, file, given, folder or self.folder, out)


def character(text: str, line: int, column: int) -> int:
    """The place of a line and a column, in characters from 0."""
    begin = 0
    for _ in range(line - 1):
        begin = text.find("\n", begin) + 1
        if not begin:
            return len(text)
    return begin + column - 1


def line_and_column(text: str, at: int) -> Tuple[int, int]:
    """The line and the column of a character, both from 1."""
    return text.count("\n", 0, at) + 1, at - text.rfind("\n", 0, at)


class Check:
    """A check of a script that was brought over, in a folder."""

    def __init__(self, text: str, folder: str, asked: Asked, found: Brought) -> None:
        self.folder, self.asked, self.companion = folder, asked, Within(asked.companion, folder)
        self.verdict = Verdict(text, found.new, found.places)
        self.tokens = tokens_or_none(text)
        self.ends = {token.at: token.behind for token in self.tokens}

    def add(self, sort: str, at: int, what: str, way: Optional[str] = None) -> None:
        """Adds what is said of a place of the new text."""
        self.verdict.told.append(self.placed(sort, self.verdict.places.of(at), what, way))

    def placed(self, sort: str, at: int, what: str, way: Optional[str] = None) -> Told:
        """What is said of a place of the old script."""
        return Told(sort, at, self.ends.get(at, min(at + 1, len(self.verdict.text))),
                    *line_and_column(self.verdict.text, at), what, way)

    def run(self) -> None:
        """Asks liq, and then for the hours of the week."""
        with temporary_folder("liq-adopt-") as place:
            path = put(place, self.verdict.new)
            done = answer([self.asked.liq, "check", path], self.folder)
            if done.returncode == 1:
                self.refused(path, done.stderr.rstrip("\n"))
            elif done.returncode:
                self.verdict.is_refused = True
                self.add(FAULT, 0, f"liq check ends with status {done.returncode}, which prints no line: see liq doctor")
            else:
                self.outputs(done.stdout)
                self.lists(path)
                self.hours(path)

    def refused(self, path: str, line: str) -> None:
        """A fault, with its place and its help."""
        shown = self.companion.where(path, line + "\n").split("\n")
        place = next(filter(None, (place_of(one, path) for one in shown)), None)
        at = place_in(self.verdict.new, path, shown)
        way = Advice(path, self.companion).line(line, place)
        self.verdict.may_fall_silent = line.startswith("E25")
        self.verdict.is_refused = not self.verdict.may_fall_silent
        if self.verdict.may_fall_silent:
            self.add(SILENT, at, f"{line}: {SAID}", WAY if self.is_made(at) else way)
        else:
            self.add(FAULT, at, line, way)

    def is_made(self, at: int) -> bool:
        """Whether what never plays at a place of the new text stands for something of the old one."""
        old = self.verdict.text[self.verdict.places.of(at):]
        return self.verdict.new.startswith("fail()", at) and not old.startswith(("fail", "source.fail", "empty"))

    def outputs(self, report: str) -> None:
        """The outputs that may have nothing to play."""
        for line in report.split("\n"):
            match = OUTPUT.fullmatch(line)
            if match and match[2] == "fallible":
                self.verdict.may_fall_silent = True
                self.add(SILENT, output_at(self.verdict.new, match[1]), f"{SAID}: gaps are filled with silence")

    def lists(self, path: str) -> None:
        """The lists of which no entry can be played: what plays them may be silence, though it is never without a source."""
        facts = self.companion.files(path)
        if not isinstance(facts, Facts):
            return
        data = self.verdict.new.encode("utf-8", "surrogateescape")
        dead = {one.name for one in facts.lists if not facts.playable(one)}
        lists = [(len(data[:source.at or 0].decode("utf-8", "surrogateescape")), source.file) for source in facts.sources
                 if source.op == "playlist"]
        is_safe = bool(dead) and self.plays_without([(at, name in dead) for at, name in lists])
        for at, name in lists:
            if name in dead:
                self.verdict.may_fall_silent = self.verdict.may_fall_silent or not is_safe
                self.add(HINT if is_safe else SILENT, at, f"no entry of {name} can be played: " + (
                    "what stands behind it plays" if is_safe else "silence, or what stands behind it"))

    def plays_without(self, lists: List[Tuple[int, bool]]) -> bool:
        """Whether liq says that each output always has a source, without `mksafe`, if the lists that stand at these places
        of the new text never play where they are dead, and always do where they are not."""
        try:
            text = AsTheyAre(self.verdict.new, dict(sorted(lists))).text()
        except Trouble:
            return False
        with temporary_folder("liq-adopt-") as place:
            done = answer([self.asked.liq, "check", put(place, text)], self.folder)
        return done.returncode == 0 and not any(match and match[2] == "fallible" for match in map(OUTPUT.fullmatch, done.stdout.split("\n")))

    def hours(self, path: str) -> None:
        """The hours of the week in which a switch has nothing to play."""
        week = told(self.companion, path)
        self.verdict.may_fall_silent = self.verdict.may_fall_silent or week.sum_of is not None
        for line in week.once():
            found = re.search(r":(\d+):(\d+)$", line.place or "")
            at = character(self.verdict.new, int(found[1]), int(found[2])) if found else 0
            self.add(SILENT if ": silence" in line.text else HINT, at, line.text)


def tokens_or_none(text: str) -> List[Token]:
    """The tokens of a script; none of one that cannot be cut."""
    try:
        return tokens_of(text)
    except Trouble:
        return []


class AsTheyAre:
    """A text of this language without `mksafe`. At the places of `lists` `fail()` stands for those that are dead, and
    `blank()` for the others, but for those that end. What stood in a `mksafe` is an output of its own, since silence
    hides whether it plays."""

    def __init__(self, text: str, lists: Dict[int, bool]) -> None:
        self.tree, self.lists = Tree(text), lists
        self.above: List[str] = []
        self.count = 0

    def text(self) -> str:
        """The whole text. Trouble where a `mksafe` stands in a def, of which no output can be made."""
        found = []
        for statement in self.tree.statements:
            said = self.between(statement.first, statement.behind, statement.kind == "def")
            found += [*self.above, said]
            self.above = []
        outputs = [f'output.file(%wav, "liq-adopt-{number}.wav", liq_adopt_{number})' for number in range(self.count)]
        return "\n".join([*found, *outputs, ""])

    def between(self, first: int, behind: int, is_def: bool) -> str:
        """What stands between two tokens."""
        tree, parts, number = self.tree, [], first
        place = tree.tokens[first].at if first < behind else 0
        while number < behind:
            token, last = tree.tokens[number], tree.mates.get(number + 1)
            made = self.call(number, last, is_def) if last is not None and last < behind else None
            if made is not None and last is not None:
                parts += [tree.text[place:token.at], made]
                place, number = tree.tokens[last].behind, last
            number += 1
        return "".join(parts) + tree.text[place:tree.tokens[behind - 1].behind] if first < behind else ""

    def call(self, number: int, last: int, is_def: bool) -> Optional[str]:
        """What stands for a call of a list or of `mksafe`, or nothing where it stays."""
        tree, token = self.tree, self.tree.tokens[number]
        if token.at in self.lists:
            is_ending = any(tree.word(k) == "loop" for k in range(number, last))
            return "fail()" if self.lists[token.at] else None if is_ending else "blank()"
        if tree.word(number) != "mksafe":
            return None
        if is_def:
            raise Trouble(token.at, "a `mksafe` in a def")
        said = f"amplify(1., {self.between(number + 2, last, False)})"
        name, self.count = f"liq_adopt_{self.count}", self.count + 1
        self.above.append(f"{name} = {said}")
        return name


def output_at(text: str, name: str) -> int:
    """Where the output of a name begins in a text of this language."""
    begin = 0
    for token in tokens_or_none(text):
        if token.text == "output.file":
            begin = token.at
        elif token.kind == "text" and content(token.text) == name:
            return begin
    return begin


def rests_of(check: Check, notes: Notes, is_changed: bool) -> Iterator[Told]:
    """What the verdict rests on."""
    for note in notes.kept(is_changed):
        if note.sort in (LESS, YOU):
            yield check.placed(note.sort, note.at, note.what)


def checked(text: str, folder: str, asked: Asked) -> Verdict:
    """What liq says of a script of Liquidsoap, at its own lines. `text` is decoded with `surrogateescape`. Names of files
    count from `folder`, in which nothing is written. `NoAnswer` where the programs have none."""
    is_same = asked.is_accepted(text)
    try:
        found = brought_over(text, lambda _: False, True)
    except Trouble as trouble:
        verdict = Verdict(text, text, same_places(text), is_refused=True)
        line, column = line_and_column(text, trouble.at)
        verdict.told.append(Told(FAULT, trouble.at, min(trouble.at + 1, len(text)), line, column, trouble.what))
        return verdict
    check = Check(text, folder, asked, found)
    check.verdict.is_same = is_same
    check.verdict.rests = list(dict.fromkeys(rests_of(check, found.notes, not is_same)))
    check.run()
    return check.verdict


def lines_of(verdict: Verdict, name: str) -> Iterator[str]:
    """The lines that are printed: the verdict, and then what it rests on."""
    for one in verdict.told:
        yield f"{name}:{one.line}:{one.column}: {one.sort}: {one.what}"
        if one.help:
            yield f"help: {one.help}"
    for one in verdict.rests:
        yield f"{name}:{one.line}: {one.sort}: {one.what}"
    if verdict.is_refused:
        yield f"{name}: liq refuses what it becomes"
    elif verdict.may_fall_silent:
        yield f"{name}: an output may fall silent"
    else:
        count = sum(one.sort == YOU for one in verdict.rests)
        yield f"{name}: no output falls silent" + (f", if you decide {count} thing{'s' * (count > 1)} so" if count else "")
