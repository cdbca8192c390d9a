"""Which lemmas nothing reaches. tests/run calls `checks`.

Answers and invariants are reached, and worked rows: statements over no variables, and files of rows. A source, a definition,
a page of docs/ and whatever is reached reach the lemmas that they name.
"""
import os
import re
from typing import Callable, Dict, Iterator, List, NamedTuple, Set, Tuple

from lib.common import TOP

WORD = re.compile(r"[^\s(){}\[\],;.`]+")
HEAD = re.compile(r"(?P<forms>(?:(?:pub|abbrev|unfoldable|record|data) +)*)(?P<name>[^\s:(){}]\S*)")
USE = re.compile(r"(?:pub )?use (?P<module>[\w+]+(?:\.[\w+]+)*)(?:\.\{(?P<names>[^}]*)\})?(?: as (?P<alias>\w+))?")
VARIANT = re.compile(r" +(?P<name>[^\s:(){}]+) : ")
BINDER = re.compile(r"[({][^(){}:]+ : ")
ANSWERS = ("Answers", "Invariants", "Proof")
ROWS = re.compile(r"(Rows|Examples|Checks)$|^Halves")


class Lemma(NamedTuple):
    """A declaration in a file of proofs: the file's module, its line from 1, its names, its words, and if it is a row."""
    module: str
    line: int
    names: Tuple[str, ...]
    words: Set[str]
    is_row: bool


class Page(NamedTuple):
    """A file of proofs: its lemmas, the module and name there of what it imports, and the words of its other lines."""
    lemmas: List[Lemma]
    imports: Dict[str, Tuple[str, str]]
    aliases: Dict[str, str]
    others: Set[str]


def read(path: str) -> str:
    """What a file says."""
    with open(path, encoding="utf-8") as file:
        return file.read()


def words_of(text: str) -> Set[str]:
    """The names that a text may mention, with the parts of those that `-` or `::` joins."""
    found = set(WORD.findall(text))
    return found.union(*(re.split("-|::", word) for word in found if "-" in word or "::" in word))


def depth_of(line: str) -> int:
    """How many blanks a line begins with."""
    return len(line) - len(line.lstrip(" "))


def name_declared(text: str, above: str) -> str:
    """The name that a line declares, or none. The clauses of the declaration above begin with its name."""
    head = HEAD.match(text)
    if not head or head["name"] == above or " : " not in text or " = " in re.sub(r"[({].*", "", text.split(" : ", 1)[0]):
        return ""
    return head["name"]


def starts_of(lines: List[str]) -> Iterator[Tuple[int, str]]:
    """The lines that begin a declaration, with its name, or something else in a file, in a `module` or in a `mutual`."""
    depths, name, opening = [0], "", False
    for number, line in enumerate(lines):
        depth, text = depth_of(line), line.strip()
        if opening:
            opening = not text.endswith("where")
        elif text and not text.startswith("--") and depth in depths:
            depths = depths[:depths.index(depth) + 1]
            if re.match(r"(pub )?(use|mod) |unfolding |module |mutual$", text):
                name = ""
                depths += [depth + 2] if re.match("module |mutual$", text) else []
                opening = text.startswith("module ") and not text.endswith("where")
                yield number, ""
            elif name_declared(text, name):
                name = name_declared(text, name)
                yield number, name


def lemma_of(module: str, line: int, name: str, text: str) -> Lemma:
    """The lemma that this text declares. A sort of data goes by its variants too."""
    forms = HEAD.match(text.strip())["forms"].split()  # type: ignore[index]
    variants = [it["name"] for it in map(VARIANT.match, text.split("\n")[1:]) if it] if "data" in forms else []
    statement = text.split(f"\n{name} ", 1)[0]
    is_row = not BINDER.search(statement) and set(forms) <= {"pub"} and not text.startswith(" ")
    return Lemma(module, line, (name, *variants), words_of(text), is_row)


def page_of(module: str, text: str) -> Page:
    """What one file of proofs declares and imports."""
    page, lines = Page([], {}, {}, set()), text.split("\n")
    starts = [*starts_of(lines), (len(lines), "")]
    for (number, name), (end, _) in zip(starts, starts[1:]):
        part, use = "\n".join(lines[number:end]), USE.match(lines[number].strip())
        if name:
            page.lemmas.append(lemma_of(module, number + 1, name, part))
        elif not use:
            page.others.update(words_of(part))
        elif use["alias"]:
            page.aliases[use["alias"]] = use["module"]
        else:
            pairs = [word.strip().partition(" as ") for word in (use["names"] or "").split(",")]
            page.imports.update({here or there: (use["module"], there) for there, _, here in pairs})
    return page


def files_of(top: str, *parts: str) -> Iterator[Tuple[str, str]]:
    """The files in these folders of all crates: each one's module, and what it says."""
    for crate in sorted(os.listdir(os.path.join(top, "crates"))):
        for part in parts:
            for folder, _, names in os.walk(os.path.join(top, "crates", crate, part)):
                for path in (os.path.join(folder, name) for name in sorted(names) if name.endswith((".rt", ".antt"))):
                    inside = os.path.splitext(os.path.relpath(path, os.path.join(top, "crates")))[0]
                    yield "Rattle." + inside.replace(os.sep, "."), read(path)


def named_outside(top: str) -> Set[str]:
    """The names in sources and definitions, and those that the pages of docs/ show as code."""
    found: Set[str] = set()
    for _, text in files_of(top, "src", "specs"):
        found |= words_of(text)
    for name in os.listdir(os.path.join(top, "docs")):
        if name.endswith(".md"):
            shown = re.findall("`[^`]+`", read(os.path.join(top, "docs", name)))
            found |= words_of(" ".join(shown))
    return found


def named_by(pages: Dict[str, Page], page: Page, words: Set[str], seen: Tuple[str, ...] = ()) -> Iterator[Lemma]:
    """The lemmas that these words of a page may mean: its own, and those of pages that it imports from."""
    yield from (it for it in page.lemmas if words.intersection(it.names))
    for name in words.intersection(page.imports):
        module, there = page.imports[name]
        if module not in pages:
            module, _, there = module.rpartition(".")
        if module in pages and module not in seen:
            yield from named_by(pages, pages[module], {there}, (*seen, module))
    for name in words.intersection(page.aliases):
        if page.aliases[name] in pages:
            yield from named_by(pages, pages[page.aliases[name]], words, (*seen, page.aliases[name]))


def unreached(top: str) -> List[Lemma]:
    """The lemmas that nothing reaches, in the order of the files."""
    pages, outside = {module: page_of(module, text) for module, text in files_of(top, "proofs")}, named_outside(top)
    lemmas = [lemma for page in pages.values() for lemma in page.lemmas]
    left, done = [lemma for page in pages.values() for lemma in named_by(pages, page, page.others)], set()
    for lemma in lemmas:
        name, path = lemma.module.rpartition(".")[2], lemma.module.replace(".", "/").partition("/")[2]
        if lemma.is_row or name in ANSWERS or ROWS.search(name) or outside.intersection({path, *lemma.names}):
            left.append(lemma)
    while left:
        lemma = left.pop()
        if (lemma.module, lemma.line) not in done:
            done.add((lemma.module, lemma.line))
            left += named_by(pages, pages[lemma.module], lemma.words)
    return [lemma for lemma in lemmas if (lemma.module, lemma.line) not in done]


def lemmas_unreached(_program: str) -> List[str]:
    """Each lemma of this checkout that nothing reaches, but for those that wait for their crate."""
    return [f"{it.module}: nothing reaches {it.names[0]} in line {it.line}" for it in unreached(TOP)]


checks: Dict[str, Callable[[str], List[str]]] = {"documents/lemmas": lemmas_unreached}
