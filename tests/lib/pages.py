"""What the pages say of crates and of their statements, and the commands that they have. tests/run calls `checks`."""
import glob
import hashlib
import importlib.machinery
import importlib.util
import os
import re
import shutil
import subprocess
import sys

from lib import contracts
from lib.checkout import installed
from lib.common import TOP
from lib.documents import (cells_of, crates_and_their_uses, documents, is_there, rooms_of_crates, rows_of_tables,
                           section, sources, text_of)

# The most words that the page of a crate has, and the most bytes of a drawing.
MOST_WORDS = 300
MOST_OF_A_FIGURE = 60 * 1024

# The most words of a sentence, of a sentence of a page on average, of the README, and of all pages together.
MOST_OF_SENTENCE, MOST_ON_AVERAGE, MOST_OF_README, MOST_OF_ALL = 45, 22, 1500, 82500

# Operators of a plan, of several kinds: where all of them stand, operators are gone through one by one.
OPERATORS = ("Mean", "Rotate", "Crossfade", "Blank")

# The first words of a command that are files of the repository.
OWN = re.compile(r"(?:\.\./|\./)?(?:bin|tools|tests|bench)/[\w/.-]+|\.\.?/[a-z]+(?=$|\s)")

# A call of a tool on a page, behind `tools/`.
CALLS = re.compile(r"tools/(theorem(?: [\w:]+| --[a-z]+(?:=\d+)?)+|lists(?: \w+)+)")


def told_by(*words):
    """What a tool prints, or nothing where it fails."""
    call = [os.path.join(TOP, "tools", words[0]), *words[1:]]
    done = subprocess.run(call, capture_output=True, check=False, timeout=900)
    return done.stdout.decode() if done.returncode == 0 else ""


def page_of(crate):
    return text_of(f"crates/{crate}/README.md")


def lengths_that_pass(_program):
    """The page of a crate has at most so many words; what has no letter and no digit is none."""
    counts = {crate: sum(1 for word in page_of(crate).split() if re.search(r"\w", word))
              for crate in crates_and_their_uses()}
    return [f"crates/{crate}/README.md has {count} words" for crate, count in counts.items() if count > MOST_WORDS]


def edits_of(crate):
    """The edits of a crate that must fail."""
    paths = glob.glob(os.path.join(TOP, "crates", crate, "must-fail", "*.edit"))
    return {os.path.basename(path).removesuffix(".edit") for path in paths}


def wrong_refusal(crate, clause, call):
    """What is wrong with an edit that is refused by a clause of a call, or by a call whose clauses have no names."""
    there = contracts.functions(crate, call)
    if not there:
        return [f"{crate} has no function {call}"]
    known = set().union(*map(contracts.named_by, there))
    return [f"{call} has no clause {clause}"] if clause and clause not in known else []


def wrong_edits(crate):
    """What is wrong with the paragraph of the edits that must fail on the page of a crate."""
    told = page_of(crate).partition("Must-fail edit")[2].split("\n\n", 1)[0]
    edits = edits_of(crate)
    found = [f"the edit {name} is not told" for name in sorted(edits) if f"`{name}`" not in told]
    found += ["edits are told, and there are none"] if told and not edits else []
    for clause, call in re.findall(r"refused by `(\w+)` of `([\w:]+)`", told):
        found += wrong_refusal(crate, clause, call)
    for call in re.findall(r"refused by `([\w:]+)`(?! of)", told):
        found += wrong_refusal(crate, "", call)
    return found


def refusals_that_differ(_program):
    """The page of a crate names each edit that must fail, and what refuses it: `clause` of `call`, or `call`."""
    return [f"crates/{crate}/README.md: {fault}" for crate in crates_and_their_uses() for fault in wrong_edits(crate)]


def statements_that_differ(_program):
    """The counts of the theorem on the page of promises are those of the tool; in the theorem no name stands for two things, no
    thing has two names, no name leads out of it, and all of it stands in chapters."""
    page, count = text_of("docs/promises.md"), told_by("theorem", "--count").strip()
    found = [] if count and count in page else [f"docs/promises.md does not tell the count: {count}"]
    found += [f"a thing has two names: {row}" for row in told_by("theorem", "--under").splitlines() if row]
    found += [f"two things have one name: {row}" for row in told_by("theorem", "--twice").splitlines() if row]
    found += [f"a name leads out of the theorem: {row}" for row in told_by("theorem", "--open").splitlines() if row]
    return found + (["a file of the theorem stands in no chapter"] if ". Others\n" in told_by("theorem") else [])


def tools_that_fail(_program):
    """Each call of tools/facts on a page names a crate, and each of tools/theorem and tools/lists prints something."""
    found, calls = [], {}
    for page in documents():
        text = text_of(page)
        crates = re.findall(r"tools/facts (?:--whole )?([a-z]\w*)", text)
        found += [f"{page} asks for facts of {name}" for name in crates if name not in crates_and_their_uses()]
        calls.update({words: page for words in CALLS.findall(text) if not re.search(r"\b[A-Z]{2,}\b", words)})
    empty = [words for words in calls if not told_by(*words.split()).strip("0 files, crates\n")]
    return found + [f"{calls[words]} asks for tools/{words}, which prints nothing" for words in empty]


def proofs_that_fail(_program):
    """tools/prove proves a crate of a few functions, and knows no other crate; this is not tried where there is no prover."""
    if not shutil.which("rt") or "LIQ_BUILT" in os.environ:
        print("pages/prove: is not tried, as there is no prover")
        return []
    proved = re.search(r"^only=(\d+) proved=(\d+)$", told_by("prove", "seed_words"), re.M)
    found = [] if proved and proved[1] == proved[2] != "0" else ["tools/prove does not prove seed_words"]
    return found + (["tools/prove knows a crate that is not there"] if told_by("prove", "no_crate") else [])


def commands_of(text):
    """The lines of a page that are commands: those of a block for a shell, and those that stand indented."""
    for block in re.findall(r"```sh\n(.*?)```", text, flags=re.S):
        yield from block.split("\n")
    for line in re.findall(r"^    .*$", text, flags=re.M):
        yield line.strip().removeprefix("$ ")


def commands_that_are_missing(_program):
    """Each command of a page that is a file of the repository is there, from the top or from the folder of a page; and each that is
    called by the name of an installed one, as `liq-page`, is installed."""
    found, names = [], {os.path.basename(place) for _, _, place in installed() if place.startswith("bin/")}
    for page in documents():
        called = re.findall(r"(?<![\w\\-])liq\\?-[a-z]+\b", text_of(page))
        found += [f"{page} has the command {name}" for name in called if name.replace("\\", "") not in names]
        words = [word for line in commands_of(text_of(page))
                 for word in re.findall(r"(?:^|[|&;] *)(%s)" % OWN.pattern, line)]
        places = ["", os.path.dirname(page), "examples", "dist"]
        found += [f"{page} has the command {word}" for word in words if not is_there(word, places)]
    return found


def crates_that_are_missing(_program):
    """Each crate that a page names behind that word, or first in a column of crates, is in crates.txt or of the kit; so is each that
    a measurement of bench/texts uses."""
    uses, told = crates_and_their_uses(), []
    there = {name for names in uses.values() for name in names}.union(uses)
    for page in documents():
        text = text_of(page)
        cells = re.findall(r"\bcrates? ((?:`\w+`(?:, | and )?)+)", text)
        first = [re.findall(r"^`(\w+)`", cell) for row in rows_of_tables(text) for head, cell in row if head == "crate"]
        told += [(page, name) for cell in cells for name in re.findall(r"\w+(?=`)", cell)] + [(page, name) for names in first for name in names]
    for path in sorted(glob.glob(os.path.join(glob.escape(TOP), "bench", "texts", "*", "main.rattle"))):
        page = os.path.relpath(path, TOP)
        told += [(page, name) for name in text_of(page).split("\n", 1)[0].partition("uses:")[2].split()]
    return [f"{page} names the crate {name}" for page, name in told if name not in there]


def lists_that_are_not_told(_program):
    """Each file that goes through operators one by one stands on the page on extending, in a line with its crate."""
    lines, found = text_of("docs/extending.md").split("\n"), []
    for path in re.findall(r"^crates/(\S+) \d+$", told_by("lists", *OPERATORS), flags=re.M):
        crate, _, rest = path.partition("/")
        if not any(f"{crate}/" in line and f"{rest}`" in line for line in lines):
            found.append(f"docs/extending.md does not name {rest} of {crate}")
    return found


def is_defined(crate, word):
    """Whether a crate has a file of this path, or a definition or a type of this name."""
    if "/" in word:
        return os.path.exists(os.path.join(TOP, "crates", crate, word))
    head = r"^(?:abbrev |unfoldable )?pub (?:record |data |struct |enum |trait )?%s\b" % re.escape(word)
    paths = [path for end in ("specs/*.antt", "src/**/*.rt")
             for path in glob.glob(f"{TOP}/crates/{crate}/{end}", recursive=True)]
    return any(re.search(head, contracts.text_of(path), re.M) for path in paths)


def wrong_words(crates, cell):
    """The words of a cell of the table of crates that are no function of these crates, no clause of a function before
    them, no crate, no file and no definition."""
    found, uses = [], crates_and_their_uses()
    around = [name for crate in crates for name in [crate, *uses[crate]]]
    for part in cell.split(";"):
        known = set()
        for word in re.findall(r"`([^`]+)`", part):
            there = [one for crate in crates for one in contracts.functions(crate, word)]
            known |= {name for one in there for name in contracts.named_by(one)}
            if not there and word not in known and word not in uses:
                found += [] if any(is_defined(crate, word) for crate in around) else [word]
    return found


def crates_that_differ(_program):
    """In the table of crates each clause to read first stands at the function before it."""
    rows = [cells for cells in map(cells_of, section(text_of("docs/architecture.md"), "Crates")) if len(cells) == 4]
    named = [(re.findall(r"`(\w+)`", cells[1]), cells[3]) for cells in rows]
    return [f"docs/architecture.md names {word} beside {crates[0]}"
            for crates, cell in named if crates for word in wrong_words(crates, cell)]


def files_named(path):
    """The files of the crates that a page names: by a path from the top, by one within a crate, or by its last part."""
    if path.startswith("crates/"):
        return glob.glob(os.path.join(TOP, path))
    return glob.glob(f"{TOP}/crates/*/{path}") + glob.glob(f"{TOP}/crates/*/*/{path}")


def stands_in(name, path):
    """Whether a file declares a name: as a definition, a type, a constant, a function or a constructor."""
    heads = r"^ *(?:abbrev |unfoldable |pub(?:\(\w+\))? |const |static )*(?:record |data |struct |enum |trait |fn |mod |law )?"
    return re.search(heads + rf"{re.escape(name)}(?=[ :(<{{;,]|$)", contracts.text_of(path), re.M) is not None


def names_that_stand_elsewhere(_program):
    """A name that a page puts into a file, as `NAME` in `FILE`, is declared there; and a test that it names is there."""
    found = []
    paths = [path for end in ("crates/*_tests/src/*.rt", "tests/*", "tests/lib/*.py") for path in glob.glob(f"{TOP}/{end}")]
    tests = "\n".join(contracts.text_of(path) for path in paths if os.path.isfile(path))
    for page in documents():
        text = text_of(page)
        for name, path in re.findall(r"`(\w+)` in (?:its )?`([\w/.]+\.(?:antt|rt))`", text):
            files = files_named(path)
            if not any(stands_in(name, file) for file in files):
                found.append(f"{page} says that {name} stands in {path}" + ("" if files else ", which is not there"))
        found += [f"{page} names the test {name}" for name in re.findall(r"\bthe tests? `(\w+)`", text)
                  if not re.search(rf"\b{name}\b", tests)]
    return found


def notices_that_are_missing(_program):
    """Each library of the kit that crates.txt names stands in NOTICE, and each text that NOTICE names is there."""
    notice, uses = text_of("NOTICE"), crates_and_their_uses()
    found = [f"NOTICE does not name {name}" for name in sorted({name for names in uses.values() for name in names} - set(uses))
             if not re.search(rf"\b{name}\b", notice)]
    return found + [f"NOTICE names {path}" for path in re.findall(r"licences/[\w-]+", notice)
                    if not os.path.isfile(os.path.join(TOP, path))]


def pages_that_are_far(_program):
    """Two links lead from the README to each page of docs/ at most."""
    near = {"README.md"}
    for _ in range(2):
        linked = {(page, link) for page in near if page.endswith(".md") for link in re.findall(r"\]\(([^)\s#]+)", text_of(page))}
        paths = {os.path.normpath(os.path.join(os.path.dirname(page), link)) for page, link in linked}
        near |= {path for path in paths if os.path.isfile(os.path.join(TOP, path))}
    return [f"more than two links lead to {page}" for page in documents() if page.startswith("docs/") and page not in near]


def counter_of_sentences():
    """The tool that counts sentences, as a module."""
    loader = importlib.machinery.SourceFileLoader("sentences", os.path.join(TOP, "tools", "sentences"))
    module = importlib.util.module_from_spec(importlib.util.spec_from_loader("sentences", loader))
    sys.path.insert(0, os.path.join(TOP, "tools"))     # what the tools share lies there
    loader.exec_module(module)
    return module


def wrong_sentences(page, sentences):
    """What is wrong with the lengths of the sentences of a page."""
    lengths = [len(sentence) for sentence in sentences]
    average = sum(lengths) / max(1, len(lengths))
    found = [f"{page} has a sentence of {len(sentence)} words: {' '.join(sentence[:8])} .." for sentence in sentences
             if len(sentence) > MOST_OF_SENTENCE]
    return found + ([f"{page} has {average:.1f} words a sentence"] if average > MOST_ON_AVERAGE else [])


def sentences_that_are_long(_program):
    """No sentence of a page has more than so many words, none of the pages more than so many on average; and the README and, as
    tools/sentences counts them, all pages together have no more than theirs."""
    counter, found, total = counter_of_sentences(), [], 0
    for page in counter.pages([]):
        sentences = [*counter.sentences_of(text_of(page))]
        total += sum(map(len, sentences))
        found += wrong_sentences(page, sentences)
    length = len(text_of("README.md").split())
    found += [f"README.md has {length} words"] if length > MOST_OF_README else []
    return found + ([f"the pages have {total} words"] if total > MOST_OF_ALL else [])


def figures_that_differ(_program):
    """Each drawing of docs/figures is that of its source, by the digest that tools/figures wrote into it, is small, and is cited by
    a page. Each definition that the source names is there, and the picture of the rooms has those of crates.txt."""
    found, pages = [], "\n".join(map(text_of, documents()))
    there = {word for path in sources() for word in re.findall(r"\w+", text_of(path))}
    for path in sorted(glob.glob(os.path.join(glob.escape(TOP), "docs", "figures", "*.dot"))):
        name, source = os.path.basename(path)[:-4], contracts.text_of(path)
        drawn = text_of(f"docs/figures/{name}.svg") if is_there(f"docs/figures/{name}.svg", [""]) else ""
        is_drawn = hashlib.sha256(source.encode()).hexdigest() in drawn
        found += [] if is_drawn else [f"docs/figures/{name}.svg is not drawn from {name}.dot"]
        found += [] if len(drawn.encode()) <= MOST_OF_A_FIGURE else [f"docs/figures/{name}.svg is too large"]
        found += [] if f"figures/{name}.svg" in pages else [f"no page cites docs/figures/{name}.svg"]
        labels = " ".join(re.findall(r'label="([^"]*)"', source)).replace("\\n", " ")
        words = re.findall(r"\b(?:[A-Z][a-z]+){2,}\b|\b[a-z]+_[a-z_]+\b", labels)
        found += [f"docs/figures/{name}.dot names {word}" for word in words if word not in there]
    rooms = text_of("docs/figures/rooms.dot")
    return found + [f"docs/figures/rooms.dot has no {room}" for room, _ in rooms_of_crates()
                    if room != "tests" and f'label="{room}\\n' not in rooms]


checks = {
    "pages/sentences": sentences_that_are_long,
    "pages/near": pages_that_are_far,
    "pages/crates": crates_that_differ,
    "pages/names": crates_that_are_missing,
    "pages/lengths": lengths_that_pass,
    "pages/edits": refusals_that_differ,
    "pages/theorem": statements_that_differ,
    "pages/tools": tools_that_fail,
    "pages/prove": proofs_that_fail,
    "pages/commands": commands_that_are_missing,
    "pages/lists": lists_that_are_not_told,
    "pages/notices": notices_that_are_missing,
    "pages/places": names_that_stand_elsewhere,
    "pages/figures": figures_that_differ,
}
