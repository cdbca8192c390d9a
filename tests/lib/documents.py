"""What the documents say, against the repository and the built program. tests/run calls each of `checks`."""
import glob
import os
import re
import shutil
import subprocess
import tempfile

from lib import contracts
from lib.checkout import installed
from lib.common import TESTS, TOP, left_samples, sound

SECONDS = 60

# Tops of paths: a text in backticks that begins with one of them and `/` is a path of the repository, perhaps with words behind it.
TOPS = ("crates", "docs", "tests", "tools", "bench", "examples", "bin", "share")
NAMED = re.compile(r"`((?:%s)/[^`\s]*)(?: [^`\n]*)?`" % "|".join(TOPS))

# A command beside the folder in which it is called, in backticks.
CALLED = re.compile(r"`(\.\.?/[a-z][\w/-]*)(?: [^`\n]*)?`")

# A link of a page: its text and its path.
LINK = re.compile(r"\[([^\]\n]*)\]\(([^)\s#]+)(?:#[^)\s]*)?\)")

# Where the pages of the manual lie.
MANUAL = "share/man/man1"


def text_of(path):
    with open(os.path.join(TOP, path), encoding="utf-8") as file:
        return file.read()


def manuals():
    """The pages of the manual, by their paths from the top."""
    return sorted(os.path.join(MANUAL, name) for name in os.listdir(os.path.join(TOP, MANUAL)))


def documents():
    """The pages of the repository, by their paths from its top."""
    found = ["README.md", "CHANGELOG.md", "CONTRIBUTING.md", *manuals()]
    for folder in ("docs", "examples", "bench", "tests", "tools", "crates"):
        for base, folders, names in os.walk(os.path.join(TOP, folder)):
            folders[:] = [name for name in folders if name != "out"]
            found += [os.path.relpath(os.path.join(base, name), TOP) for name in names if name.endswith(".md")]
    return sorted(name for name in found if os.path.exists(os.path.join(TOP, name)))


def is_there(path, places):
    """Whether a path exists, counted from one of these folders, or is a place of what is installed; words in capitals and a star
    stand for any name."""
    if re.search(r"[A-Z]{4,}|NAME|[*{<]", re.sub(r"README\.md|DECISIONS\.md", "", path)):
        return True
    if any(os.path.exists(os.path.join(TOP, place, path)) for place in places):
        return True
    return any(f"{place}/".startswith(path.rstrip("/") + "/") for _, _, place in installed())


def sources():
    """The files of code and of definitions, by their paths from the top."""
    found = []
    for base, folders, names in os.walk(os.path.join(TOP, "crates")):
        folders[:] = [name for name in folders if name != "out"]
        found += [os.path.relpath(os.path.join(base, name), TOP) for name in names if name.endswith((".rt", ".antt"))]
    return sorted(found)


def paths_that_are_missing(_program):
    """Each path in backticks and each link of the documents exists. The page of a crate names files of its own, and any page those
    of the crates that it names."""
    found = []
    for page in documents():
        text, place = text_of(page), os.path.dirname(page)
        named = NAMED.findall(text)
        places = ["", place]
        found += [f"{page} has the command {path}" for path in CALLED.findall(text) if not is_there(path, [*places, "examples"])]
        if page.startswith(("crates/", "docs/")):
            named += re.findall(r"`((?:specs|proofs|src|must-fail)/[\w/.-]+)`", text)
            places += [f"crates/{name}" for name in re.findall(r"`(?:crates/)?([a-z_]+)[`/]", text)]
        linked = [link for link in re.findall(r"\]\(([^)\s]+)\)", text) if not re.match(r"https?:|#", link)]
        found += [f"{page} names {path}" for path in named if not is_there(path, places)]
        found += [f"{page} links to {link}" for link in linked if not os.path.exists(os.path.join(TOP, place, link.split("#")[0]))]
    for page in sources():
        found += [f"{page} names {path}" for path in NAMED.findall(text_of(page)) if not is_there(path, [""])]
    return found


def placed():
    """The files of the checkout that are installed, each with its place."""
    for how, source, place in installed():
        if how == "file":
            yield source, place


def links_that_leave_the_package(_program):
    """Each relative link of an installed page leads to an installed file or folder, or its text ends with the words that it leads
    into the repository, and then to none."""
    pages, found = dict(placed()), []
    there = {"/".join(place.split("/")[:length]) for place in pages.values() for length in range(1, 9)}
    for page, place in sorted(pages.items()):
        for text, link in LINK.findall(text_of(page)) if page.endswith(".md") else []:
            is_placed = os.path.normpath(os.path.join(os.path.dirname(place), link)) in there
            if not re.match("https?:", link) and is_placed == text.endswith("in the repository"):
                found.append(f"{page}, as it is installed, links to {link} by [{text}]")
    return found


def has_section(path, name):
    """Whether a page has this title, or a paragraph that begins with it."""
    return re.search(r"^(?:#+ |\*\*)%s(?:$|\.\*\*)" % re.escape(name), text_of(path), flags=re.M) is not None


def has_anchor(path, anchor):
    """Whether a page has a title of this anchor."""
    titles = re.findall(r"^#+ (.*)$", text_of(path), flags=re.M)
    return anchor in [re.sub(r"[^\w -]", "", title).lower().replace(" ", "-") for title in titles]


def sections_that_are_missing(_program):
    """Each section that is named behind a page, as `docs/x.md`, "Title", or by a link as x.md#title, stands there."""
    found = []
    for page in documents() + sources():
        text, place = re.sub(r"\s*\n\s*(?:///?!?|--)?\s*", " ", text_of(page)), os.path.dirname(page)
        for link, path, name in re.findall(r'(?:\]\(([\w./]+\.md)\)|`(docs/\w+\.md)`), "([^"]+)"', text):
            path = path or os.path.normpath(os.path.join(place, link))
            if not has_section(path, name.strip(",.")):
                found.append(f"{page} names the section {name} of {path}")
        for link, anchor in re.findall(r"\]\(([\w./]*)#([^)\s]+)\)", text) if page.endswith(".md") else []:
            path = os.path.normpath(os.path.join(place, link)) if link else page
            if not has_anchor(path, anchor):
                found.append(f"{page} links to the section {anchor} of {path}")
    return found


def rows_of_tables(text):
    """The rows of the tables of a page, each as pairs of a head and a cell."""
    heads = None
    for line in text.split("\n"):
        if not line.startswith("|"):
            heads = None
        elif heads is None:
            heads = cells_of(line)
        else:
            yield list(zip(heads, cells_of(line)))


def tables_of(text):
    """The tables of a page, each as its rows."""
    lines = text.split("\n")
    begins = [at for at, line in enumerate(lines) if line.startswith("|") and not lines[at - 1].startswith("|")]
    for at in begins:
        length = next((more for more, line in enumerate(lines[at:]) if not line.startswith("|")), len(lines) - at)
        yield list(rows_of_tables("\n".join(lines[at:at + length])))


def clauses_that_are_missing(_program):
    """Each name in a column of clauses, or behind the word, stands in the code or in the definitions."""
    there = {word for path in sources() for word in re.findall(r"\w+", text_of(path))}
    cells = [(page, cell) for page in documents() for row in rows_of_tables(text_of(page)) for head, cell in row if "clause" in head]
    cells += [(page, cell) for page in documents() for cell in re.findall(r"\bclauses? ((?:`[\w.]+`(?:, | and )?)+)", text_of(page))]
    return [f"{page} names the clause {word}" for page, cell in cells for name in re.findall(r"`([^`]+)`", cell)
            for word in re.findall(r"[A-Za-z_]\w*", name) if word not in there]


def called_by(words, crate, uses):
    """The functions that these words name, all of a name together, in the crate that the first word names; a fault for each that is
    not there."""
    found, faults = [], []
    for word in words:
        first, _, path = word.partition("::")
        crate, path = (first, path) if path and first in uses else (crate, word)
        here = contracts.functions(crate, path) if crate else []
        found += [here] if here else []
        faults += [] if here else [f"{crate} has no function {path}"]
    return crate, found, faults


def known_at(functions):
    return set().union(*map(contracts.named_by, functions))


def wrong_promises(cell, uses):
    """A cell of contracts has functions, and behind a colon their clauses, and then others behind a semicolon. Each clause stands at one
    of these functions, and at each of them one of the clauses."""
    crate, faults = None, []
    for part in re.sub(r"\([^)]*\)", "", cell).split("; "):
        head, colon, tail = part.partition("`: ")
        clauses = set(re.findall(r"`(\w+)`", tail))
        crate, called, missing = called_by(re.findall(r"`([^`]+)`", head + "`" if colon else head), crate, uses)
        known = [known_at(functions) for functions in called]
        faults += missing + [f"{part} has no clause {clause}" for clause in sorted(clauses - set().union(*known))]
        faults += [f"{part} names no clause of {functions[0].name}" for functions, names in zip(called, known) if clauses and not names & clauses]
    return faults


def wrong_calls(rows, crate, uses):
    """Each clause of a row stands at its call, or at one that is named behind it, as `clause` of `call`; an empty call is that above."""
    above, faults = [], []
    for row in rows:
        above = re.findall(r"`([^`]+)`", row[0][1]) or above
        told = " ".join(cell for head, cell in row[1:] if head.startswith(("clause", "after", "cause")))
        _, called, missing = called_by(above, crate, uses)
        faults += missing
        for functions in called[:1]:
            others = re.findall(r"of `(\w+)`", told)
            clauses = set(re.findall(r"`([a-z]\w*)`", told)) - set(others)
            beside = [one for name in others for one in contracts.functions(functions[0].crate, name)]
            known = known_at(beside + [one for same in called for one in same])
            faults += [f"{above[0]} has no clause {clause}" for clause in sorted(clauses - known)]
            faults += [f"{above[0]} has not one clause"] if "the clause" in told and not functions[0].has_one_clause() else []
    return faults


def contracts_that_differ(_program):
    """Each clause that docs/promises.md and the pages of the crates name beside a function stands at that function, or is a field of
    what its clauses cite."""
    found, uses = [], crates_and_their_uses()
    for page in ["docs/promises.md"] + [page for page in documents() if page.startswith("crates/")]:
        crate = page.split("/")[1] if page.startswith("crates/") else None
        for _, *rows in tables_of(text_of(page)):
            heads = [head for head, _ in rows[0]] if rows else [""]
            if heads[0].startswith("clause of `"):
                named = [[("call", heads[0]), ("clause", row[0][1])] for row in rows]
                found += [f"{page}: {fault}" for fault in wrong_calls(named, crate, uses)]
            elif heads[0] in ("call", "function", "law") and heads[1] in ("clause", "after a refusal"):
                found += [f"{page}: {fault}" for fault in wrong_calls(rows, crate, uses)]
            elif heads in (["promise", "contract"], ["step", "contract"]):
                found += [f"{page}: {fault}" for row in rows for fault in wrong_promises(row[1][1], uses)]
    return found


def functions_that_are_missing(_program):
    """Each function in a column of who finds something stands in the file beside it."""
    rows = [(page, dict(row)) for page in documents() for row in rows_of_tables(text_of(page))]
    told = [(page, name, path) for page, row in rows if "found by" in row for path in re.findall(r"`(crates/[^`]*)`", row["in"])
            for name in re.findall(r"`(\w+)`", row["found by"])]
    return [f"{page} names {name} in {path}" for page, name, path in told
            if is_there(path, [""]) and not re.search(r"\bfn %s\b" % name, text_of(path))]


def crates_and_their_uses():
    """The crates of crates.txt in their order, each with those that its text names."""
    rows = [line.partition("#")[0].partition(":") for line in text_of("crates.txt").splitlines()]
    return {head.split()[0]: used.split() for head, colon, used in rows if colon}


def rooms_of_crates():
    """The rooms of crates.txt, each a comment up to its colon, with the crates below it."""
    rooms = re.split(r"^# ", text_of("crates.txt"), flags=re.M)[1:]
    return [(room.partition(":")[0], re.findall(r"^(\w+)[^:\n]*:", room.partition("\n")[2], flags=re.M)) for room in rooms]


def rooms_of_architecture():
    """The rooms of the table of crates, each with its crates."""
    found = []
    for cells in map(cells_of, section(text_of("docs/architecture.md"), "Crates")):
        names = re.findall(r"`(\w+)`", cells[1]) if len(cells) == 4 else []
        if names and cells[0]:
            found.append((cells[0], []))
        if names:
            found[-1][1].extend(names)
    return found


def rooms_that_differ(_program):
    """The table of crates has the rooms of crates.txt in their order, but for the tests; each crate stands below those that it uses."""
    uses, told = crates_and_their_uses(), [room for room in rooms_of_architecture() if room[0] != "tests"]
    wanted = [(room, names) for room, names in rooms_of_crates() if room != "tests"]
    below = [name for _, names in rooms_of_crates() for name in names]
    found = [f"{name} stands above {used}" for name in below for used in uses[name] if used in below[below.index(name):]]
    found += [f"the table of crates has {have}, crates.txt {want}" for have, want in zip(told, wanted) if have != want]
    return found if len(told) == len(wanted) else found + [f"the table of crates has {len(told)} rooms, crates.txt {len(wanted)}"]


def tests_that_are_missing(_program):
    """Each test module that a page names is there, and the page of a test crate names each of its modules."""
    crates = os.path.join(TOP, "crates")
    groups = [name for name in os.listdir(crates) if name.endswith("_tests")]
    modules = {group: [name.removesuffix(".rt") for name in os.listdir(os.path.join(crates, group, "src")) if name.endswith("_tests.rt")]
               for group in groups}
    there = groups + sum(modules.values(), [])
    found = [f"{page} names {name}" for page in documents() for name in re.findall(r"`(?:crates/)?(\w+_tests)`", text_of(page)) if name not in there]
    return found + [f"crates/{group}/README.md does not name {name}" for group in groups for name in modules[group]
                    if f"`{name}`" not in text_of(f"crates/{group}/README.md")]


def cells_of(line):
    return [cell.strip() for cell in re.split(r"(?<!\\)\|", line.strip())[1:-1]]


def section(text, title):
    """The lines below a title, up to the next one."""
    return text.split(f"## {title}\n", 1)[1].split("\n## ", 1)[0].splitlines()


def write(data, *path):
    with open(os.path.join(*path), "wb") as file:
        file.write(data)


def example_differs(program, call, script, report, samples):
    """What is wrong with a row of the table of examples, or nothing."""
    if call + "(" not in script:
        return f"does not call {call}"
    with tempfile.TemporaryDirectory(prefix="liq-page-") as place:
        write(sound([1, 2, 3]), place, "tone.wav")
        write(sound([5, 7, 10, 20], channels=2), place, "wide.wav")
        write(b"tone.wav\n", place, "list.m3u")
        write(script.encode(), place, "f")
        run = {"cwd": place, "stdin": subprocess.DEVNULL, "capture_output": True, "timeout": SECONDS}
        done = subprocess.run([program, "check", "f"], check=False, **run)
        told = (done.stdout + done.stderr).decode()
        if told != report + "\n":
            return f"answers {told!r}"
        if not samples:
            return ""
        subprocess.run([program, "render", "f", "1"], check=True, **run)
        played = left_samples(place, "A")[:len(samples)]
        return "" if played == samples else f"plays {played}"


# How the page of builtins writes the types of the table.
TYPE_WORDS = {"Int": "int", "Text": "text", "Bool": "bool", "Decimal": "decimal", "Format": "a format", "Anything": "of any type", "Source": "source",
              "MonoSource": "source, mono", "StereoSource": "source, stereo", "Sources": "list of sources", "Pairs": "list of (predicate, source)"}


def rows_of_builtins():
    """The rows of the table of builtins: the name of each, its parameters as (form, label, type), and the type of a call."""
    text = text_of("crates/typing_rules/src/builtins.rt")
    for name, params, result in re.findall(r'row!\(\s*\w+,\s*"([\w.]+)",\s*\((.*?)\)\s*->\s*(\w+)\s*\)', text, flags=re.S):
        yield name, re.findall(r'(\w+) "(\w+)": (\w+)', params), result


def decimal(millionths):
    """A decimal as a script writes it."""
    return f"{millionths // 10 ** 6}." + f"{millionths % 10 ** 6:06}".rstrip("0")


def defaults_of_builtins():
    """For each definition of a call, the defaults of its labels as a script writes them."""
    text = text_of("crates/builtin_calls/specs/Builtins.antt")
    bodies = dict(re.findall(r"^unfoldable pub (\w+) :[^\n]*\n(.*?)(?=\n\n|\Z)", text, flags=re.S | re.M))
    found = {}
    for name, body in bodies.items():
        body = body.replace("sensitive_or given", bodies["sensitive_or"])
        found[name] = dict(re.findall(r'bool_or \(codes "(\w+)"\) (\w+)', body))
        found[name] |= dict(re.findall(r'int_or \(codes "(\w+)"\) \(pos (\d+)\)', body))
        found[name] |= {label: f'"{value}"' for label, value in re.findall(r'text_or \(codes "(\w+)"\) (?:\(codes "(\w*)"\)|\[\])', body)}
        found[name] |= {label: decimal(int(number)) for label, number in re.findall(r'decimal_or \(codes "(\w+)"\) \(some_millionths (\d+) tt\)', body)}
    return found


def types_on_page(cell):
    """The words behind each label of a cell of parameters."""
    found = {}
    for labels, words in re.findall(r"((?:`\w+`(?: and )?)+) ([^`]*)", cell):
        found |= {label: words for label in re.findall(r"`(\w+)`", labels)}
    return found


def rows_that_differ(page):
    """The page has the rows of the table, each with its parameters, their defaults and their types; `id` stands in that of `clock` alone."""
    found, defaults = [], defaults_of_builtins()
    written = [cells for cells in map(cells_of, section(page, "The calls")) if len(cells) == 6 and cells[0].startswith("`")]
    table = list(rows_of_builtins())
    if len(written) != len(table):
        return [f"the page has {len(written)} calls, the table {len(table)}"]
    for cells, (name, params, _) in zip(written, table):
        shown = [param for param in params if param[1] != "id" or name == "clock"]
        own = defaults[{"output.file": "output_file", "add": "add_sources", "sequence": "over_sources", "rotate": "over_sources"}.get(name, name)]
        call = f"{name}({', '.join(f'{label}={own.get(label)}' if form == 'Perhaps' else label for form, label, _ in shown)})"
        if cells[0].strip("`") != call:
            found.append(f"the page has {cells[0]}, the table {call}")
        words = types_on_page(cells[1])
        if list(words) != [label for _, label, _ in shown]:
            found.append(f"{name} has the parameters {list(words)} on the page")
        for _, label, kind in shown:
            told = words.get(label, "").split(";")[0].strip(" ,")
            if not (told == TYPE_WORDS[kind] or kind == "Decimal" and told.split(",")[0] == "decimal"):
                found.append(f"{label} of {name} is called {told!r}, and is {kind}")
    return found


def builtins_that_differ(program):
    """The page of builtins has the rows of the table, and an example for each, which answers and plays what it says."""
    page = text_of("docs/builtins.md")
    names = [name for name, _, _ in rows_of_builtins()]
    table = text_of("crates/typing_rules/specs/Table.antt").split("builtin_names =", 1)[1].split("\n\n", 1)[0]
    found = [] if names == re.findall(r'codes "([\w.]+)"', table) else ["the table has other names than the definitions"]
    found += rows_that_differ(page)
    examples = [cells for cells in map(cells_of, section(page, "An example of each")) if len(cells) == 4 and cells[0].startswith("`")]
    if [cells[0].strip("`") for cells in examples] != names:
        found.append("the examples are not those of the builtins")
    for call, script, report, samples in examples:
        lines = re.findall(r"`([^`]*)`", script)
        wrong = example_differs(program, call.strip("`"), "\n".join(lines) + "\n", "\n".join(re.findall(r"`([^`]*)`", report)), [int(part) for part in samples.split()])
        found += [f"the example of {call} {wrong}"] if wrong else []
    return found


# A text for each word of the usage line.
WORDS = {"FILE": "f", "N": "1", "W": "1", "D:HH:MM:SS": "1:00:00:00", "NAME": "t", "SEED": "1", "SIZE": "1", "TRACE": "t"}


def parts_of(usage):
    """The forms of a usage line: each is its words, and its options."""
    for form in usage.split(" | "):
        yield re.sub(r" \[[^]]*\]", "", form), re.findall(r"\[([^]]*)\]", form)


def spoken(form):
    """Words of a form."""
    return [re.sub("[A-Z]+$|D:HH:MM:SS$", lambda match: WORDS[match[0]], word) for word in form.split()]


def known_forms(program):
    """The forms of the usage line that the program takes, as far as it takes them."""
    with tempfile.TemporaryDirectory(prefix="liq-page-") as place:
        write(b'output.file(%wav, "A", blank())', place, "f")

        def status(words):
            return subprocess.run([program] + words, cwd=place, stdin=subprocess.DEVNULL, capture_output=True, check=False, timeout=SECONDS)
        usage = status([]).stderr.decode().strip().removeprefix("usage: ")
        return {form: [option for option in options if status(spoken(form) + spoken(option)).returncode != 2]
                for form, options in parts_of(usage) if status(spoken(form)).returncode != 2}


def forms_of_the_man_page():
    """The forms of its SYNOPSIS."""
    text = text_of(f"{MANUAL}/liq.1").split(".SH SYNOPSIS\n", 1)[1].split(".SH ", 1)[0]
    forms = [part.split(".YS")[0] for part in text.split(".SY liq\n")[1:]]
    plain = [re.sub(r"\\f.", "", re.sub(r"^\.(?:B|I|RB) ", "", form, flags=re.M)).replace("\\-", "-").replace(" ]", "]").replace("[ ", "[") for form in forms]
    return dict(parts_of(" | ".join(" ".join(form.split()) for form in plain)))


def forms_of_the_page():
    """The forms of the table of docs/commands.md."""
    rows = [cells_of(line) for line in section(text_of("docs/commands.md"), "The forms")]
    return dict(parts_of(" | ".join(row[0].strip("`") for row in rows if row and row[0].startswith("`"))))


def completed(words, call="_liq"):
    """What bash offers for the last of these words."""
    line = " ".join(f"'{word}'" for word in words)
    script = f'. share/bash-completion/completions/liq; COMP_WORDS=({line}); COMP_CWORD={len(words) - 1}; {call}; printf "%s\\n" "${{COMPREPLY[@]}}"'
    done = subprocess.run(["bash", "-c", script], cwd=TOP, capture_output=True, check=True, timeout=SECONDS,
                          env={**os.environ, "PATH": f"{TOP}/bin:{os.environ['PATH']}"})
    return done.stdout.decode().split()


def completions_that_differ():
    """Options are offered from their fronts, with or without the dashes, and names of files where a file is to be named."""
    render, readme = ["liq", "render", "f", "1"], ["README.md"]
    rows = [(render + ["w"], "_liq", ["--window="]), (render + ["--wi"], "_liq", ["--window="]), (render + ["--trace", "="], "_liq", None),
            (render + ["--trace", "=", "READ"], "_liq", readme), (render + ["--trace=READ"], "_liq", readme), (render + ["--window", "=", "1"], "_liq", []),
            (["liq", "check", "READ"], "_liq", readme), (["liq", "doctor", "READ"], "_liq", readme), (["liq", "nig"], "_liq", ["night"]),
            (["liq", "help", "nig"], "_liq", ["night"]), (["liq", "where", "--t"], "_liq", ["--text"]), (["liq-where", "READ"], "_liq_command", readme),
            (["liq-air", "--state", "=", "READ"], "_liq_command", readme), (["liq-air", "--stat"], "_liq_command", ["--state="]),
            (["liq", "page", "--as", "=", "v"], "_liq", ["vtt"])]
    offered = [(words, completed(words, call), wanted) for words, call, wanted in rows]
    found = [f"bash offers {got} behind {words}" for words, got, wanted in offered if got != wanted and (wanted is not None or "README.md" not in got)]
    if shutil.which("fish"):
        for line, wanted in (("liq nig", ["night"]), ("liq where --t", ["--text"]), ("liq-air --stat", ["--state="]), ("liq render f 1 --w", ["--window="])):
            script = f"source share/fish/vendor_completions.d/liq.fish; complete -C '{line}'"
            done = subprocess.run(["fish", "-c", script], cwd=TOP, capture_output=True, text=True, check=False, timeout=SECONDS,
                                  env={**os.environ, "PATH": f"{TOP}/bin:{os.environ['PATH']}"})
            found += [f"fish offers {done.stdout!r} behind {line}"] if done.stdout.split() != wanted else []
    if shutil.which("zsh"):
        done = subprocess.run(["zsh", "-n", "share/zsh/site-functions/_liq"], cwd=TOP, capture_output=True, text=True, check=False)
        found += [f"zsh: {done.stderr}"] if done.stderr else []
    return found


def trusted_crates_that_differ(_program):
    """The page of promises names as trusted the crates of the kit on which crates.txt rests, all of them and no other."""
    uses = crates_and_their_uses()
    used = sorted({name for names in uses.values() for name in names} - set(uses))
    told = re.findall(r"`(\w+)`", "\n".join(section(text_of("docs/promises.md"), "What is trusted")).split("kit's crates", 1)[1].split(".", 1)[0])
    return [] if told == used else [f"the page trusts {told}, crates.txt uses {used}"]


def forms_that_differ(program):
    """The man page, the page of commands and the completion have the forms that the program takes, and the page has no warning."""
    known = known_forms(program)
    found = [f"{name} has {forms}, the program {known}"
             for name, forms in ((f"{MANUAL}/liq.1", forms_of_the_man_page()), ("docs/commands.md", forms_of_the_page())) if forms != known]
    if shutil.which("bash"):
        found += completions_that_differ()
        commands = sorted(name[len("liq-"):] for name in os.listdir(os.path.join(TOP, "bin")) if name.startswith("liq-"))
        wanted = [*(form.split()[0] for form in known), *commands, "help", "--help", "--version"]
        if completed(["liq", ""]) != wanted:
            found.append(f"bash offers {completed(['liq', ''])}, wanted {wanted}")
        for form, options in known.items():
            offered, wanted = completed(["liq"] + spoken(form) + [""]), [re.sub("=.*", "=", option) for option in options]
            found += [f"bash offers {offered} behind {form}"] if offered != wanted else []
    for page in manuals() if shutil.which("man") else ():
        done = subprocess.run(["man", "--warnings", "-l", page], cwd=TOP, capture_output=True, check=False, timeout=SECONDS)
        found += [f"{page}: {done.stderr.decode()}"] if done.stderr or done.returncode else []
    return found


def copy_examples(folder):
    """Copies the scripts of examples/, and nothing that whoever followed its page made there."""
    os.mkdir(folder)
    for name in os.listdir(os.path.join(TOP, "examples")):
        if name.endswith((".liq", ".py")):
            shutil.copy(os.path.join(TOP, "examples", name), folder)


def versions_that_differ(_program):
    """The README, the list of changes and the pages of the manual have the version of the file VERSION. Each version has a date, and
    what one has to do stands first in the newest."""
    version = text_of("VERSION").strip()
    wanted = {"README.md": f"This is version {version} ", **{page: f'"Dizhuppan {version}"' for page in manuals()}}
    found = [f"{page} has not the version {version}" for page, text in wanted.items() if text not in text_of(page)]
    changes = text_of("CHANGELOG.md")
    heads, dated = re.findall(r"^## (.*)$", changes, flags=re.M), re.findall(r"^## (\d+\.\d+\.\d+), (20\d\d-\d\d-\d\d)$", changes, flags=re.M)
    order = [(list(map(int, name.split("."))), date) for name, date in dated]
    if len(heads) != len(dated) or order != sorted(order, reverse=True) or dated[:1] and dated[0][0] != version:
        found.append(f"the list of changes has {heads}: each has a version and a date, the newest first, and that is {version}")
    newest = changes.partition("\n## ")[2].partition("\n## ")[0]
    return found if newest.partition("\n\n")[2].startswith("**You have to do this") else [*found, "what is to be done does not stand first"]


def counts_that_differ(_program):
    """The page on the tests has the counts that tools/counts prints."""
    done = subprocess.run([os.path.join(TOP, "tools", "counts")], capture_output=True, text=True, check=True, timeout=SECONDS)
    return [] if f"\n{done.stdout}\n" in text_of("docs/testing.md") else ["docs/testing.md has other counts than tools/counts prints"]


def cases_without_a_source(_program):
    """Each case of tests/cases says in a line where the bytes that it wants come from."""
    found = []
    for folder in sorted(glob.glob(os.path.join(TESTS, "cases", "*", "*"))):
        path = os.path.join(folder, "from")
        lines = text_of(path).split("\n") if os.path.exists(path) else []
        if len(lines) != 2 or not lines[0]:
            found.append(f"{os.path.relpath(folder, TOP)}: no line `from`")
    return found


checks = {
    "documents/sources": cases_without_a_source,
    "documents/versions": versions_that_differ,
    "documents/counts": counts_that_differ,
    "documents/paths": paths_that_are_missing,
    "documents/package": links_that_leave_the_package,
    "documents/sections": sections_that_are_missing,
    "documents/clauses": clauses_that_are_missing,
    "documents/contracts": contracts_that_differ,
    "documents/functions": functions_that_are_missing,
    "documents/rooms": rooms_that_differ,
    "documents/tests": tests_that_are_missing,
    "documents/builtins": builtins_that_differ,
    "documents/forms": forms_that_differ,
    "documents/trusted": trusted_crates_that_differ,
}
