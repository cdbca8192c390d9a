"""The contracts and definitions of the crates, as their texts have them: which clauses stand at a function, and which fields have the
records that they cite."""
import glob
import os
import re
from functools import lru_cache

from lib.common import TOP

CLAUSE = re.compile(r"^ *(requires|ensures)\b *(\w*) *\{")
FUNCTION = re.compile(r"^( *)(?:pub(?:\([^)]*\))? )?(?:const )?(?:unsafe )?fn (\w+)")
OWNER = re.compile(r"^(?:pub )?(?:impl|trait)\b(.*)\{\s*$")
DEFINITION = re.compile(r"^(?:abbrev |unfoldable |opaque )?(?:pub )?(?:record |data )?([\w']+)", re.M)
IMPORT = re.compile(r"^ *(?:ghost |pub )?use Rattle\.(\w+)\.specs\.(\w+)\.\{([^}]*)\}", re.M)


class Contract:
    """What stands between the head of a function and its body."""

    def __init__(self, crate, owner, name, path, text):
        self.crate, self.owner, self.name, self.path, self.text = crate, owner, name, path, text
        found = [CLAUSE.match(line) for line in text.split("\n")]
        self.clauses = [(match[1], match[2]) for match in found if match]
        head = text.split("\n    requires", 1)[0].split("\n    ensures", 1)[0]
        self.parameters = set(re.findall(r"(\w+): ", head))

    def has_one_clause(self):
        return [name for kind, name in self.clauses if kind == "ensures"] == [""]


def owner_of(head):
    """The type of an `impl`, or the name of a trait."""
    while re.search(r"<[^<>]*>", head):
        head = re.sub(r"<[^<>]*>", "", head)
    return re.findall(r"\w+", head.split(" for ")[-1].split(" where ")[0].split(":")[0])[-1]


def contract_at(lines, at, indent):
    """The lines of a function from its head on, up to its body or the next function."""
    taken = [lines[at]]
    for line in lines[at + 1:]:
        if line in (indent + "{", indent + "{}", indent + "}") or FUNCTION.match(line) and FUNCTION.match(line)[1] == indent:
            break
        taken.append(line)
    return "\n".join(taken)


@lru_cache(maxsize=None)
def contracts_of(crate):
    """The functions of a crate: by name, and those of a type or a trait."""
    found = []
    for path in sorted(glob.glob(os.path.join(TOP, "crates", crate, "src", "**", "*.rt"), recursive=True)):
        lines, owner = text_of(path).split("\n"), None
        for at, line in enumerate(lines):
            head = OWNER.match(line)
            if head:
                owner = owner_of(head[1])
            elif line == "}":
                owner = None
            match = FUNCTION.match(line)
            if match:
                found.append(Contract(crate, owner, match[2], path, contract_at(lines, at, match[1])))
    return found


def functions(crate, path):
    """The functions of a crate that a page calls by this path: `function`, `Type::function` or `module::function`."""
    parts = path.split("::")
    named = [one for one in contracts_of(crate) if one.name == parts[-1]]
    if len(parts) == 1:
        return named
    owned = [one for one in named if one.owner == parts[-2]]
    return owned or [one for one in named if os.path.basename(one.path) in (parts[-2] + ".rt", parts[-2])]


@lru_cache(maxsize=None)
def text_of(path):
    """The text of a file, and nothing where there is none, as for a definition of std."""
    if not os.path.exists(path):
        return ""
    with open(path, encoding="utf-8") as file:
        return file.read()


def specs_of(crate, name):
    return text_of(os.path.join(TOP, "crates", crate, "specs", name + ".antt"))


@lru_cache(maxsize=None)
def definitions(crate, name):
    """The definitions of a file of specs/, each with its text."""
    found = {}
    for part in specs_of(crate, name).split("\n\n"):
        head = re.search(DEFINITION, re.sub(r"^--.*\n", "", part, flags=re.M))
        if head:
            found[head[1]] = part
    return found


@lru_cache(maxsize=None)
def imports_of(text):
    """What a text takes from files of specs/: the crate, the file and the name there, by the name here."""
    found = {}
    for crate, name, words in IMPORT.findall(text):
        for word in words.split(","):
            there, _, here = word.strip().partition(" as ")
            found[here or there] = (crate, name, there)
    return found


@lru_cache(maxsize=None)
def cited_by(place):
    """The places of the definitions that the one at this place cites."""
    crate, name, word = place
    known = {own: (crate, name, own) for own in definitions(crate, name)} | imports_of(specs_of(crate, name))
    words = set(re.findall(r"\w+", definitions(crate, name).get(word, "")))
    return {known[other] for other in words - {word} if other in known}


@lru_cache(maxsize=None)
def fields_of(place):
    """The fields of a record."""
    part = definitions(*place[:2]).get(place[2], "")
    return set(re.findall(r"^ +(?:pub )?(\w+) :", part, flags=re.M)) if re.search(r"\brecord\b", part) else set()


def named_by(contract, depth=2):
    """The names of a function's clauses, of its parameters, and of the fields of what its clauses cite, so many definitions deep."""
    imports = imports_of(text_of(contract.path))
    places = {imports[word] for word in re.findall(r"\w+", contract.text) if word in imports}
    cited = set()
    for _ in range(depth):
        cited |= places
        places = set().union(*map(cited_by, places))
    return {name for _, name in contract.clauses if name} | contract.parameters | set().union(*map(fields_of, cited))
