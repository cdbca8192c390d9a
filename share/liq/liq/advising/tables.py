"""What the pages say of calls, faults and words of Liquidsoap, read off their tables."""
import functools
import os
import re
from dataclasses import dataclass
from typing import Dict, List, Optional, Pattern, Tuple

HERE = os.path.dirname(os.path.abspath(__file__))
# An argument of a call in the tables: the call, the label, and a value or nothing.
ARGUMENT = re.compile(r"([a-z.]+)\((\w+)=(?:\"(\w+)\")?\)")
# The third cell of a row of words or arguments: what liq-adopt does with it.
CLASS = re.compile(r"(same|less|you): .*")
LINK = re.compile(r"\[([^\]]*)\]\([^)]*\)")
# The texts in the lines of faults, as docs/faults.md names them.
LETTERS = ("NAME", "A", "T", "S", "L", "N", "K")
# How a way begins that is to be done as it stands, and is no other word.
DOING = ("leave it out", "put ", "write ")


@functools.lru_cache(maxsize=None)
def page(name: str) -> List[str]:
    """The lines of a page, as it lies beside the installed modules, or in a checkout."""
    for folder in (os.path.join(HERE, "docs"), os.path.join(HERE, "..", "..", "..", "..", "docs")):
        try:
            with open(os.path.join(folder, name), encoding="utf-8") as file:
                return file.read().split("\n")
        except OSError:
            continue
    return []


def cells(line: str) -> List[str]:
    """The cells of a line of a table; a bar in it has a backslash before it."""
    return [cell.strip().replace("\\|", "|") for cell in re.split(r"(?<!\\)\|", line.strip().strip("|"))]


def plain(text: str) -> str:
    """A cell as a line of a terminal holds it."""
    return LINK.sub(r"\1", text).replace("**", "")


@dataclass
class Parameter:
    """A parameter of a call: its name, its default or nothing, its type in words, and whether it is given by its
    label."""
    name: str
    default: Optional[str]
    type: str
    is_labelled: bool


@dataclass
class Call:
    """A call of the language, or of a def of the script; of the first sort there are bad values."""
    name: str
    parameters: List[Parameter]
    bad: str = ""

    @property
    def bare(self) -> List[Parameter]:
        """The parameters that are given in their places."""
        return [parameter for parameter in self.parameters if not parameter.is_labelled]

    @property
    def labels(self) -> List[str]:
        """The names of those that are given by their labels."""
        return [parameter.name for parameter in self.parameters if parameter.is_labelled]

    @property
    def form(self) -> str:
        """The call with its parameters, as `amplify(k, s)`."""
        return f"{self.name}({', '.join(map(written, self.parameters))})"

    @property
    def short(self) -> str:
        """The call with those parameters alone that have to be given."""
        return f"{self.name}({', '.join(written(p) for p in self.parameters if p.default is None)})"

    @property
    def types(self) -> str:
        """The type of each parameter, in words."""
        return "; ".join(f"`{p.name}` is {p.type.replace('`', '')}" for p in self.parameters if p.type)

    def parameter(self, label: Optional[str]) -> Optional[Parameter]:
        """The parameter of a label, or nothing."""
        return next((p for p in self.parameters if p.is_labelled and p.name == label), None)


def written(parameter: Parameter) -> str:
    """A parameter as it stands in a call."""
    if not parameter.is_labelled:
        return parameter.name
    return f"{parameter.name}={parameter.default or '..'}"


def types_of(text: str) -> Dict[str, str]:
    """The type of each parameter, of a cell as "`duration` decimal, seconds; `s` source"."""
    found: Dict[str, str] = {}
    for match in re.finditer(r"((?:`\w+`(?:, | and )?)+) ([^`;]*?)(?:[,;] *(?=`)|;|$)", text):
        for name in re.findall(r"`(\w+)`", match[1]):
            found[name] = match[2].strip()
    return found


def call_of_row(row: List[str]) -> Optional[Call]:
    """The call of a row of docs/builtins.md, or nothing where it is another row."""
    match = re.fullmatch(r"`([a-z.]+)\((.*)\)`", row[0]) if len(row) == 6 else None
    if not match:
        return None
    types = types_of(row[1])
    parameters: List[Parameter] = []
    for part in filter(None, match[2].split(", ")):
        name, _, default = part.partition("=")
        parameters.append(Parameter(name, default or None, types.get(name, ""), bool(default)))
    return Call(match[1], parameters, row[5])


@functools.lru_cache(maxsize=None)
def calls() -> Dict[str, Call]:
    """The calls of the language, by their names."""
    rows = (call_of_row(cells(line)) for line in page("builtins.md"))
    return {call.name: call for call in rows if call}


class Words:
    """Words of Liquidsoap and arguments of its calls, with the nearest way to say them."""

    def __init__(self) -> None:
        self.words: Dict[str, str] = {}
        self.families: Dict[str, str] = {}
        self.arguments: Dict[Tuple[str, str, Optional[str]], str] = {}
        for line in page("liquidsoap.md"):
            row = cells(line)
            is_row = len(row) == 3 and CLASS.fullmatch(row[2])
            for text in re.findall(r"`([^`]*)`", row[0]) if is_row else ():
                self.note(text, plain(row[1]))

    def note(self, text: str, way: str) -> None:
        """Notes what stands in the first column of a table."""
        argument = ARGUMENT.fullmatch(text)
        if argument:
            self.arguments[argument[1], argument[2], argument[3]] = way
        elif text.endswith(".*"):
            self.families[text[:-1]] = way
        elif re.fullmatch(r"%?[a-z][A-Za-z_0-9.]*", text):
            self.words.setdefault(text, way)

    def family(self, name: str) -> Optional[str]:
        """The nearest way of the words of a family, or nothing."""
        return next((way for front, way in self.families.items() if name.startswith(front)), None)

    @staticmethod
    def told_as(word: str, way: str) -> str:
        """A line on a word with the nearest way."""
        return left_out(f"`{word}`", way)

    def told(self, word: str) -> Optional[str]:
        """A line on a word of the tables, or nothing where it is none of them."""
        return left_out(f"`{word}`", self.words[word]) if word in self.words else None


@functools.lru_cache(maxsize=None)
def words() -> Words:
    """The words of Liquidsoap, read once."""
    return Words()


def left_out(word: str, way: str, is_one: bool = True) -> str:
    """A line on a word, or on several, that is left out here, with the nearest way."""
    front = f"{word} is no word of this language" if is_one else f"{word} are no words of this language"
    if way.startswith(DOING):
        return f"{front}: {way}"
    return f"{front}; in {'its' if is_one else 'their'} place: {way}"


def setting(key: str) -> str:
    """What the value of a setting may be, in words; "" where the page does not tell."""
    rows = (cells(line) for line in page("builtins.md"))
    return next((plain(row[1]).partition(":")[0] for row in rows if row[0].startswith(f'`set("{key}",') and len(row) == 3), "")


def bounds(code: str) -> List[str]:
    """The bounds that the page of faults names where it says when a fault is told."""
    rows = (cells(line) for line in page("faults.md"))
    found = next((row[1] for row in rows if row[0].startswith(f"`{code} ")), "")
    return re.findall(r"(?:above|more than) ([0-9]+)", found)


@functools.lru_cache(maxsize=None)
def repairs() -> List[Tuple[Pattern[str], str]]:
    """What to do, by each line of a fault that the page of faults shows: pairs of a form of the line and the words."""
    found = []
    for line in page("faults.md"):
        row = cells(line)
        match = re.match(r"`(E\d\d [^`]*)`", row[0]) if len(row) == 5 else None
        if match:
            form = re.escape(match[1])
            for letter in LETTERS:
                form = re.sub(rf"(?<![A-Z]){letter}(?![A-Z])", ".*", form)
            found.append((re.compile(form, re.S), plain(row[4])))
    return found
