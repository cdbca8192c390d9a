"""Whether docs/architecture.md maps the package of Python. tests/run calls `checks`."""
import ast
import os
import re
from typing import Callable, Dict, Iterator, List, Set

from lib.common import TOP

PACKAGE = os.path.join(TOP, "share", "liq", "liq")


def read(path: str) -> str:
    """What a file says."""
    with open(path, encoding="utf-8") as file:
        return file.read()


def parts() -> Set[str]:
    """The parts of the package: its folders, and the modules beside them."""
    names = [name for name in os.listdir(PACKAGE) if name.endswith(".py") or os.path.exists(os.path.join(PACKAGE, name, "__init__.py"))]
    return {name.partition(".")[0] for name in names} - {"__init__"}


def files_of(part: str) -> Iterator[str]:
    """The files of a part."""
    if os.path.exists(os.path.join(PACKAGE, part + ".py")):
        yield os.path.join(PACKAGE, part + ".py")
    for folder, _, names in os.walk(os.path.join(PACKAGE, part)):
        yield from (os.path.join(folder, name) for name in names if name.endswith(".py"))


def used_by(part: str) -> Set[str]:
    """The parts that a part imports."""
    found: Set[str] = set()
    for node in (it for path in files_of(part) for it in ast.walk(ast.parse(read(path)))):
        if isinstance(node, ast.ImportFrom) and (node.module or "").split(".")[0] == "liq":
            path = (node.module or "").split(".")[1:]
            found |= {path[0]} if path else {it.name for it in node.names}
        elif isinstance(node, ast.Import):
            found |= {it.name.split(".")[1] for it in node.names if it.name.startswith("liq.")}
    return found & parts()


def parts_that_differ(_program: str) -> List[str]:
    """The map has each part of the package, and each uses only parts of its own row and of earlier ones."""
    section = read(os.path.join(TOP, "docs", "architecture.md")).split("## Around the program", 1)[1].split("\n## ", 1)[0]
    rows = [re.findall(r"`(\w+)`", row) for row in re.findall(r"^\| (`.*?) \|", section, flags=re.M)]
    told = [name for row in rows for name in row]
    found = [f"the map names {name}" for name in sorted(set(told) - parts())]
    found += [f"the map lacks {name}" for name in sorted(parts() - set(told))]
    for number, row in enumerate(rows):
        floors = {name for lower in rows[:number + 1] for name in lower}
        found += [f"{name} uses {used}, a higher floor" for name in row for used in sorted(used_by(name) & set(told) - floors)]
    return found


checks: Dict[str, Callable[[str], List[str]]] = {"documents/parts": parts_that_differ}
