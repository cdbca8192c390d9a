"""What tools/install puts in place, below a folder of a test, with a program that is built already."""
import os
import shutil
import sys

from lib.common import TOP

sys.path.insert(0, os.path.join(TOP, "share", "liq"))
from liq.reading.programs import beside  # noqa: E402


def installed_below(prefix, program):
    """Puts the files and links of tools/installed below a folder, with this program and those beside it."""
    with open(os.path.join(TOP, "tools", "installed"), encoding="utf-8") as file:
        lines = [line.split() for line in file if not line.startswith("#")]
    for how, source, place in lines:
        target = os.path.join(prefix, place)
        os.makedirs(os.path.dirname(target), exist_ok=True)
        if how == "program":
            found = program if source == "liq_program" else beside(program, source)
            if found:
                shutil.copy(found, target)
        elif how == "file":
            shutil.copy(os.path.join(TOP, source), target)
        elif how == "link":
            os.symlink(source, target)
    return os.path.join(prefix, "bin")
