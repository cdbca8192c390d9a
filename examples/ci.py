#!/usr/bin/env python3
"""What a forge runs at each change of a station: it checks each script of this folder, prints the lines on its week,
and runs the tests.

    python3 ci.py

The exit status is 1 if a script is refused, if there is none, or if a test fails.
"""
import glob
import os
import sys
import unittest

os.chdir(os.path.dirname(os.path.abspath(__file__)))
sys.path.append("../share/liq")        # in a checkout; where the package is installed, this line is not needed
from liq import NoAnswer, Station  # noqa: E402


def is_good(file: str) -> bool:
    """Whether a script is taken. Prints what is said of it."""
    try:
        station = Station(file)
        refusal = station.refusal
        if refusal is None:
            print(f"{file}: taken" + ", never silent" * station.is_never_silent)
            print("".join(f"  {line}\n" for line in station.week), end="")
            return True
        print(f"{file}: {refusal.line}\n  {refusal.help}")
    except NoAnswer as error:
        print(f"{file}: {error}")
    return False


def main() -> int:
    scripts = sorted(glob.glob("*.liq"))
    bad = [file for file in scripts if not is_good(file)]
    tests = unittest.TextTestRunner().run(unittest.defaultTestLoader.discover("."))
    return int(bool(bad) or not scripts or not tests.wasSuccessful())


if __name__ == "__main__":
    sys.exit(main())
