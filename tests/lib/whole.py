"""Whole runs of a program in tests/cases, each in a folder of its own, with all that they do.

A case is a folder:
    from                   where the bytes that are wanted come from, in a line
    program                the program that is run (no file: liq_program)
    words                  the words, one a line
    in/                    the files that lie where the program runs
    status                 the exit status that is wanted
    stdout, stderr         the bytes that are wanted there (no file: nothing)
    after/                 the files that are wanted afterwards, beside those of in/ or in their place
    stdout-to, stderr-to   a device that stands for that stream, as /dev/full
A file NAME.hex holds the bytes of NAME in hex: blanks do not count, and a line that ends with `* N` stands N times.
"""
import os
import subprocess
import tempfile

from lib.common import TESTS, content

CASES = os.path.join(TESTS, "cases")
SECONDS = 60


def bytes_of_hex(text):
    made = []
    for line in text.split("\n"):
        digits, star, times = line.partition("*")
        made.append(bytes.fromhex(digits) * (int(times) if star else 1))
    return b"".join(made)


def files_in(folder, decode):
    found = {}
    for base, _, names in os.walk(folder):
        for name in names:
            path = os.path.join(base, name)
            key = os.path.relpath(path, folder)
            if decode and key.endswith(".hex"):
                found[key[: -len(".hex")]] = bytes_of_hex(content(path).decode())
            else:
                found[key] = content(path)
    return found


def optional(path):
    return content(path) if os.path.exists(path) else b""


def stream(case, name):
    device = optional(os.path.join(case, name + "-to")).decode().strip()
    return open(device, "wb") if device else subprocess.PIPE


def differences(program, case):
    words = content(os.path.join(case, "words")).decode().split("\n")[:-1]
    given = files_in(os.path.join(case, "in"), True)
    with tempfile.TemporaryDirectory(prefix="liq-case-") as place:
        for name, data in given.items():
            path = os.path.join(place, name)
            os.makedirs(os.path.dirname(path), exist_ok=True)
            with open(path, "wb") as file:
                file.write(data)
        try:
            done = subprocess.run([program] + words, cwd=place, stdin=subprocess.DEVNULL,
                                  stdout=stream(case, "stdout"), stderr=stream(case, "stderr"), timeout=SECONDS)
        except subprocess.TimeoutExpired:
            return [f"no answer in {SECONDS} s"]
        found = []
        status = int(content(os.path.join(case, "status")))
        if done.returncode != status:
            found.append(f"status {done.returncode}, wanted {status}")
        for name, got in (("stdout", done.stdout), ("stderr", done.stderr)):
            wanted = optional(os.path.join(case, name))
            if (got or b"") != wanted:
                found.append(f"{name} {got!r}, wanted {wanted!r}")
        wanted = {**given, **files_in(os.path.join(case, "after"), True)}
        left = files_in(place, False)
        for name in sorted(set(wanted) | set(left)):
            if name not in left:
                found.append(f"file {name} is not there")
            elif name not in wanted:
                found.append(f"file {name} should not be there")
            elif left[name] != wanted[name]:
                found.append(f"file {name} has {len(left[name])} bytes and differs from the {len(wanted[name])} wanted")
        return found


def cases_of(program):
    """The cases of a program, each with its name and its folder."""
    for base, folders, names in sorted(os.walk(CASES)):
        if "words" in names:
            folders.clear()
            if (optional(os.path.join(base, "program")).decode().strip() or "liq_program") == program:
                yield os.path.relpath(base, CASES), base
