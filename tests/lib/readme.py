"""The terminal that the README shows, the script of docs/station.md, and the help of each command. tests/run calls each of `checks`."""
import os
import re
import shutil
import subprocess
import tempfile
from types import SimpleNamespace

from lib.common import TOP, companion_path, content
from lib.documents import rows_of_tables, text_of

SECONDS = 300
# What pages and definitions once claimed beyond their proof, and what stands there since.
CLAIMED = (("README.md", "Never silent, proved", "With `mksafe` that may be silence"), ("README.md", "in whatever order threads run", "given the answers of its clock's buffers"),
           ("README.md", "is refused exactly for its stated fault", "a program that always answered 5 would satisfy the clauses"),
           ("README.md", "renders the same files again", "renders the same outputs and prints the same report"),
           ("crates/liq_cli/specs/Call.antt", "status 5: memory was refused", "nothing ties this status to a cause"),
           ("crates/liq_cli/specs/Call.antt", "memory was refused or there is a verdict", "a body that always ends with it meets this"),
           ("tools/chapters.txt", "The bytes of a script are ASCII", "a comment may hold any"))
FIGURE, MOST_BYTES = "docs/figures/mistake.svg", 100 * 1024


def programs_of(program):
    return program, companion_path(SimpleNamespace(program=program, companion=None))


def station_that_differs(_program):
    """The script that docs/station.md shows is examples/station.liq, but for its remark."""
    script = re.search(r"```liquidsoap\n(.*?)```", text_of("docs/station.md"), flags=re.S)[1]
    return [] if text_of("examples/station.liq").endswith("\n" + script) else ["docs/station.md shows another script than examples/station.liq"]


def recording_that_differs(program):
    """The terminal of the README is what tools/recorded makes of these programs, and is small."""
    done = subprocess.run([os.path.join(TOP, "tools", "recorded"), *programs_of(program)], stdin=subprocess.DEVNULL,
                          capture_output=True, check=False, timeout=SECONDS)
    data = content(os.path.join(TOP, FIGURE))
    found = [] if (done.returncode, done.stdout) == (0, data) else [f"{FIGURE} is another: {done.returncode}, {done.stderr!r:.300}"]
    return found + ([f"{FIGURE} has {len(data)} bytes"] if len(data) > MOST_BYTES else [])


def helps_that_are_missing(_program):
    """Each command beside liq prints what it does, and how it is called, where --help is its only word."""
    found = []
    for name in sorted(it for it in os.listdir(os.path.join(TOP, "bin")) if it.startswith("liq")):
        done = subprocess.run([os.path.join(TOP, "bin", name), "--help"], stdin=subprocess.DEVNULL, capture_output=True, text=True,
                              check=False, timeout=SECONDS)
        forms = (f"    {name}", f"    {name.replace('liq-', 'liq ')}", f"{name} FILE")
        if done.returncode or done.stderr or not any(form in done.stdout.replace("bin/", "") for form in forms):
            found.append(f"{name} --help ends with {done.returncode}, and prints {done.stdout!r:.200} and {done.stderr!r:.200}")
    return found


def needs_that_are_not_told(_program):
    """The README names what its commands need beside the repository, `git` before it calls it. Where `dot` is not installed, its
    line for a picture says so and leaves no file."""
    text, found = text_of("README.md"), []
    needs = text.partition("    $ git clone")[0]
    found += [f"README.md does not say that it needs {name}" for name in ("`git`", "`xz`", "Python 3.9") if name not in needs]
    found += [f"README.md does not say that it needs {name}" for name in ("ffmpeg", "graphviz") if name not in text]
    pictures = re.findall(r"^ +\$ (liq picture .*\| dot .*)$", text, flags=re.M)
    with tempfile.TemporaryDirectory(prefix="liq-readme-") as place:
        for name in ("sh", "env", "python3", "readlink", "dirname"):
            os.symlink(shutil.which(name), os.path.join(place, name))
        work = os.path.join(place, "work")
        shutil.copytree(os.path.join(TOP, "examples"), work)
        before = set(os.listdir(work))
        for line in pictures:
            done = subprocess.run(["sh", "-c", line], cwd=work, stdin=subprocess.DEVNULL, capture_output=True, text=True, check=False,
                                  timeout=SECONDS, env={"PATH": f"{os.path.join(TOP, 'bin')}:{place}", "HOME": place})
            if done.returncode == 0 or "dot" not in done.stderr or set(os.listdir(work)) != before:
                found.append(f"without dot {line} ends with {done.returncode}, {done.stderr!r}, and leaves {set(os.listdir(work)) - before}")
    return found if pictures else [*found, "README.md has no line for a picture"]


def claims_that_differ(_program):
    """No page says more than its proof, as it once did; and in the README's table of what is proved, tested and trusted stands each
    command, no cell is empty, and what is not proved says so."""
    found = [f"{page} says: {old}" for page, old, _ in CLAIMED if old in text_of(page)]
    found += [f"{page} does not say: {new}" for page, _, new in CLAIMED if new not in " ".join(text_of(page).replace("\n--", " ").split())]
    rows = [row for row in rows_of_tables(text_of("README.md")) if [head for head, _ in row][1:] == ["proved", "tested", "trusted, or open"]]
    found += [f"README.md has an empty cell beside {row[0][1]}" for row in rows if not all(cell for _, cell in row)]
    features = " ".join(row[0][1] for row in rows)
    commands = [name[len("liq-"):] for name in os.listdir(os.path.join(TOP, "bin")) if name.startswith("liq-")]
    found += [f"README.md does not say what of liq {name} is proved" for name in commands if not re.search(rf"`(?:liq )?{name}\b", features)]
    unproved = [row for row in rows if "`liq night`" in row[0][1]]
    return found if unproved and unproved[0][1][1] == "nothing" else [*found, "README.md does not say that liq night is not proved"]


checks = {"readme/claims": claims_that_differ, "readme/needs": needs_that_are_not_told, "readme/help": helps_that_are_missing, "readme/station": station_that_differs,
          "readme/recorded": recording_that_differs}
