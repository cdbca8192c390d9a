"""Scripts with switches by chance, and their hours by a second reading: the rules of docs/language.md, asked at each second.

A predicate is a tuple, as the grammar makes it: ("all",), ("none",), ("at", mark), ("between", mark, mark), ("not", p),
("and", p, ..) or ("or", p, ..). A mark is a tuple of pairs of a number and a unit. Nothing of the model is shared with
the reader that is tried, and nothing with the model of tests/week, which knows whole periods.
"""
import functools
import json
import os
import subprocess
import tempfile

WEEK = 604800
MOST, ALL_SPANS = 2000, 100000
UNIT = {"w": 86400, "h": 3600, "m": 60, "s": 1}
PERIOD = {"w": WEEK, "h": 86400, "m": 3600, "s": 60}
GREATEST = {"w": 7, "h": 24, "m": 60, "s": 60}
SECONDS = 120


# The second reading.

def value(mark):
    """The sum of the parts of a mark, in seconds."""
    return sum(((number - 1) % 7 if unit == "w" else number) * UNIT[unit] for number, unit in mark)


@functools.lru_cache(maxsize=64)
def leaf_table(leaf):
    """A number whose bytes are 1 at each second of the week at which a mark or an interval holds, and else 0. Of a period
    each second is asked, and the week is so many of them, as the rule knows no more than the seconds since its start."""
    period = max(PERIOD[mark[0][1]] for mark in leaf[1:])
    if leaf[0] == "at":
        start, length = value(leaf[1]), UNIT[leaf[1][-1][1]]
        held = bytes([(x - start) % period < length for x in range(period)])
    else:
        a, b = map(value, leaf[1:])
        held = bytes([a <= x < b for x in range(period)] if a <= b else [x >= a or x < b for x in range(period)])
    return int.from_bytes(held * (WEEK // period), "big")


EACH = int.from_bytes(b"\1" * WEEK, "big")


def table(pred):
    """The same of any predicate."""
    if pred[0] in ("at", "between"):
        return leaf_table(pred)
    if pred[0] in ("all", "none"):
        return EACH if pred[0] == "all" else 0
    parts = [table(part) for part in pred[1:]]
    if pred[0] == "not":
        return parts[0] ^ EACH
    return functools.reduce(int.__and__ if pred[0] == "and" else int.__or__, parts)


def spans_of(held):
    """The runs of the seconds whose bytes are 1, each as its first second and the one behind its last."""
    data, found, at = held.to_bytes(WEEK, "big"), [], 0
    while (first := data.find(1, at)) >= 0:
        behind = data.find(0, first)
        at = WEEK if behind < 0 else behind
        found.append([first, at])
    return found


def hours_of(preds):
    """The spans in which each case is the first that holds, and those in which none does."""
    found, earlier = [], 0
    for pred in preds:
        own = table(pred)
        found.append(spans_of(own & (earlier ^ EACH)))
        earlier |= own
    return [*found, spans_of(earlier ^ EACH)]


# The scripts.

def mark_text(mark):
    return "".join(f"{number}{unit}" for number, unit in mark)


def text(pred):
    """A predicate as a script has it."""
    kind, parts = pred[0], pred[1:]
    if kind in ("all", "none"):
        return "true" if kind == "all" else "false"
    if kind == "at":
        return mark_text(parts[0])
    if kind == "between":
        return "-".join(map(mark_text, parts))
    inner = [text(part) if part[0] in ("at", "between", "all", "none") else f"({text(part)})" for part in parts]
    return f"not {inner[0]}" if kind == "not" else f" {kind} ".join(inner)


def mark(words):
    """A mark of one to four units that follow one another."""
    first = words.choice([0, 1, 1, 1, 2, 3])
    units = "whms"[first:first + words.choice([1, 1, 2, 2, 3, 4])]
    return tuple((words.randint(0, GREATEST[unit]), unit) for unit in units)


def leaf(words):
    """A mark, or an interval; of one in three both ends are of one form, so that many wrap round their period."""
    one = mark(words)
    if words.random() < 0.3:
        return ("at", one)
    if words.random() < 0.33:
        return ("between", one, tuple((words.randint(0, GREATEST[unit]), unit) for _, unit in one))
    return ("between", one, mark(words))


def predicate(words, depth=0):
    kind = words.random()
    if depth == 3 or kind < 0.5:
        return leaf(words)
    if kind < 0.56:
        return (words.choice(["all", "none"]),)
    if kind < 0.7:
        return ("not", predicate(words, depth + 1))
    parts = [predicate(words, depth + 1) for _ in range(words.choice([2, 2, 3]))]
    return ("and" if kind < 0.85 else "or", *parts)


SOURCES = ["blank()", "square(440.)", 'single("s.wav")', 'playlist("l")', "fail()"]


class Script:
    """A script of one to four switches by chance: its text, and of each switch the bytes at which calls make it, and the
    predicates of its cases."""

    def __init__(self, words):
        self.words, self.lines, self.at, self.switches = words, [], 0, []
        self.pool = [predicate(words) for _ in range(words.randint(2, 5))]
        lists, open_names = [], []
        for k in range(words.randint(1, 4)):
            preds = words.choice(lists) if lists and words.random() < 0.3 else self.cases()
            lists.append(preds)
            open_names.append(self.switch(k, preds, open_names))
        names = ", ".join(open_names)
        self.add(f'output.file(%wav, fallible=true, "o", {words.choice(["fallback", "add"])}([{names}]))')

    @property
    def text(self):
        return "".join(self.lines)

    def cases(self):
        """The predicates of a switch: some of the script's, some new ones; seldom very many."""
        words = self.words
        count = words.randint(15, 40) if words.random() < 0.05 else words.randint(1, 5)
        return [words.choice(self.pool) if count > 5 or words.random() < 0.5 else predicate(words) for _ in range(count)]

    def add(self, line):
        self.lines.append(line + "\n")
        self.at += len(line.encode()) + 1

    def switch(self, number, preds, open_names):
        """Adds a switch, which may play one that nothing plays so far, and answers a name of it."""
        words = self.words
        sources = [open_names.pop() if open_names and words.random() < 0.2 else words.choice(SOURCES) for _ in preds]
        call = "switch(" + words.choice(["", "track_sensitive=false, "]) + "[" + ", ".join(
            f"({{{text(pred)}}}, {source})" for pred, source in zip(preds, sources)) + "])"
        if words.random() < 0.2:
            self.add(f"# \u00fc {number}")                        # a byte is no character
        if words.random() < 0.8:
            front = f"s{number} = "
            self.switches.append(([self.at + len(front)], preds))
            self.add(front + call)
        else:                                                     # its sources begin where the def is called
            self.add(f"def d{number}() = {call} end")
            front, one, turns = f"s{number} = add([", f"d{number}()", words.randint(1, 2)
            self.switches.append(([self.at + len(front) + k * (len(one) + 2) for k in range(turns)], preds))
            self.add(f"{front}{', '.join([one] * turns)}])")
        return f"s{number}"

    def wanted(self):
        """What `hours` has to print, but for the numbers of the sources: the most, and by the byte of its call each switch."""
        most = min(MOST, ALL_SPANS // sum(len(places) * (len(preds) + 1) for places, preds in self.switches))
        found, known = {}, {}
        for places, preds in self.switches:
            key = tuple(preds)
            if key not in known:
                known[key] = hours_of(preds)
            for at in places:
                found[at] = [told(spans, most) for spans in known[key]]
        return most, found


def told(spans, most):
    return {"count": len(spans), "spans": spans} if len(spans) <= most else {"count": len(spans)}


def hours_differ(program, words):
    """What differs between the hours that are told of a script by chance and those of the second reading: nothing, or a
    line; with the numbers of its switches, cases and spans."""
    script = Script(words)
    most, wanted = script.wanted()
    with tempfile.TemporaryDirectory(prefix="liq-hours-") as place:
        with open(os.path.join(place, "f"), "w", encoding="utf-8") as file:
            file.write(script.text)
        done = subprocess.run([program, "hours", "f"], cwd=place, stdin=subprocess.DEVNULL, capture_output=True, check=False,
                              timeout=SECONDS)
    if done.returncode or done.stderr:
        return f"status {done.returncode}, stderr {done.stderr[:200]!r} of {script.text!r}", (0, 0, 0)
    printed = json.loads(done.stdout)
    found = {switch["at"]: [*switch["cases"], switch["none"]] for switch in printed["switches"]}
    cases = [case for switch in wanted.values() for case in switch]
    counts = (len(wanted), len(cases), sum(case["count"] for case in cases))
    numbers = [switch["source"] for switch in printed["switches"]]
    if (printed["most"], found, numbers) != (most, wanted, sorted(set(numbers))):
        return f"{str(printed)[:300]}, wanted {most} {str(wanted)[:300]}, of {script.text!r}", counts
    return "", counts
