"""How bench/station measures: programs by turns, with the least and the median of each."""
import filecmp
import os
import shutil
import statistics
import subprocess
import time

BENCH = os.path.dirname(os.path.dirname(os.path.abspath(__file__)))


def compile_c(place, name, source, *words):
    """Builds a C program of bench/."""
    call = [os.environ.get("CC", "cc"), *words, "-o", os.path.join(place, name), os.path.join(BENCH, source)]
    subprocess.run(call, check=True)


def write_script(place, name, text):
    with open(os.path.join(place, name), "w", encoding="utf-8") as file:
        file.write(text)


def cost(words, place):
    """Processor seconds and peak MiB of a call, or nothing where it fails."""
    said = subprocess.run([os.path.join(place, "launch")] + words, cwd=place, stdin=subprocess.DEVNULL,
                          stdout=subprocess.PIPE, stderr=subprocess.DEVNULL, check=False)
    told = said.stdout.decode().split()
    if len(told) != 3 or told[0] != "0":
        return None
    return float(told[1]), float(told[2]) / 1024


def wall(calls, place):
    """Seconds on the wall of calls that run at once, or nothing where one fails."""
    begin = time.perf_counter()
    running = [subprocess.Popen(words, cwd=place, stdin=subprocess.DEVNULL, stdout=subprocess.DEVNULL,
                                stderr=subprocess.DEVNULL) for words in calls]
    ended = [child.wait() for child in running]
    return None if any(ended) else time.perf_counter() - begin


def by_turns(turns, measures):
    """What each measure answers in so many turns, one behind another in each; nothing for one that failed."""
    columns = list(zip(*[[measure() for measure in measures] for _ in range(turns)]))
    return [None if any(took is None for took in column) else list(column) for column in columns]


def installed(words):
    return words is not None and shutil.which(words[0]) is not None


def both(values, digits=2):
    """The least and the median as a cell of a table."""
    return f"{min(values):.{digits}f}; {statistics.median(values):.{digits}f}"


def over(values, others, digits=2):
    """The least and the median of one measure over those of another, or `-` where one was not taken."""
    if values is None or others is None:
        return "-"
    return f"{min(values) / min(others):.{digits}f}; {statistics.median(values) / statistics.median(others):.{digits}f}"


def same_files(place, pairs):
    """Whether the files of each pair, as far as its first one is there, have the same bytes."""
    paths = [[os.path.join(place, name) for name in pair] for pair in pairs]
    return all(filecmp.cmp(*pair, shallow=False) for pair in paths if os.path.exists(pair[0]))


def remove(place, *names):
    for name in names:
        path = os.path.join(place, name)
        if os.path.exists(path):
            os.remove(path)
