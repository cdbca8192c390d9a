"""What `make SEED SIZE` has to tell, worked out from docs/formats.md and docs/streams.md. tests/run compares it with what
the program tells."""
import itertools
import subprocess

SECONDS = 60
SAMPLES = 32000  # of each side: 500 ticks of 64 samples
OVERLAP = 400
MOST_SIZE, EACH_SEED = 100, 2026
RUNS = ((0, 1), (1, 3), (7, 100), (18446744073709551615, 1), (18446744073709551615, 10))

MULTIPLIER = 6364136223846793005
LARGE = 1 << 64


def output_of(state):
    """The word that a state of the generator gives: its high bits, turned by the highest five."""
    word, turn = (state >> 18 ^ state) >> 27 & 0xFFFFFFFF, state >> 59
    return (word >> turn | word << 32 - turn) & 0xFFFFFFFF


def words_of(seed):
    """The words of a seed: the state and the step of the generator are four words of another one."""
    parts = []
    for _ in range(4):
        seed = (seed * MULTIPLIER + 11634580027462260723) % LARGE
        parts.append(output_of(seed))
    step = parts[2] | parts[3] << 32 | 1
    state = ((parts[0] | parts[1] << 32) + step) * MULTIPLIER + step
    while True:
        state %= LARGE
        yield output_of(state)
        state = state * MULTIPLIER + step


def tracks_of(seed, size):
    words = words_of(seed)
    return [[next(words) % 20001 - 10000 for _ in range(1 + next(words) % 4000)] for _ in range(size)]


def divided(value, by):
    """A quotient, rounded toward zero."""
    return abs(value) // by * (1 if value > 0 else -1)


def crossfaded(tracks):
    """The tracks in turn, each faded into the next one."""
    made, left, turn = [], tracks[0], 0
    while len(made) < SAMPLES:
        turn += 1
        track = tracks[turn % len(tracks)]
        mixed = min(OVERLAP, len(left), len(track))
        made += left[:len(left) - mixed]
        made += [divided(a * (mixed - j) + b * j, mixed) for j, (a, b) in enumerate(zip(left[len(left) - mixed:], track))]
        left = track[mixed:]
    return made[:SAMPLES]


def sums_of(tracks):
    """The tracks at half their loudness, each again and again: the sum of the first, of the first two, and so on."""
    sums = [0] * SAMPLES
    for track in tracks:
        half = itertools.cycle([divided(sample, 2) for sample in track])
        sums = [before + sample for before, sample in zip(sums, half)]
        yield sums


def told(tracks, sums):
    """The report of the tracks, each faded into the next one, and of their sum, divided by how many they are."""
    both = ("one", crossfaded(tracks)), ("two", [divided(sample, len(tracks)) for sample in sums])
    lines = [f"output {name}.wav samples {SAMPLES} gaps 0 sum {2 * sum(samples)}\n" for name, samples in both]
    return "".join(lines).encode()


def summary(seed, size):
    tracks = tracks_of(seed, size)
    *_, sums = sums_of(tracks)
    return told(tracks, sums)


def summaries(seed, sizes):
    """The sizes up to this one, each with its report: a size has the tracks of the size before, and one more."""
    tracks = tracks_of(seed, sizes)
    for size, sums in enumerate(sums_of(tracks), 1):
        yield size, told(tracks[:size], sums)


def call_differs(program, seed, size, wanted):
    """What is wrong with a call of `make`, as a list of one text; an empty one where nothing is."""
    done = subprocess.run([program, "make", str(seed), str(size)], stdin=subprocess.DEVNULL, capture_output=True,
                          timeout=SECONDS, check=False)
    if (done.returncode, done.stdout, done.stderr) == (0, wanted, b""):
        return []
    return [f"make {seed} {size}: status {done.returncode}, stdout {done.stdout!r}, stderr {done.stderr!r}"]


def differences(program):
    """What `make` tells otherwise than it has to, for some seeds and sizes."""
    return [fault for seed, size in RUNS for fault in call_differs(program, seed, size, summary(seed, size))]


def differences_of_sizes(program):
    """The same for each of the sizes and one seed. The plan of the script that is made rests on the size alone: so where
    each of these ends with 0, and tells two outputs and no buffer, each script that `make` makes is accepted and has no
    buffer."""
    return [fault for size, wanted in summaries(EACH_SEED, MOST_SIZE)
            for fault in call_differs(program, EACH_SEED, size, wanted)]
