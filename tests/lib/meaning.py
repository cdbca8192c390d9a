"""What trees of sources are to play, worked out from docs/streams.md, cell by cell. tests/fuzz compares the program's files with it.

A tree is made by chance (`tree`); it writes itself as an expression of a script, and plays instant by instant. No source stands in it
twice, so a source goes on exactly where its parent uses it. A cell is a sample of each side, whether it begins a track, and the name of
its file, or None.
"""
from typing import NamedTuple, Optional

RATE = 8000


class Cell(NamedTuple):
    left: int
    right: int
    first: bool
    title: Optional[str]


class Sound(NamedTuple):
    """A file: its rate, and its samples of both sides."""
    rate: int
    samples: list

    def cells(self, name):
        """The cells of its track at the rate of the script."""
        length = max(1, len(self.samples) * RATE // self.rate)
        return [Cell(self.side(0, j), self.side(1, j), j == 0, name) for j in range(length)]

    def side(self, side, j):
        at, rest = divmod(j * self.rate, RATE)
        one, other = self.samples[at][side], self.samples[min(at + 1, len(self.samples) - 1)][side]
        return divided(one * (RATE - rest) + other * rest, RATE)


def divided(value, by):
    """A quotient, rounded toward zero."""
    return abs(value) // by * (1 if value > 0 else -1)


def clamped(value):
    return max(-32768, min(32767, value))


class Source:
    """A source. `offer` is its slot of an instant; `commit` ends the instant, and says whether the source was used in it."""
    children = ()
    known = False

    def offer(self):
        if not self.known:
            self.cell, self.known = self.slot(), True
        return self.cell

    def slot(self):
        """What it offers, found once in an instant."""
        raise NotImplementedError

    def used(self):
        """Its children that it uses in this instant, where it is used and offers."""
        return self.children

    def commit(self, is_used):
        gives = is_used and self.offer() is not None
        used = self.used() if gives else ()
        for child in self.children:
            child.commit(any(child is one for one in used))
        self.go_on(gives)
        self.known = False

    def go_on(self, gives):
        """What the source keeps from this instant."""


class Leaf(Source):
    """Tracks that are played in turn, without end or once; nothing where there is none."""

    def __init__(self, text, tracks, loops=True):
        self.text, self.loops, self.at = text, loops, 0
        self.cells = [cell for track in tracks for cell in track]

    def slot(self):
        return self.cells[self.at % len(self.cells)] if self.cells and (self.loops or self.at < len(self.cells)) else None

    def go_on(self, gives):
        self.at += gives


class Tone(Source):
    """A blank or a square: a sample for each place, and where tracks begin."""

    def __init__(self, text, sample, begins):
        self.text, self.sample, self.begins, self.at = text, sample, begins, 0

    def slot(self):
        value = self.sample(self.at)
        return Cell(value, value, self.begins(self.at), None)

    def go_on(self, gives):
        self.at += gives


class Changed(Source):
    """Each cell of its child with other samples."""

    def __init__(self, text, child, change):
        self.text, self.children, self.change = text.format(child.text), (child,), change

    def slot(self):
        cell = self.children[0].offer()
        return cell and cell._replace(left=self.change(cell.left, cell.right)[0], right=self.change(cell.left, cell.right)[1])


class Sum(Source):
    """The sum of the children that offer, or its mean."""

    def __init__(self, children, is_mean):
        self.children, self.is_mean = children, is_mean
        self.text = f"add({'' if is_mean else 'normalize=false, '}[{', '.join(child.text for child in children)}])"

    def slot(self):
        cells = [cell for cell in (child.offer() for child in self.children) if cell is not None]
        if not cells:
            return None
        sides = [sum(cell[side] for cell in cells) for side in (0, 1)]
        left, right = (divided(side, len(cells)) if self.is_mean else clamped(side) for side in sides)
        return cells[0]._replace(left=left, right=right)

    def used(self):
        return [child for child in self.children if child.offer() is not None]


class Choice(Source):
    """A fallback, a switch or a sequence: one child at each instant."""

    def __init__(self, name, children, eligible, is_sensitive=True):
        self.name, self.children, self.eligible, self.is_sensitive, self.last = name, children, eligible, is_sensitive, None
        options = "" if is_sensitive else "track_sensitive=false, "
        parts = [f"({{{'true' if is_on else 'not true'}}}, {child.text})" if name == "switch" else child.text for child, is_on in zip(children, eligible)]
        self.text = f"{name}({options}[{', '.join(parts)}])"

    def chosen(self):
        offers = [child.offer() for child in self.children]
        goes_on = self.last is not None and offers[self.last] is not None and not offers[self.last].first
        if self.name == "sequence":
            if self.last == len(offers) - 1:
                return self.last if offers[self.last] is not None else None
            if goes_on:
                return self.last
            ready = range(0 if self.last is None else self.last + 1, len(offers))
            return next((at for at in ready if offers[at] is not None), None)
        if self.is_sensitive and goes_on:
            return self.last
        return next((at for at, offer in enumerate(offers) if self.eligible[at] and offer is not None), None)

    def slot(self):
        self.choice = self.chosen()
        if self.choice is None:
            return None
        cell = self.children[self.choice].offer()
        return cell._replace(first=cell.first or self.choice != self.last)

    def used(self):
        return [self.children[self.choice]]

    def go_on(self, gives):
        self.last = self.choice if gives else self.last


class Crossfade(Source):
    """Its child's tracks, each faded into the next one. The child has instants of its own, no more than are asked for."""

    def __init__(self, duration, child):
        self.text = f"crossfade(duration={duration}, {child.text})"
        self.overlap, self.child, self.slots, self.at = int(float(duration) * RATE), child, [], 0
        self.items = []

    def item(self):
        while len(self.items) <= self.at:
            self.slots.append(self.child.offer())
            self.child.commit(True)
            self.items = settled(self.overlap, self.slots)
        return self.items[self.at]

    def slot(self):
        return self.item()

    def go_on(self, gives):
        self.at += gives or self.offer() is None


def tracks_of(run):
    """A run of cells, cut before each that begins a track."""
    tracks = []
    for cell in run:
        if cell.first or not tracks:
            tracks.append([])
        tracks[-1].append(cell)
    return tracks


def settled(overlap, slots):
    """The items of a crossfade that no further slot of its child changes."""
    items, run = [], []
    for slot in slots:
        if slot is not None:
            run.append(slot)
            continue
        items += faded(overlap, tracks_of(run), True) + [None]
        run = []
    return items + faded(overlap, tracks_of(run), False)


def faded(overlap, tracks, is_closed):
    """The items of a run, or those that are settled where it may go on."""
    if not tracks:
        return []
    items, rest = [], tracks[0]
    for at, track in enumerate(tracks[1:], 1):
        if not is_closed and at == len(tracks) - 1 and len(track) < min(overlap, len(rest)):
            break
        many = min(overlap, len(rest), len(track))
        items += rest[:len(rest) - many]
        for j, (one, other) in enumerate(zip(rest[len(rest) - many:], track)):
            sides = [divided(one[side] * (many - j) + other[side] * j, many) for side in (0, 1)]
            items.append(Cell(*sides, j == 0, other.title))
        rest = track[many:]
    return items + (rest if is_closed else rest[:len(rest) - min(overlap, len(rest))])


# Trees by chance.

def leaf(chance, sounds, lists):
    name, names = chance.one(*sounds), chance.one(*lists)
    loops = chance.often(0.6)
    millionths = chance.one(1000, 700_000, 440_000_000, 1_999_999_999)
    length = chance.one(1, 5, 8, 24)
    return chance.one(
        lambda: Leaf(f'single("{name}")', [sounds[name].cells(name)]),
        lambda: Leaf(f'playlist({"" if loops else "loop=false, "}"{names}")', [sounds[one].cells(one) for one in lists[names] if one in sounds], loops),
        lambda: Tone("blank()", lambda at: 0, lambda at: at == 0),
        lambda: Tone(f"blank(duration={length / RATE:.6f})", lambda at: 0, lambda at: at % length == 0),
        lambda: Tone(f"square({millionths // 10 ** 6}.{millionths % 10 ** 6:06})",
                     lambda at: 8192 if at * millionths % (RATE * 10 ** 6) < RATE * 500_000 else -8192, lambda at: at == 0),
        lambda: Leaf("fail()", []))()


def tree(chance, sounds, lists, levels=3):
    """A source in stereo, with so many levels of others in it at most."""
    def inner():
        return tree(chance, sounds, lists, levels - 1)

    def some():
        return [inner() for _ in range(chance.one(1, 2, 2, 3))]

    def choice(name):
        children = some()
        eligible = [name != "switch" or chance.often(0.8) for _ in children]
        return Choice(name, children, eligible, name == "sequence" or chance.often(0.7))
    if levels == 0 or chance.often(0.2):
        return leaf(chance, sounds, lists)
    gain = chance.one(0, 500_000, 1_000_000, 2_500_000, 333_333)
    return chance.one(
        lambda: Changed(f"amplify({gain // 10 ** 6}.{gain % 10 ** 6:06}, {{}})", inner(), lambda left, right: [
            clamped(divided(side * gain, 10 ** 6)) for side in (left, right)]),
        lambda: Changed("stereo(mean({}))", inner(), lambda left, right: [divided(left + right, 2)] * 2),
        lambda: Sum(some(), chance.often(0.5)),
        lambda: choice("fallback"), lambda: choice("switch"), lambda: choice("sequence"),
        lambda: Crossfade(chance.one("0.0005", "0.001", "0.000125", "0.003"), inner()))()


class Played:
    """What an output of a source has after so many instants: its samples, left before right, its gaps, and the text of its cue file."""

    def __init__(self, source, count):
        self.samples, self.gaps, self.cues = [], 0, ""
        for at in range(count):
            cell = source.offer()
            source.commit(True)
            self.samples += [cell.left, cell.right] if cell else [0, 0]
            self.gaps += cell is None
            if cell and cell.first:
                self.cues += f"{at} {cell.title}\n" if cell.title is not None else f"{at}\n"
