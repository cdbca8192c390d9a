"""How the files of a night are put at their names: all of them or none, also where the machine stops meanwhile.

All files are whole and on their disks before the first name is replaced, each on the disk of its name. Each room has a
note `moves` of what is to be put from it, and the note of the first room, which is written last, is the decision. Where
the machine stops behind it, the next night on one of these outputs ends what was begun. The old file of a name is kept
by a link in the room until all names are replaced, and where one cannot be replaced the old ones are put back.
"""
import json
import os
import secrets
import signal
import stat
from typing import Any, Callable, Dict, List, NamedTuple, Sequence, Tuple

from liq.nights.failed import KEPT, Failed
from liq.nights.rooms import FRONT, OWN, Room, Rooms, sync
from liq.watching.names import shown

SIGNALS = (signal.SIGINT, signal.SIGTERM, signal.SIGHUP)
NOTE = "moves"


class Move(NamedTuple):
    """A file of a room, the path at which it is to be put, the name by which its room keeps the old file, and whether
    there is an old one."""
    room: Room
    name: str
    target: str
    old: str
    is_new: bool


def move_of(rooms: Rooms, room: Room, name: str, wanted: str, number: int) -> Move:
    """The move of a file to the name that is wanted. A link stays, and the file that it leads to is replaced; the new
    file has the mode of the old one. A small file whose name lies elsewhere than its room is copied there first."""
    target = os.path.realpath(wanted)
    there = rooms.beside(wanted, os.path.basename(wanted))
    if os.path.realpath(there.folder or ".") != os.path.realpath(room.folder or "."):
        with open(os.path.join(room.path, name), "rb") as file:
            name = os.path.basename(there.write(f"small-{number}", file.read()))
        room = there
    is_new = not os.path.lexists(target)
    path = os.path.join(room.path, name)
    if not is_new:
        os.chmod(path, stat.S_IMODE(os.stat(target).st_mode) & 0o777)
    sync(path)
    return Move(room, name, target, f"old-{number}", is_new)


def put(rooms: Rooms, files: Sequence[Tuple[Room, str, str]], then: Callable[[], None] = lambda: None) -> None:
    """Puts files at their names: each is a room, the name of a file in it, and the name that it is to have. What is to
    be done then is done before a signal is looked at."""
    moves = [move_of(rooms, *file, number) for number, file in enumerate(files)]
    used = list(dict.fromkeys([rooms.first] + [move.room for move in moves]))
    signal.pthread_sigmask(signal.SIG_BLOCK, SIGNALS)
    try:
        decide(used, moves)
        carry_out(used, moves)
        then()
    finally:
        signal.pthread_sigmask(signal.SIG_UNBLOCK, SIGNALS)


def hear_no_more() -> None:
    """From now on a signal does not break this process off: what it was for is done."""
    for number in SIGNALS:
        if signal.getsignal(number) != signal.SIG_IGN:
            signal.signal(number, lambda *_: None)


def decide(used: Sequence[Room], moves: Sequence[Move]) -> None:
    """Writes the notes, that of the first room last."""
    told = {"night": secrets.token_hex(8), "rooms": [os.path.realpath(room.path) for room in used]}
    for room in reversed(used):
        mine = [[move.name, os.path.basename(move.target), move.old, move.is_new]
                for move in moves if move.room is room]
        room.write(NOTE + ".unfinished", json.dumps({**told, "moves": mine}).encode())
        os.rename(NOTE + ".unfinished", NOTE, src_dir_fd=room.handle, dst_dir_fd=room.handle)
        sync(room.path)


def carry_out(used: Sequence[Room], moves: Sequence[Move]) -> None:
    """Replaces the names; where one of them cannot be replaced, the old files are put back."""
    try:
        for move in moves:
            if move.room.is_file(move.name):
                replace(move)
        sync_folders(moves)
    except OSError as error:
        take_back(used, moves, error)
    for room in reversed(used):
        forget(room, NOTE)
    for move in moves:
        forget(move.room, move.old)


def replace(move: Move) -> None:
    """Replaces one name, and keeps what it held where the disk knows links."""
    handle = move.room.handle
    if not move.is_new and not move.room.is_file(move.old):
        try:
            os.link(move.target, move.old, dst_dir_fd=handle, follow_symlinks=False)
        except OSError:
            pass
    os.replace(move.name, move.target, src_dir_fd=handle)


def restore(move: Move) -> bool:
    """Puts the old file back; whether its name holds it. The new one is in the room again, so that a night which is
    killed here can be ended by the next one."""
    room, is_here = move.room, move.room.is_file(move.name)
    try:
        if move.is_new:
            if not is_here:
                os.replace(move.target, move.name, dst_dir_fd=room.handle)
        elif not room.is_file(move.old):
            return is_here
        elif not is_old(move):
            if not is_here:
                os.link(move.target, move.name, dst_dir_fd=room.handle, follow_symlinks=False)
            os.replace(move.old, move.target, src_dir_fd=room.handle)
    except OSError:
        return False
    return True


def is_old(move: Move) -> bool:
    """Whether a name holds its old file still."""
    return os.path.samestat(os.stat(move.old, dir_fd=move.room.handle), os.lstat(move.target))


def take_back(used: Sequence[Room], moves: Sequence[Move], error: OSError) -> None:
    """Fails, with what is new and what is old where the old files could not all be put back."""
    left = [move for move in reversed(moves) if not restore(move)]
    sync_folders(moves)
    forget(used[0], NOTE)
    wrong = next((move for move in moves if move.name == error.filename), None)
    text = f"{shown(wrong.target if wrong else str(error.filename or 'an output'))}: {error.strerror}"
    if left:
        new = ", ".join(shown(move.target) for move in moves if move in left)
        old = ", ".join(shown(move.target) for move in moves if move not in left)
        raise Failed(f"{text}; new: {new}; as before: {old or 'nothing'}", 4) from None
    raise Failed(f"{text}; {KEPT}", 4) from None


def sync_folders(moves: Sequence[Move]) -> None:
    for folder in dict.fromkeys(os.path.dirname(move.target) for move in moves):
        sync(folder)


def forget(room: Room, name: str) -> None:
    try:
        os.unlink(name, dir_fd=room.handle)
    except OSError:
        pass                    # the names are replaced; the next night removes it


def end_begun(rooms: Rooms) -> List[str]:
    """Ends what a night had decided that was killed while it put its files; the names that it put. What is left in the
    rooms behind that is removed."""
    found: List[str] = []
    for room in list(rooms.all):
        note = note_of(room)
        if note:
            found += end_of(rooms, note)
    for room in rooms.all:
        room.clear()
    return found


def end_of(rooms: Rooms, note: Dict[str, Any]) -> List[str]:
    """Ends one night by its note, where it was decided."""
    places = {os.path.realpath(room.path): room for room in rooms.all}
    used = [places.get(path) or other_room(rooms, path) for path in note["rooms"]]
    notes = [note_of(room) for room in used]
    if not notes[0] or notes[0]["night"] != note["night"]:
        return []
    moves = [Move(room, name, os.path.join(os.path.realpath(room.folder or "."), target), old, is_new)
             for room, told in zip(used, notes) if told and told["night"] == note["night"]
             for name, target, old, is_new in told["moves"]]
    left = [move.target for move in moves if move.room.is_file(move.name)]
    carry_out(used, moves)
    return left


def other_room(rooms: Rooms, path: str) -> Room:
    """A room of an earlier night that is none of this one."""
    folder, name = os.path.split(path)
    return rooms.add(folder, name[len(FRONT):])


def note_of(room: Room) -> Dict[str, Any]:
    """The note of a room; nothing where there is none as a night writes it."""
    try:
        with os.fdopen(os.open(NOTE, os.O_RDONLY | os.O_NOFOLLOW, dir_fd=room.handle), "rb") as file:
            told: Dict[str, Any] = json.loads(file.read(1 << 20))
        return told if is_note(told) else {}
    except (OSError, ValueError, TypeError, KeyError):
        return {}


def is_note(told: Dict[str, Any]) -> bool:
    """Whether a note names files of a night alone, and what stands beside its room."""
    return (isinstance(told["night"], str) and isinstance(told["rooms"], list)
            and all(os.path.basename(path).startswith(FRONT) and os.path.isabs(path) for path in told["rooms"])
            and all(OWN.fullmatch(name) and OWN.fullmatch(old) and "/" not in target and not target.startswith(".")
                    for name, target, old, _ in told["moves"]))
