"""Runs of tests/night on files: outputs are all new or all old, and nothing of others is removed."""
import errno
import os
import random
import signal
import subprocess
import sys
import time

from lib.common import TOP, content, quick
from lib.night_place import NIGHT, SECONDS
from lib.place import Skipped, wants_disks
from lib.stations import write_file

sys.path.insert(0, os.path.join(TOP, "share", "liq"))
from liq.doctoring import outputs  # noqa: E402
from liq.nights import putting  # noqa: E402
from liq.nights.failed import Failed  # noqa: E402
from liq.nights.rooms import Rooms  # noqa: E402

KILLS = 12                                   # nights that are killed at random moments
LENGTHS, PART = ("0.002", "0.003"), "--part=0.001"       # hours of these nights, and of their parts
NAMES = ("A.wav", "A.wav.cue", "B.wav", "B.wav.cue")
TWO = ('output.file(%wav, "A.wav", mean(mksafe(playlist("m.m3u"))))\n'
       'output.file(%wav, "B.wav", mean(amplify(0.5, mksafe(playlist("m.m3u")))))')
TO_PUT = ("rename", "replace", "link", "unlink", "fsync", "chmod", "open")     # calls of os that put files


def a_room_of_others(place):
    """A link in the place of the room is not followed; what others put into a room stays there; a file in its place
    is told."""
    os.mkdir(place.path("foreign"))
    write_file(place.folder, "foreign/part.liq", "mine")
    os.symlink("foreign", place.path(".night-A.wav"))
    wanted = (1, "night: .night-A.wav: is no folder, and a night is made there; move it away\n")
    status, _, said = place.run("f", "0.01")
    place.wants("a link", (status, said, content(place.path("foreign/part.liq"))), (*wanted, b"mine"))
    os.remove(place.path(".night-A.wav"))
    write_file(place.folder, ".night-A.wav", "mine")
    status, _, said = place.run("f", "0.01")
    place.wants("a file", (status, said, content(place.path(".night-A.wav"))), (*wanted, b"mine"))
    os.remove(place.path(".night-A.wav"))
    os.makedirs(place.path(".night-A.wav", "7.m3u"))
    for name in ("notes.txt", "0-1.wav", "0-7.wav.cue.unfinished12"):
        write_file(place.folder, f".night-A.wav/{name}", "old")
    place.night("f", "0.01")
    place.wants("the room", sorted(os.listdir(place.path(".night-A.wav"))), ["7.m3u", "notes.txt"])
    if os.geteuid() == 0:
        os.chown(place.path(".night-A.wav"), 12345, -1)
        wanted = "night: .night-A.wav: belongs to another user, and a night is made there; move it away\n"
        status, _, said = place.run("f", "0.01")
        place.wants("a room of another user", (status, said), (1, wanted))


def mounted(place, script):
    """Runs a script of the shell where it may mount disks; what it prints, and what it says."""
    wants_disks()
    done = subprocess.run(["unshare", "-m", "sh", "-c", script], cwd=place.folder, capture_output=True, text=True,
                          check=False)
    if done.returncode == 99:
        raise Skipped("nothing can be mounted")
    return done.stdout, done.stderr


def outputs_on_two_disks(place):
    """Each output is made on its own disk. Where that of one is full, or one cannot be replaced, all are as before."""
    os.mkdir(place.path("d"))
    os.symlink("d/B.wav", place.path("B.wav"))
    place.script(TWO)
    call = f"'{NIGHT}' '--program={place.program}' f 0.05 >&2; echo $?"
    show = "head -c 4 A.wav; head -c 4 A.wav.cue; head -c 4 d/B.wav; echo; ls -A d"
    old = "for name in A.wav A.wav.cue d/B.wav; do printf old > $name; done"
    printed, said = mounted(place, f"""mount -t tmpfs -o size=2m none d || exit 99
{old}; {call}; {show}
mount -o remount,size=9m d; {call}; {show}
{old}; mount --bind d/B.wav d/B.wav; {call}; {show}""")
    full, new, busy = printed.split("B.wav\n")[:-1]
    place.wants("on a full disk", full, "4\noldoldold\n")
    place.wants("with room", new, "0\nRIFF0 t0RIFF\n")
    place.wants("where one cannot be replaced", busy, "4\noldoldold\n")
    if "B.wav: Device or resource busy; each output holds what it held before\n" not in said:
        place.found.append(f"it says {said[-300:]!r}")
    place.lies("afterwards", "A.wav", "A.wav.cue", "A.wav.html", "B.wav", "B.wav.cue", "d")


def in_folder(place, call):
    """Calls something in the folder of the station."""
    folder = os.getcwd()
    os.chdir(place.folder)
    try:
        return call()
    finally:
        os.chdir(folder)


def made_in(rooms):
    """Makes files in rooms; what is to be put."""
    files = []
    for number, name in enumerate(("A.wav", "B.wav")):
        rooms.of[name].write(f"{number}-1.wav", b"new")
        rooms.of[name].write(f"{number}-1.wav.cue", b"new")
        files += [(rooms.of[name], f"{number}-1.wav", name), (rooms.of[name], f"{number}-1.wav.cue", name + ".cue")]
    return files


def old_files(place, *names):
    for name in NAMES:
        if name in names:
            write_file(place.folder, name, "old")
        elif os.path.exists(place.path(name)):
            os.remove(place.path(name))


def held(place):
    """What the names hold."""
    return [content(place.path(name)).decode() if os.path.exists(place.path(name)) else "" for name in NAMES]


def stopped_at_each_step(place):
    """Where the machine stops at any call that puts files, the next night makes all new, or leaves all as they were;
    so it is where what was stopped was the putting back of the old files."""
    for olds in (NAMES, NAMES[:2], ()):
        for busy in (None, "B.wav.cue"):
            step, ended = 0, False
            while not ended:
                step += 1
                old_files(place, *olds)
                before = held(place)
                child = os.fork()
                if child == 0:
                    os.chdir(place.folder)
                    stop_at(step, busy)
                status = os.waitstatus_to_exitcode(os.waitpid(child, 0)[1])
                ended = status != 9
                told = in_folder(place, lambda: end_of_stopped(busy))
                if held(place) not in (before, ["new"] * 4) or busy and held(place) != before:
                    place.found.append(f"step {step} of {len(olds)} old ones, {busy}: {held(place)}, {told}")
            place.wants("the end of the last one", status, 1 if busy else 0)
            place.wants("more than a few steps", step > 20, True)
    old_files(place)
    place.lies("afterwards")


def refuse(name):
    """Lets no file be put at a name."""
    replace = os.replace

    def refusing(source, target, **more):
        if os.path.basename(target) == name:
            raise OSError(errno.EBUSY, "busy", source)
        return replace(source, target, **more)
    os.replace = refusing


def stop_at(step, busy):
    """Puts files, and ends this process at a call."""
    rooms = Rooms(["A.wav", "B.wav"])
    files, count = made_in(rooms), [0]
    if busy:
        refuse(busy)

    def counted(call):
        def counting(*words, **more):
            count[0] += 1
            if count[0] == step:
                os._exit(9)
            return call(*words, **more)
        return counting
    for name in TO_PUT:
        setattr(os, name, counted(getattr(os, name)))
    try:
        putting.put(rooms, files)
        rooms.end()
    except Failed:
        rooms.end()
        os._exit(1)
    os._exit(0)


def end_of_stopped(busy):
    """What the next night does first."""
    replace = os.replace
    if busy:
        refuse(busy)
    rooms = Rooms(["A.wav"])
    try:
        return putting.end_begun(rooms)
    except Failed as error:
        return str(error)
    finally:
        rooms.end()
        os.replace = replace


def what_is_new_is_told(place):
    """On a disk without links, where a name cannot be replaced, the line says what is new and what is old."""
    old_files(place, *NAMES)
    link, replace = os.link, os.replace

    def no_link(*_, **__):
        raise OSError(errno.EPERM, "no links")

    def call():
        rooms = Rooms(["A.wav", "B.wav"])
        os.link = no_link
        refuse("B.wav.cue")
        try:
            putting.put(rooms, made_in(rooms))
            return "it is put"
        except Failed as error:
            return str(error)
        finally:
            os.link, os.replace = link, replace
            rooms.end()
    said, top = in_folder(place, call), os.path.realpath(place.folder) + "/"
    place.wants("what is said", said.replace(top, ""),
                "B.wav.cue: busy; new: A.wav, A.wav.cue, B.wav; as before: B.wav.cue")
    place.wants("what they hold", held(place), ["new", "new", "new", "old"])


def has_note(place):
    """Whether the next night ends what a killed one had decided."""
    return os.path.exists(place.path(".night-A.wav", putting.NOTE))


def command_of():
    """The command, which makes no pages."""
    from liq.nights import command
    command.page.page_of = lambda *_: None
    return command


def begun(command, place, length):
    """A process that renders a night of two outputs."""
    child = os.fork()
    if child == 0:
        os.dup2(os.open(os.devnull, os.O_WRONLY), 1)
        os.chdir(place.folder)
        try:
            os._exit(command.main([f"--program={place.program}", PART, "f", length]))
        finally:
            os._exit(99)
    return child


def ended(child):
    return os.waitstatus_to_exitcode(os.waitpid(child, 0)[1])


def killed_within(child, seconds):
    """Kills a process that has not ended by itself in so many seconds; whether it was killed."""
    until = time.monotonic() + seconds
    while time.monotonic() < until:
        if os.waitpid(child, os.WNOHANG)[0]:
            return False
        time.sleep(0.002)
    os.kill(child, signal.SIGKILL)
    ended(child)
    return True


def set_of(place):
    return [content(place.path(name)) for name in NAMES]


def killed_at_random(place, kills=KILLS, seed=1):
    """Nights are killed at random moments, and a run after each: each time the outputs are all of one night."""
    place.script(TWO)
    command, chance, sets, count = command_of(), random.Random(seed), [], 0
    begin = time.monotonic()
    for length in LENGTHS:
        place.wants("a first night", ended(begun(command, place, length)), 0)
        sets.append(set_of(place))
    took = (time.monotonic() - begin) / 2
    for number in range(kills):
        count += killed_within(begun(command, place, LENGTHS[number % 2]), chance.uniform(0, 1.2 * took))
        if set_of(place) not in sets and not has_note(place):
            place.found.append(f"kill {number}: a mixed set, and nothing tells the next night")
        other = number // 2 % 2
        status = ended(begun(command, place, LENGTHS[other]))
        if status or set_of(place) != sets[other]:
            place.found.append(f"kill {number}: the run after it ends with {status}, or its set is mixed")
    place.wants("some were killed", count > kills // 4, True)
    place.lies("afterwards", *NAMES)


def the_renderer_ends_too(place):
    """Where a night is killed its renderer ends with it."""
    run = subprocess.Popen([*quick(NIGHT), place.slow("sleep 60"), "f", "0.02"], cwd=place.folder, stdin=subprocess.DEVNULL,
                           stdout=subprocess.PIPE, stderr=subprocess.DEVNULL)
    until = time.monotonic() + SECONDS
    child = []
    while not child and time.monotonic() < until:
        child = [int(number) for number in os.listdir("/proc")
                 if number.isdigit() and is_child(number, run.pid, b"render")]
        time.sleep(0.02)
    run.send_signal(signal.SIGKILL)
    run.communicate()
    until = time.monotonic() + 20
    while child and any(os.path.exists(f"/proc/{number}") for number in child) and time.monotonic() < until:
        time.sleep(0.02)
    place.wants("the renderer", [number for number in child if os.path.exists(f"/proc/{number}")], [])
    place.wants("there was one", len(child), 1)


def is_child(number, parent, word):
    """Whether a process is the child of another one, and has a word."""
    try:
        told = content(f"/proc/{number}/stat").rsplit(b")", 1)[1].split()
        return int(told[1]) == parent and word in content(f"/proc/{number}/cmdline").split(b"\0")
    except (OSError, IndexError):
        return False


def a_look_leaves_nothing(place):
    """The file by which the doctor looks at a folder has no name, so that none is left by a kill."""
    try:
        os.close(os.open(place.folder, os.O_WRONLY | os.O_TMPFILE))
    except OSError as error:
        raise Skipped("the disk has no files without names") from error
    before, seen, close = os.listdir(place.folder), [], os.close

    def closing(handle):
        seen.append(os.listdir(place.folder))
        close(handle)
    os.close = closing
    try:
        place.wants("what is told", outputs.trouble_of_folder(place.folder), None)
    finally:
        os.close = close
    place.wants("what lies there meanwhile", [sorted(names) for names in seen], [sorted(before)])


def behind_one_that_was_killed(place):
    """A night that fails says which outputs are new, where it first ended what a killed one had begun."""
    place.script(TWO)
    old_files(place, *NAMES)
    child = os.fork()
    if child == 0:
        os.chdir(place.folder)
        rooms = Rooms(["A.wav", "B.wav"])
        putting.carry_out = lambda *_: os._exit(9)          # killed once it had decided
        putting.put(rooms, made_in(rooms))
    place.wants("the killed one", (ended(child), held(place)), (9, ["old"] * 4))
    status, _, said = place.run("f", "0.002", program=place.slow("exit 5"))
    top = os.path.realpath(place.folder) + "/"
    place.wants("the end", (status, said.replace(top, ""), held(place)), (
        5, "night: part 1: memory was refused; a shorter --part takes less; new, as of the night that was killed: "
        "A.wav, A.wav.cue, B.wav, B.wav.cue\n", ["new"] * 4))


def nothing_can_be_printed(place):
    """Where standard output takes nothing there is no night; where it takes nothing more once the outputs are in their
    places, the night is there."""
    write_file(place.folder, "A.wav", "old")
    with open("/dev/full", "wb") as full:
        done = subprocess.run([NIGHT, f"--program={place.program}", "f", "0.01"], cwd=place.folder, check=False,
                              stdin=subprocess.DEVNULL, stdout=full, stderr=subprocess.PIPE)
    place.wants("the end", (done.returncode, done.stderr),
                (4, b"night: standard output: No space left on device; each output holds what it held before\n"))
    place.wants("the output", content(place.path("A.wav")), b"old")


RUNS = (a_room_of_others, outputs_on_two_disks, stopped_at_each_step, what_is_new_is_told, killed_at_random,
        the_renderer_ends_too, a_look_leaves_nothing, behind_one_that_was_killed, nothing_can_be_printed)
