"""A station that liq-station keeps for a month of a faked clock, while its music, its settings and its script change."""
import datetime
import json
import os
import threading
import time
from typing import Any, Callable, Dict, List, Set, Tuple

from lib.common import content
from lib.night_month import FIRST, Rows, Songs, out_of_order
from lib.stations import cues_in, write_file

RATE, TRACKS = 8000, 30        # of the station; its nights have some thirty tracks
SPEED = 1200                   # times as fast as the clock of the wall the faked one goes
SCRIPT = (f'set("frame.audio.samplerate", {RATE})\n'
          'output.file(%wav, "A.wav", mean(mksafe(playlist("library/all.m3u"))))\n')
SETTINGS = f"""script = f
start = 20:00
hours = 0.1
ahead = 20
music = music
rate = {RATE}
keep = 2
address = http://127.0.0.1:1/air.mp3
password = secret
"""
# What befalls the station, and before which night; it is put right before the next one.
TYPO, REFUSED, UNMOUNTED = 8, 14, 20


class Kept(Songs):
    """The folder of a station, and what befalls it."""

    def __init__(self, folder: str):
        super().__init__(folder, 2, {})
        self.found: List[str] = []
        self.sizes: Dict[int, int] = {}
        self.unmounted: Set[int] = set()
        write_file(folder, "f", SCRIPT)
        write_file(folder, "secret", "x\n")
        write_file(folder, "settings", SETTINGS)

    def nights(self) -> List[Dict[str, Any]]:
        """The nights by the report."""
        try:
            return [json.loads(line) for line in content(self.path("nights.jsonl")).split(b"\n")[:-1]]
        except FileNotFoundError:
            return []

    def befall(self, is_over: threading.Event) -> None:
        """Changes what is there, as long as the station is kept."""
        while not is_over.wait(self.chance.uniform(8, 20)):
            night = len(self.nights())
            if night != self.night:
                self.night = night
                self.sizes[night] = sum(os.lstat(os.path.join(base, name)).st_size for base, _, names in os.walk(self.folder)
                                        for name in names if not base.endswith(".prepare") and os.path.lexists(os.path.join(base, name)))
            write_file(self.folder, "settings", SETTINGS.replace("keep", "kepe") if night == TYPO else SETTINGS)
            write_file(self.folder, "f", "x = y\n" if night == REFUSED else SCRIPT)
            if (night == UNMOUNTED) != os.path.exists(self.path("elsewhere")):
                self.mount()
            elif night != UNMOUNTED:
                self.change()

    def mount(self) -> None:
        """Takes the music away, or brings it back."""
        if os.path.exists(self.path("elsewhere")):
            os.rmdir(self.path("music"))
            os.rename(self.path("elsewhere"), self.path("music"))
        else:
            os.rename(self.path("music"), self.path("elsewhere"))
            os.mkdir(self.path("music"))

    def rows(self, played: Dict[int, List[Tuple[int, str]]]) -> Rows:
        """What was played, of each track its night, its second and its source."""
        return [(night, at / RATE, f"music/{os.path.splitext(os.path.basename(name))[0]}")
                for night, cues in sorted(played.items()) for at, name in cues if name]


def played_of(kept: Kept, is_over: threading.Event) -> Dict[int, List[Tuple[int, str]]]:
    """Notes what each night plays before it is removed; of each night its cues."""
    found: Dict[int, List[Tuple[int, str]]] = {}
    while not is_over.wait(0.3):
        for name in os.listdir(kept.path("air")) if os.path.isdir(kept.path("air")) else []:
            if name.endswith(".wav"):
                number = (datetime.date.fromisoformat(name[:10]) - FIRST).days
                if number not in found:
                    try:
                        found[number] = cues_in(kept.folder, f"air/{name}.cue")
                    except FileNotFoundError:
                        continue
    return found


def month(folder: str, nights: int, begin: Callable[..., Any]) -> Tuple[List[str], List[str]]:
    """Keeps a station for so many nights: what is wrong, and lines on what was seen. `begin` begins it by a clock."""
    kept, is_over, started = Kept(folder), threading.Event(), time.monotonic()
    played: List[Dict[int, List[Tuple[int, str]]]] = []
    run = begin(f"--nights={nights}", f"@{FIRST} 00:30:00 x{SPEED}")
    threads = [threading.Thread(target=kept.befall, args=(is_over,)),
               threading.Thread(target=lambda: played.append(played_of(kept, is_over)))]
    for thread in threads:
        thread.start()
    printed, said = run.communicate(timeout=150 * nights + 600)
    time.sleep(1)
    is_over.set()
    for thread in threads:
        thread.join()
    lines = printed.split("\n")[:-1]
    told = kept.nights()
    days = [FIRST + datetime.timedelta(k) for k in range(nights)]
    wants = [("the status", run.returncode, 0), ("the nights", [line[:10] for line in lines], list(map(str, days))),
             ("their starts", [one["start"][:16] for one in told], [f"{day}T20:00" for day in days]),
             ("their ends", [one["status"] for one in told], [0] * nights),
             ("their lengths", {one["length"] for one in told}, {360.0}),
             ("their silence", {one["gaps"] for one in told}, {0.0}),
             ("nights whose tracks are known", sorted(played[0]), list(range(nights)))]
    kept.found += [f"{what}: {str(got)[:300]}, wanted {str(wanted)[:300]}" for what, got, wanted in wants if got != wanted]
    touched = {os.path.splitext(song.name)[0]: song.touched for song in kept.songs}
    kept.found += list(out_of_order(kept.rows(played[0]), touched))
    for night, text in ((TYPO, "kepe is no setting; do you mean keep?; the settings before stay"),):
        if nights > night + 1 and text not in said:
            kept.found.append(f"it does not say {text}: {said}")
    for night, text in ((REFUSED, "f.last, which was rendered last, is played"), (UNMOUNTED, "liq-prepare ended with 3")):
        if nights > night + 1 and not any(text in line for line in lines):
            kept.found.append(f"no line says {text}: {lines[night:night + 2]}")
    sizes = [size for night, size in kept.sizes.items() if night > 4] or [0]
    if max(sizes) > 1.3 * min(sizes):
        kept.found.append(f"the disk grows: {[size // 1000000 for size in kept.sizes.values()]} MB")
    tracks = sum(map(len, played[0].values()))
    return kept.found, [*lines, *(["it says: " + said.strip()] if said else []),
                        f"{nights} nights, {tracks} tracks, {kept.changes} changes, {len(kept.cut)} files cut; {min(sizes) / 1e6:.0f} to "
                        f"{max(sizes) / 1e6:.0f} MB; {time.monotonic() - started:.0f} s"]
