"""The moments that the page plays: rendered one at a time, the last three kept."""
import dataclasses
import os
import re
import threading
from typing import Callable, Dict, List, Optional

from liq.hearing import Asked, Broken, Rendering
from liq.nights import parts
from liq.reading.companion import NoAnswer
from liq.reading.hours import WEEK
from liq.trying.levels import levels_of
from liq.trying.lines import plain
from liq.watching.names import shown

MOST = 900                 # seconds of a moment
KEPT = 3
TRACKS = 2000              # tracks that the strip of an output shows
SOUND = re.compile(r"sound/(\d+)/(\d+)\.wav")


class Moments:
    """The renderings of a station, in a folder."""

    def __init__(self, folder: str):
        self.folder, self.count = folder, 0
        self.lock, self.turn = threading.Lock(), threading.Lock()
        self.current: Optional[Rendering] = None
        self.kept: Dict[int, Rendering] = {}

    def hear(self, asked: "Callable[[], Optional[Asked]]", second: int, seconds: int) -> Dict[str, object]:
        """Renders a stretch of the week, once the one that is at work was ended; what the page gets of it."""
        if not 0 <= second < WEEK:
            return {"error": "a moment is a second of the week, from 0 to 604799"}
        if not 1 <= seconds <= MOST:
            return {"error": f"a length is 1 to {MOST} seconds"}
        found = asked()
        if found is None:
            return {"error": "there is nothing to play, as the script is refused"}
        with self.lock:
            self.count += 1
            number = self.count
            made = Rendering(found, second, seconds, os.path.join(self.folder, f"moment-{number}"))
            if self.current is not None:
                self.current.end()
            self.current = made
        with self.turn:
            try:
                made.make()
                return self.told(number, made)
            except Broken:
                return {"ended": True}
            except NoAnswer as error:
                return {"error": plain(str(error))}

    def told(self, number: int, made: Rendering) -> Dict[str, object]:
        """What the page gets of a rendering, which is kept from now on."""
        outputs: List[Dict[str, object]] = []
        for k, (name, one) in enumerate(made.outputs.items()):
            if len(one.paths) > 1:
                made.outputs[name] = one = dataclasses.replace(one, paths=(parts.join(list(one.paths)),))
            tracks = [{"at": cue.at / one.rate, "name": plain(shown(made.titles.of(cue.file)))}
                      for cue in one.cues[:TRACKS]]
            outputs.append({"name": plain(shown(name)), "address": f"sound/{number}/{k}.wav", "tracks": tracks,
                            "seconds": one.frames / one.rate, "gaps": one.gaps / one.rate, "levels": levels_of(one)})
        with self.lock:
            self.kept[number] = made
            for old in sorted(self.kept)[:-KEPT]:
                self.kept.pop(old).drop()
        return {"at": made.second, "number": number, "outputs": outputs, "told": [plain(line) for line in made.told]}

    def sound(self, address: str) -> Optional[str]:
        """The path of a sound by its address; None where there is none any more."""
        match = SOUND.fullmatch(address)
        made = self.kept.get(int(match[1])) if match else None
        outputs = list(made.outputs.values()) if made is not None else []
        number = int(match[2]) if match else 0
        return outputs[number].paths[0] if number < len(outputs) else None

    def end(self) -> None:
        """Ends what is at work."""
        with self.lock:
            if self.current is not None:
                self.current.end()
