"""The station that a page shows: its last look, and the moments of it that are played."""
import threading
import time
from typing import Dict, Iterable, List, Optional, Union

from liq.failed import Failed
from liq.guarded import Folder
from liq.hearing import Asked
from liq.reading.companion import Companion, NoAnswer
from liq.reading.hours import WEEK
from liq.trying.changes import Changes
from liq.trying.lines import plain
from liq.trying.looks import Looked, State
from liq.trying.moments import Moments
from liq.watching.names import shown

PATIENCE = 25.0            # seconds for which a page waits for news
NOTHING: State = {"verdict": "none", "line": "", "lines": [], "marks": [], "outputs": [], "week": None, "sum": None,
                  "sounds": None, "picture": {"note": ""}, "isLive": False, "isOpen": False, "isSafe": False}


def why(error: Union[Failed, OSError]) -> str:
    """Why there is nothing to show, in a line: a look that fails is followed by the next one."""
    return str(error) if isinstance(error, Failed) else f"a temporary folder: {error.strerror or error}"


class Shown:
    """A station in a temporary folder. The page asks for its state, and is told as soon as there is a later one."""

    def __init__(self, file: str, program: str, companion: Companion, folder: Folder):
        self.file, self.program, self.companion, self.folder = file, program, companion, folder
        self.moments = Moments(folder.path)
        self.changed, self.number = threading.Condition(), 0
        self.state: State = {}
        self.looked: Optional[Looked] = None
        self.looks: List[Looked] = []                       # this one and the one before, whose files are still there

    def watch(self) -> None:
        """Looks at the station, and again after each change, for ever."""
        Changes(self.file).watch(self.look)

    def publish(self, state: State) -> None:
        """Tells the pages."""
        with self.changed:
            self.number += 1
            self.state = {**state, "number": self.number}
            self.changed.notify_all()

    def look(self) -> Iterable[str]:
        """Looks at the station: first at what is said of it, then at its sounds and its picture. The names of its
        files."""
        began = time.monotonic()
        try:
            looked = Looked(self.file, self.number, self.program, self.companion, self.folder)
            state = looked.state()
            self.looked = looked
            self.publish({**state, "sounds": None, "picture": None})
            looked.draw()
            self.publish({**state, "sounds": looked.sounds(), "picture": looked.drawn()})
            return looked.names()
        except (Failed, OSError) as error:
            self.looked = None
            self.publish({**NOTHING, "name": plain(shown(self.file)), "said": plain(why(error)),
                          "took": round(time.monotonic() - began, 3)})
            return []

    def news(self, seen: int) -> State:
        """The state, once it is a later one than was seen, or after a while."""
        with self.changed:
            self.changed.wait_for(lambda: self.number != seen and self.number > 0, timeout=PATIENCE)
            return self.state

    def asked(self) -> Optional[Asked]:
        """What is rendered now."""
        return self.looked.asked() if self.looked is not None else None

    def hear(self, second: int, seconds: int) -> Dict[str, object]:
        return self.moments.hear(self.asked, second, seconds)

    def hour(self, second: int, switch: int) -> Dict[str, object]:
        """The hour of a second, of a switch; and when its next change is."""
        hours = self.looked.hours if self.looked is not None else None
        if hours is None or not 0 <= second < WEEK or not 0 <= switch < len(hours.whole.switches):
            return {"error": "there is no such switch"}
        try:
            return {**hours.told(second, switch), "next": hours.next_change(second, switch)}
        except NoAnswer as error:
            return {"error": plain(str(error))}

    def picture(self, number: int) -> Optional[bytes]:
        """The SVG of a look; None where it is none of the last one."""
        looked = self.looked
        if looked is None or looked.number != number or looked.picture[0] is None:
            return None
        return looked.picture[0].svg
