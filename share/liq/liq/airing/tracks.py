"""The tracks of a rendering, and what listeners see of them."""
import os
from typing import List, Optional, Tuple

from liq.airing.renderings import Rendering
from liq.airing.say import Say
from liq.pages.cues import NoCues, cues_of
from liq.pages.sounds import NoSound, sound_of
from liq.pages.titles import ENDING, NoTitles, Titles, Told, read_titles
from liq.preparing.programs import Broken, Programs
from liq.preparing.sounds import looked_at
from liq.reading.companion import Companion, NoAnswer

Track = Tuple[float, Optional[str]]            # the second at which it begins, and its name


class Tracks:
    """The tracks of renderings, by their cue files, and their titles by the tables of the call and those beside them. They
    are read anew for each rendering. What cannot be read is told."""

    def __init__(self, tables: List[str], companion: Companion, programs: Programs, say: Say):
        self.tables, self.companion, self.programs, self.say = tables, companion, programs, say
        self.titles = Titles({})

    def of(self, rendering: Rendering) -> List[Track]:
        """The tracks of a rendering; one of its own name where it has no cue file."""
        self.read([*self.tables, *filter(os.path.exists, [rendering.name + ENDING])])
        try:
            sound = sound_of(self.companion, rendering.name)
            cues = cues_of(rendering.name, sound.frames)
        except (OSError, NoSound, NoCues, NoAnswer) as error:
            self.say.once(f"{rendering.name}: its tracks are not known: {error}")
            cues = None
        if not cues:
            return [(0.0, rendering.name)]
        return [(at / sound.rate, track) for at, track in cues]

    def read(self, tables: List[str]) -> None:
        """Reads tables of titles. The last one counts for most."""
        found = {}
        for path in tables:
            try:
                found.update(read_titles([path]).told)
            except OSError as error:
                self.say.once(f"{path}: {error.strerror}; titles are the names of files")
            except NoTitles as error:
                self.say.once(f"{error}; titles are the names of files")
        self.titles = Titles(found)

    def told_of(self, name: str) -> Told:
        """What the tables tell of a track."""
        return self.titles.all_of(name)

    def label_of(self, name: str) -> str:
        """What listeners see of a track: its title, or the last part of its name."""
        return text_of(self.titles.all_of(name)) or os.path.splitext(os.path.basename(name))[0]

    def title_of_file(self, name: str) -> str:
        """What listeners see of a file that is played meanwhile: its title by the tables, by its own tags, or its name."""
        self.read(self.tables)
        if self.titles.all_of(name).title:
            return self.label_of(name)
        try:
            return text_of(Told(**looked_at(self.programs, name).texts())) or self.label_of(name)
        except (Broken, OSError):
            return self.label_of(name)


def text_of(told: Told) -> str:
    """Artist and title; nothing where there is no title."""
    if not told.title:
        return ""
    return f"{told.artist} - {told.title}" if told.artist else told.title
