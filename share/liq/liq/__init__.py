"""What stands around the program `liq`. The commands in `bin/` are made of it.

For tests of a station it has a public face (docs/station-tests.md):

    from liq import Station

    station = Station("evening.liq")
    hour = station.hear("friday:20:00", hours=1)
    assert station.is_never_silent and hour.count("jingle.wav") == 60

The other names in this package may change with each version.
"""
from typing import TYPE_CHECKING

if TYPE_CHECKING:
    from liq.heard import Heard as Heard, Silence as Silence, Track as Track
    from liq.reading.companion import NoAnswer as NoAnswer
    from liq.station import (Case as Case, Output as Output, Refusal as Refusal, Refused as Refused,
                             Station as Station)

__all__ = ["Case", "Heard", "NoAnswer", "Output", "Refusal", "Refused", "Silence", "Station", "Track"]
PLACES = {"Heard": "liq.heard", "Silence": "liq.heard", "Track": "liq.heard", "NoAnswer": "liq.reading.companion"}


def __getattr__(name: str) -> object:
    """A public name, which is read when it is first asked for: a command that needs none of them starts at once."""
    if name not in __all__:
        raise AttributeError(f"module 'liq' has no attribute {name!r}")
    from importlib import import_module
    return getattr(import_module(PLACES.get(name, "liq.station")), name)
