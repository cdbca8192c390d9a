"""Which version of liq this is."""
import os

TOP = os.path.dirname(os.path.dirname(os.path.dirname(os.path.dirname(os.path.realpath(__file__)))))
PLACES = ("VERSION", os.path.join("share", "doc", "liq", "VERSION"))


def version() -> str:
    """The version that the file VERSION has, of a checkout or as it is installed; empty where there is none."""
    for place in PLACES:
        try:
            with open(os.path.join(TOP, place), encoding="utf-8") as file:
                return file.read().strip()
        except OSError:
            continue
    return ""
