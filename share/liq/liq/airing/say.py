"""Lines on standard error."""
from typing import Set

from liq.command import tell


class Say:
    """Prints lines, each behind the name of the command."""

    def __init__(self, name: str):
        self.name = name
        self.told: Set[str] = set()

    def __call__(self, text: str) -> None:
        """Prints a line."""
        tell(f"{self.name}: {text}")

    def once(self, text: str) -> None:
        """Prints a line, if it was not printed before."""
        if text not in self.told:
            self.told.add(text)
            self(text)
