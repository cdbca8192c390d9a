"""A line of help, with the edit of the script that it names, if it names one."""
from typing import NamedTuple, Optional


class Edit(NamedTuple):
    """What stands in the place of the characters from one to before another."""
    first: int
    behind: int
    text: str

    def of(self, script: str) -> str:
        """The script behind the edit."""
        return script[:self.first] + self.text + script[self.behind:]


class Help(str):
    """A line of help. Its edit does what the line says, where that is one thing alone."""
    edit: Optional[Edit] = None


def mended(line: str, first: int, behind: int, text: str) -> Help:
    """A line of help, and what stands in the place of these characters once it is followed."""
    found = Help(line)
    found.edit = Edit(first, behind, text)
    return found
