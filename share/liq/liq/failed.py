"""Why a command ends without its work: a line, and the exit status."""


class Failed(Exception):
    """A command cannot do its work. The text is one line that says why. `status` is the exit status, 1 to 5, or 126 and
    127 where a program cannot be run or is not built."""

    def __init__(self, text: str, status: int):
        super().__init__(text)
        self.status = status


class Usage(Failed):
    """The arguments are wrong. The text is the usage line, and the status is 2."""

    def __init__(self, text: str):
        super().__init__(text, 2)


class NoMemory(Failed):
    """A program of liq ran out of memory. The status is 5."""

    def __init__(self, text: str):
        super().__init__(text, 5)


class Broken(Exception):
    """Something that is read, or another program, does not go on to its end. The text says why."""
