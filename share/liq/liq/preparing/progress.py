"""A line on a terminal that says how far a run has come."""
import sys
import time


class Progress:
    """How many of so many sounds are done; nothing where standard error is no terminal."""

    def __init__(self, count: int):
        self.count, self.done, self.begin, self.is_on = count, 0, time.monotonic(), sys.stderr.isatty()

    def step(self) -> None:
        """One more is done."""
        self.done += 1
        if self.is_on:
            left = int((time.monotonic() - self.begin) * (self.count - self.done) / self.done)
            self.write(f"\r{self.done} of {self.count} sounds, {left // 60}:{left % 60:02} left\033[K")

    def clear(self) -> None:
        """Takes the line away."""
        self.write("\r\033[K")

    def write(self, text: str) -> None:
        """Writes on the terminal; one that is gone is written no more."""
        if self.is_on:
            try:
                print(text, end="", file=sys.stderr, flush=True)
            except OSError:
                self.is_on = False
