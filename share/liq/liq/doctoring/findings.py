"""Lines of the doctor on what is wrong, with their weight."""

STOPS, TOLD = "stops", "told"
SHOWN = 8  # names in a line


class Finding(str):
    """A line on something that is wrong; a plain text is a line on something that is not. One whose weight is `stops`
    is a reason not to render: the script is refused, a file of it cannot be played, or an output cannot be made."""
    weight = STOPS


class Told(Finding):
    """A line on something that is left out, or that may go wrong: what is rendered is not what was meant, perhaps."""
    weight = TOLD


def weighed(text: str, is_told: bool) -> Finding:
    return Told(text) if is_told else Finding(text)


def counted(number: int, one: str, many: str) -> str:
    return f"{number} {one if number == 1 else many}"
