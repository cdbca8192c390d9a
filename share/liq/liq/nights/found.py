"""What is found before a night, by its weight, and what is told of the night."""
from datetime import datetime
from typing import Any, Dict, List, Optional

from liq.doctoring.findings import STOPS, TOLD
from liq.nights.failed import KEPT, Failed
from liq.nights.words import Call
from liq.reading.facts import Facts
from liq.reports import add_line
from liq.watching.names import shown


class Found:
    """What was found before a night, by its weight."""

    def __init__(self) -> None:
        self.stops: List[str] = []
        self.told: List[str] = []

    def tell(self, text: str, weight: str = TOLD) -> None:
        """Prints a line that was found."""
        (self.stops if weight == STOPS else self.told).append(text)
        print(shown(text), flush=True)

    def take(self, other: "Found") -> None:
        """Takes what was found elsewhere, and printed there."""
        self.stops += other.stops
        self.told += other.told

    def refusal(self, call: Call, facts: Optional[Facts]) -> str:
        """Why nothing is rendered of a script with these facts; nothing where it can be."""
        if facts is None:
            return self.stops[0] if self.stops else "liq refuses the script: liq check says why"
        return self.stops[0] if self.stops and not call.is_anyway else ""

    def examine(self, call: Call, facts: Optional[Facts], first: str) -> None:
        """Fails where nothing is to be rendered. The script that was looked at first may have been another one."""
        why = self.refusal(call, facts)
        if why:
            more = "; --anyway renders all the same" if facts and not first else ""
            raise Failed(f"nothing is rendered: {first or why}{more}", 1)
        if call.is_strict and self.told:
            raise Failed(f"nothing is rendered, as by --strict: {self.told[0]}", 1)


class Report:
    """What is told of a night in one line of JSON, whatever becomes of it."""

    def __init__(self, call: Call):
        self.path, self.begin = call.report, datetime.now().astimezone()
        self.put: List[str] = []               # the names that an earlier night had decided to put, and this one put
        self.told: Dict[str, Any] = {"script": call.file, "hours": round(call.seconds / 3600, 4)}
        if call.when.is_given:
            self.told["start"] = call.when.moment.astimezone().isoformat(timespec="seconds")

    def add(self, **more: Any) -> None:
        """Notes more of the night."""
        self.told.update(more)

    def kept(self, text: str) -> str:
        """Why there is no night. Where this one ended what a killed one had begun, outputs are new by that."""
        told = f"new, as of the night that was killed: {', '.join(map(shown, self.put))}"
        return text.replace(KEPT, told) if self.put else text

    def write(self, status: int, error: str = "") -> Optional[str]:
        """Adds the line to the file, where there is one; why that cannot be."""
        if self.path is None:
            return None
        now = datetime.now().astimezone()
        told = {"time": now.isoformat(timespec="seconds"), "status": status, **self.told,
                "took": round((now - self.begin).total_seconds(), 1), **({"error": error} if error else {})}
        trouble = add_line(self.path, told)
        return f"{shown(self.path)}: {trouble}; the night is not noted there" if trouble else None
