"""What `stream` did so far, as its state keeps it and its command tells it."""
from __future__ import annotations

from dataclasses import dataclass, field
from typing import Any, NamedTuple

from .commands import GateCounts
from .windows import NO_GATES, added
from .workers import Result

__all__ = ["LeftWindow", "Totals"]

# Windows that are told one by one where something went wrong.
TOLD = 1_000


class LeftWindow(NamedTuple):
    """A window that was left as it was read, since something went wrong: its number, from 1; the lines of the whole
    text that is written on which it stands, from 1; why."""

    window: int
    first: int
    last: int
    why: str


@dataclass
class Totals:
    """What was done so far: bytes that were read, windows, lines that were written; counts of gates read and written;
    how many windows were left as they were since something went wrong, and the first of these."""

    bytes: int = 0
    windows: int = 0
    lines: int = 0
    read: GateCounts = NO_GATES
    written: GateCounts = NO_GATES
    left: int = 0
    left_windows: list[LeftWindow] = field(default_factory=list)

    @classmethod
    def of(cls, told: dict[str, Any]) -> "Totals":
        """The totals of a state."""
        out = cls(**told)
        out.read, out.written = GateCounts(**told["read"]), GateCounts(**told["written"])
        out.left_windows = [LeftWindow(*it) for it in told["left_windows"]]
        return out

    def add(self, result: Result) -> None:
        """Counts a window that was written."""
        self.windows += 1
        if result.why:
            self.left += 1
            if len(self.left_windows) < TOLD:
                lines = self.lines + 1, self.lines + result.lines
                self.left_windows.append(LeftWindow(self.windows, *lines, result.why))
        self.lines += result.lines
        self.read = added(self.read, result.read)
        self.written = added(self.written, result.after)
