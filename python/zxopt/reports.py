"""What `batch` tells: a line and a row of the table for each file, and the sums of all."""
from __future__ import annotations

import csv
import io
import os
import sys
from collections import Counter
from pathlib import Path
from typing import IO, Iterable, List, Optional, Tuple

from .files import Job, Outcome, plural
from .manifest import Done

__all__ = ["Sums", "Table", "tell", "tell_again"]

_COLUMNS = ["file", "written", "state"]
_COLUMNS += [f"{what}_{when}" for what in ("t", "two_qubit", "gates") for when in ("before", "after")]
_COLUMNS += ["seconds", "best", "check", "told", "qubits"]
_MEASURED = ("t_depth", "depth", "other_angles")
_COLUMNS += [f"{what}_{when}" for what in _MEASURED for when in ("before", "after")]


def tell(outcome: Outcome) -> None:
    """The line of a file."""
    sys.stdout.flush()
    if outcome.t is None or outcome.two_qubit is None:
        print(outcome.told, file=sys.stderr, flush=True)
        return
    ends = ["" if outcome.best else "not the best of several", outcome.check, outcome.told]
    counts = f"T {_change(outcome.t)}, two-qubit {_change(outcome.two_qubit)}, {outcome.seconds:.2f} s"
    print(", ".join([f"{outcome.job.source}: {counts}", *filter(None, ends)]), flush=True)


def tell_again(job: Job, done: Done) -> None:
    """The line of a file that was done before and isn't good."""
    print(f"{job.source}{done.told or ': ' + done.check}", file=sys.stderr, flush=True)


class Sums:
    """The sums of all files."""

    def __init__(self) -> None:
        self.states: Counter[str] = Counter()
        self.checks: Counter[str] = Counter()
        self.before = 0
        self.t = self.two_qubit = (0, 0)
        self.is_good = True

    def add(self, outcome: Outcome) -> None:
        """Counts a file that was done now."""
        self._add(outcome.state, outcome.check, outcome.t, outcome.two_qubit)

    def add_before(self, done: Done) -> bool:
        """Counts a file that was done before, and answers whether it is good."""
        self.before += 1
        return self._add(done.state, done.check, done.t, done.two_qubit)

    def _add(
        self, state: str, check: str, t: Optional[Tuple[int, int]], two_qubit: Optional[Tuple[int, int]]
    ) -> bool:
        self.states[state] += 1
        self.checks[check] += 1
        self.t, self.two_qubit = _added(self.t, t), _added(self.two_qubit, two_qubit)
        is_good = state == "written" and check in ("", "same")
        self.is_good = self.is_good and is_good
        return is_good

    def told(self, seconds: float, is_checked: bool) -> str:
        """The line of all files."""
        parts = ", ".join(f"{self.states[state]} {state}" for state in ("written", "refused", "failed"))
        said = f"{plural(sum(self.states.values()), 'file', 'files')}: {parts}"
        said += f", {self.before} of them before" if self.before else ""
        said += f"; T {_change(self.t)}, two-qubit {_change(self.two_qubit)}"
        if is_checked:
            kinds = ["same", "not shown", *(["differs"] if self.checks["differs"] else []), "not checked"]
            said += "; " + ", ".join(f"{self.checks[kind]} {kind}" for kind in kinds)
        return f"{said}; {seconds:.2f} s"


class Table:
    """The table of `--csv`, to which rows are added. None of them is ever there in part."""

    def __init__(self, name: str, anew: bool) -> None:
        """Raises ValueError where the file has other columns, and OSError where it can't be written."""
        self.name = name
        # what is no file, such as a pipe, is written from its begin, and can't be cut
        self.is_file = os.path.isfile(name) or not os.path.exists(name)
        self.file: IO[bytes] = open(name, "a+b" if self.is_file and not anew else "wb", buffering=0)
        head = _line(_COLUMNS)
        first = b""
        if self.is_file and not anew:
            self.file.seek(0)
            first = self.file.readline(len(head) + 1)
        self.is_new = not first
        if self.is_new:
            self.write(head)
        elif first != head:
            self.file.close()
            raise ValueError(f"{name} has other columns than those that are written: name another table")
        else:
            self.cut_last_line()

    def __enter__(self) -> "Table":
        return self

    def __exit__(self, *raised: object) -> None:
        self.file.close()

    def cut_last_line(self) -> None:
        """Takes off a last line that has no end, as a machine that went down may leave one."""
        end = self.file.seek(0, os.SEEK_END)
        at = end
        while at and not self.ends_line(at):
            at -= 1
        if at != end:
            self.file.truncate(at)

    def ends_line(self, at: int) -> bool:
        self.file.seek(at - 1)
        return self.file.read(1) == b"\n"

    def add(self, outcome: Outcome) -> None:
        """Adds the row of a file."""
        self.write(_line(_row(outcome)))

    def write(self, line: bytes) -> None:
        begin = self.file.seek(0, os.SEEK_END) if self.is_file else 0
        try:
            written = self.file.write(line)
            while written < len(line):
                written += self.file.write(line[written:])
        except OSError as failed:
            if self.is_file:
                self.file.truncate(begin)
            raise OSError(f"{self.name}: {failed}; the same command goes on when this is mended") from None


def _line(words: Iterable[str]) -> bytes:
    out = io.StringIO()
    csv.writer(out, lineterminator="\n").writerow(words)
    return out.getvalue().encode("utf-8", "surrogateescape")


def _row(outcome: Outcome) -> List[str]:
    """The row of a file."""
    nothing = ("", "")
    target = str(outcome.job.target) if outcome.state == "written" else ""
    row = [str(outcome.job.source), target, outcome.state]
    measured = outcome.measured
    gates = outcome.gates or (measured and (measured[0].gates, measured[1].gates))
    for both in (outcome.t, outcome.two_qubit, gates):
        row += map(str, both or nothing)
    best = ("yes" if outcome.best else "no") if outcome.state == "written" else ""
    row += [f"{outcome.seconds:.3f}", best, outcome.check, outcome.told]
    row.append(str(measured[0].qubits) if measured else "")
    for what in _MEASURED:
        row += [str(getattr(one, what)) for one in measured] if measured else nothing
    return row


def _change(both: Tuple[int, int]) -> str:
    return f"{both[0]} -> {both[1]}"


def _added(one: Tuple[int, int], other: Optional[Tuple[int, int]]) -> Tuple[int, int]:
    return (one[0] + other[0], one[1] + other[1]) if other else one
