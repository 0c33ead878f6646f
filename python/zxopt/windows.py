"""What the program is asked by `parts` and `stream`: whether it reads a head, what it makes of a window, and how it
counts gates.

A window is a circuit of gates alone on one register `q`. This stands outside of the proved program: what is proved is
about the text of each window that the program reads, and the text that it writes for it.
"""
from __future__ import annotations

import os
from collections import Counter
from dataclasses import astuple
from functools import lru_cache
from typing import Iterable, NamedTuple, Optional

from .circuit import CannotCut, Circuit
from .commands import Counts, GateCounts, optimise_counted, teleport
from .faults import Refused
from .names import declared
from .program import Program, run
from .qasm import Statement, squeezed
from .shapes import GREATEST_CALLS, GREATEST_QUBITS
from .texts import Text

__all__ = [
    "GREATEST_BYTES", "GREATEST_CALLS", "GREATEST_QUBITS", "HEAD", "MODES", "NO_GATES", "Written", "added",
    "check_head", "counted", "is_better", "made", "report", "weight",
]

# `best`: opt --best. `plain`: opt. `teleport`: phases change, and all other gates stay.
MODES = ("best", "plain", "teleport")
GREATEST_BYTES = 16_000_000
# Faults of a statement that stays as it is.
STAYS = frozenset((6, 10, 15, 16, 17, 18, 19))
HEAD = 'OPENQASM 2.0;\ninclude "qelib1.inc";\n'
NO_GATES = GateCounts(0, 0, 0, 0, 0, 0, 0, 0)
# The kinds of gates that the program writes; what isn't named is a phase.
_WRITTEN = {"h": "h", "cx": "cx", "cz": "cz", "x": "x"}
_ODD = frozenset(("t", "tdg", "u1(3*pi/4)", "u1(5*pi/4)"))


class Written(NamedTuple):
    """What the program writes for a window: lines of gates on `q[..]`, and how many gates were read and written; and
    the whole text."""

    lines: list[str]
    read: Optional[GateCounts]
    written: GateCounts
    text: str = ""


def weight(calls: int, size: int) -> int:
    """The weight of a gate by its calls and by the bytes of its text, such that a window of GREATEST_CALLS in sum is
    within both limits of the program."""
    by_size = size // (GREATEST_BYTES // GREATEST_CALLS) + 1
    return calls if calls > by_size else by_size


def added(one: GateCounts, other: GateCounts) -> GateCounts:
    """The counts of two circuits together."""
    return GateCounts(*map(sum, zip(astuple(one), astuple(other))))


def is_better(read: GateCounts, written: GateCounts) -> bool:
    """Whether a circuit is to be taken for the one that was read: it has fewer odd phases, or as many and no more gates
    on two qubits."""
    return (written.odd, written.two_qubit) <= (read.odd, read.two_qubit)


def made(text: Text, mode: str, timeout: Optional[float], program: Optional[Program]) -> Written:
    """What the program writes for the text of a window, or of a circuit, in one of the MODES; of `teleport` no counts of
    what was read are known. Exceptions are those of `zxopt.program.run`."""
    if mode == "teleport":
        written = teleport(text, timeout=timeout, program=program)
        lines = _gates(written)
        return Written(lines, None, _counted_written(lines), written)
    done = optimise_counted(text, mode == "best", timeout=timeout, program=program)
    return Written(_gates(done.text), done.counts.read, done.counts.written, done.text)


def _gates(text: str) -> list[str]:
    return [it for it in text.splitlines()[2:] if not it.startswith(("qreg", "creg"))]


def _counted_written(lines: Iterable[str]) -> GateCounts:
    """The counts of lines that the program wrote."""
    names = Counter(it.partition(" ")[0] for it in lines if not it.startswith("measure"))
    kinds = dict.fromkeys(("h", "cx", "cz", "x", "phase"), 0)
    odd = 0
    for name, count in names.items():
        kinds[_WRITTEN.get(name, "phase")] += count
        odd += count if name in _ODD or name.endswith("pi/8)") else 0
    return GateCounts(gates=sum(names.values()), odd=odd, two_qubit=kinds["cx"] + kinds["cz"], **kinds)


def counted(lines: Iterable[str], declarations: str, own: Iterable[str], program: Optional[Program]) -> GateCounts:
    """The counts of gates that are read, a line each: a gate with its angles, a space, places without spaces.

    The program is asked once for each gate with its angles. `declarations` are those of gates, whose names are `own`.
    One that the program refuses counts nothing.
    """
    shapes: Counter[tuple[str, int]] = Counter()
    for line, count in Counter(lines).items():
        shape, _, places = line.rpartition(" ")
        shapes[shape, places.count(",") + 1] += count
    names, named = set(own), None if program is None else os.fspath(program)
    sums = [0] * len(astuple(NO_GATES))
    for (shape, qubits), count in shapes.items():
        is_own = shape.partition("(")[0] in names
        one = astuple(_shape_counts(shape, qubits, declarations if is_own else "", named))
        sums = [it + count * more for it, more in zip(sums, one)]
    return GateCounts(*sums)


@lru_cache(maxsize=1 << 14)
def _shape_counts(shape: str, qubits: int, declarations: str, program: Optional[str]) -> GateCounts:
    places = ",".join(f"q[{at}]" for at in range(qubits))
    text = f"{HEAD}{declarations}qreg q[{qubits}];\n{shape} {places};\n"
    try:
        return optimise_counted(text, False, program=program).counts.read
    except Refused:
        return NO_GATES


def report(counts: Counts) -> str:
    """The lines of `opt --report`."""
    said = (f"// {name} {_told(it)}\n" for name, it in (("read", counts.read), ("written", counts.written)))
    return "".join(said)


def _told(it: GateCounts) -> str:
    kinds = f"h {it.h} phase {it.phase} cz {it.cz} cx {it.cx} not {it.x}"
    return f"gates {it.gates} odd {it.odd} two-qubit {it.two_qubit} {kinds}"


def check_head(circuit: Circuit, timeout: Optional[float], program: Optional[Program]) -> None:
    """Lets the program read a text's head, declarations and registers. Gates that it refuses for what may stand in a
    statement that stays are set aside; CannotCut is raised for all else."""
    shapes = circuit.shapes
    while True:
        known = [it for it in circuit.declared if declared(it.text) not in shapes.foreign]
        statements = [*circuit.head, *known, *_fitting_registers(circuit)]
        text = "".join(f"{squeezed(it.text)}\n" for it in statements)
        try:
            run(["opt"], text, timeout=timeout, program=program)
            return
        except Refused as refused:
            at = (refused.line or 1) - 1
            it = statements[at] if at < len(statements) else None
            if it is None or it not in known or refused.number not in STAYS:
                raise CannotCut(f"{refused.sentence} (fault {refused.number})", it.line if it else 1) from None
            shapes.set_aside(declared(it.text))


def _fitting_registers(circuit: Circuit) -> list[Statement]:
    """The registers, as long as all together aren't more than the program takes."""
    many = len(circuit.qubits) > GREATEST_QUBITS or sum(size for _, size in circuit.bits.values()) > 1 << 16
    return [] if many else circuit.registers
