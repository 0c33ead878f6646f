"""Counts of a circuit as it is written: `python3 -m zxopt measures FILE..`.

A text is counted *lowered*: each gate stands for those of its declaration, down to `U` and `CX`, and `U` for H, NOT
and phases as the program has it, so that a Toffoli of the header is seven phases, six CX and two H. `cz` counts as
itself, as the program counts those that it writes. A phase is one of these:

- a T gate: an odd multiple of pi/4, or of pi/8, since a square root of T counts as one T gate. This is what the
  program's report calls an odd phase;
- a Clifford gate, or nothing: a multiple of pi/2;
- another angle, no multiple of pi/8: such phases are gates, but no T gates, and are counted apart.

A *path* is a list of gates in their order in the text, each of which has a qubit in common with the next one. It also
goes from a measurement through the register that it writes to the gates under a condition on that. T-depth is the most
T gates on a path, depth the most gates. No gate is moved, merged or cancelled for that: another order of gates that
commute may have less. Measurements, resets and barriers aren't gates.

Nothing here asks the program, and nothing of it is proved.
"""
from __future__ import annotations

import argparse
import csv
import re
import sys
from dataclasses import asdict, dataclass
from fractions import Fraction
from typing import Dict, Iterable, List, NamedTuple, Optional, Sequence, Tuple

from .angles import Value
from .circuit import CannotCut, Circuit
from . import angles, arguments, cli
from .prepare import prepare
from .qasm import Call, QasmError, Statement, call, squeezed
from .rounded import told
from .texts import Circuit as AnyKind
from .texts import Text, as_bytes

__all__ = ["Measures", "TooManyGates", "command", "command_parser", "measures"]

GREATEST_GATES = 16_000_000
GREATEST_BODY = 1_000_000
GREATEST_DEPTH = 256
_IF = re.compile(r"if\s*\(\s*(\w+)\s*==\s*\d+\s*\)\s*([^{}]*;)", re.S)


class TooManyGates(QasmError):
    """A text has more than 16,000,000 lowered gates, or a declared gate that stands for more than 1,000,000, or
    declarations that are nested more than 256 deep."""


@dataclass(frozen=True)
class Measures:
    """The counts of a lowered text.

    gates: all of them. depth: the most on a path. two_qubit: those on two qubits.
    t_count: T gates, square roots of T, and odd multiples of both. t_depth: the most of these on a path.
    other_angles: phases that are no multiple of pi/8: gates, but no T gates.
    opaque: applications of gates without a body, opaque or not declared: one gate each, whatever they stand for.
    """

    qubits: int
    gates: int
    t_count: int
    t_depth: int
    depth: int
    two_qubit: int
    other_angles: int
    opaque: int


def measures(circuit: AnyKind, *, within: Optional[float] = None) -> Measures:
    """The counts of a text that `zxopt.prepare` takes, a file, or a circuit of Qiskit, PyZX or pytket.

    within: a distance in radians; angles that lie so close to a multiple of pi/8 are taken for it. Raises ValueErrors
    with a `line`: CannotPrepare or CannotCut where the text isn't OpenQASM 2, TooManyGates where it is too large;
    TypeError where it is no circuit, and OSError where the file can't be read.
    """
    text: Text = circuit if isinstance(circuit, str) else as_bytes(circuit)
    return _counted(prepare(text, within=within).text)


def _counted(text: str) -> Measures:
    return _Counting(Circuit(text, False)).done()


# -- what an application stands for -----------------------------------------------------------------------------------


class _Lowered(NamedTuple):
    """The lowered gates of an application, each with its number of T gates and its qubits, and their counts."""

    steps: Tuple[Tuple[int, Tuple[int, ...]], ...]
    two_qubit: int = 0
    other_angles: int = 0
    opaque: int = 0


_NOTHING = _Lowered(())
_CLIFFORD = _Lowered(((0, (0,)),))
_T = _Lowered(((1, (0,)),))
_OTHER_ANGLE = _Lowered(((0, (0,)),), other_angles=1)
_ON_TWO = _Lowered(((0, (0, 1)),), two_qubit=1)

# An angle whose value isn't known: it is taken for another one.
_UNKNOWN = Value(None, Fraction(0), 0.0)


def _turn(sixteenths: int) -> Value:
    return Value(Fraction(0), Fraction(sixteenths, 8), sixteenths * angles.STEP)


def _sixteenths(angle: Value) -> Optional[int]:
    """An angle in sixteenth turns, from 0 to 15, or none where it is another one."""
    return int(8 * angle.s) % 16 if angle.is_sixteenths() else None


def _opaque(qubits: int) -> _Lowered:
    return _Lowered(((0, tuple(range(qubits))),), two_qubit=int(qubits == 2), opaque=1)


def _phase(*summands: Value) -> _Lowered:
    """The phase gate of a sum of angles."""
    total = _turn(0)
    for angle in summands:
        total = angles.add(total, angle, 1)
    turn = _sixteenths(total)
    if turn is None:
        return _OTHER_ANGLE
    return _T if turn % 4 else _CLIFFORD if turn else _NOTHING


def _unitary(theta: Value, phi: Value, lam: Value) -> _Lowered:
    """U(theta,phi,lam) by phases, H and NOT, as `push_unitary` in `crates/zx_gates/src/lowering.rt` has it."""
    turn = _sixteenths(theta)
    if turn == 0:
        return _phase(phi, lam)
    if turn == 4:
        return _joined([_phase(lam, _turn(8)), _CLIFFORD, _phase(phi)])
    if turn == 8:
        return _joined([_phase(angles.add(lam, phi, -1), _turn(8)), _CLIFFORD])
    if turn == 12:
        return _joined([_phase(lam), _CLIFFORD, _phase(phi, _turn(8))])
    return _joined([_phase(lam, _turn(-4)), _CLIFFORD, _phase(theta), _CLIFFORD, _phase(phi, _turn(4))])


def _joined(parts: Sequence[_Lowered]) -> _Lowered:
    """Lowered gates one behind the other."""
    return _Lowered(
        tuple(step for part in parts for step in part.steps),
        sum(part.two_qubit for part in parts),
        sum(part.other_angles for part in parts),
        sum(part.opaque for part in parts),
    )


def _placed(lowered: _Lowered, qubits: Sequence[int]) -> _Lowered:
    """The same gates on other qubits."""
    steps = tuple((t, tuple(qubits[at] for at in places)) for t, places in lowered.steps)
    return lowered._replace(steps=steps)


class _Lowering:
    """What applications stand for, by the declarations of a text."""

    def __init__(self, circuit: Circuit) -> None:
        self.gates = circuit.shapes.gates
        self.own = circuit.shapes.own
        self.known: Dict[Tuple[str, Tuple[Value, ...], int], _Lowered] = {}

    def application(self, one: Call, known: Dict[str, Value], depth: int = 0) -> _Lowered:
        """The lowered gates of an application, where parameters have these values."""
        values = tuple(_value(text, known) for text in one.angles)
        key = (one.name, values, len(one.places))
        if key not in self.known:
            self.known[key] = self.new(one.name, values, len(one.places), depth)
        return self.known[key]

    def new(self, name: str, values: Tuple[Value, ...], qubits: int, depth: int) -> _Lowered:
        if name == "U" and len(values) == 3:
            return _unitary(*values)
        if name == "CX" or (name == "cz" and name not in self.own):
            return _ON_TWO
        gate = self.gates.get(name)
        if gate is None or gate.is_opaque or (len(gate.angles), len(gate.qubits)) != (len(values), qubits):
            return _opaque(qubits)
        if depth == GREATEST_DEPTH:
            raise TooManyGates(f"declarations are nested more than {GREATEST_DEPTH} deep at {name}", 1)
        known, numbers = dict(zip(gate.angles, values)), {qubit: at for at, qubit in enumerate(gate.qubits)}
        parts: List[_Lowered] = []
        size = 0
        for inner in gate.body:
            lowered = self.application(inner, known, depth + 1)
            size += len(lowered.steps)
            if size > GREATEST_BODY:
                raise TooManyGates(f"{name} stands for more than {GREATEST_BODY:,} gates", 1)
            parts.append(_placed(lowered, [numbers.get(place, 0) for place in inner.places]))
        return _joined(parts)


def _value(text: str, known: Dict[str, Value]) -> Value:
    node = angles.read(text, known)
    return node.value if node is not None and node.value is not None else _UNKNOWN


# The lowered gates of one application, and the qubits of each.
_Applications = Tuple[_Lowered, Sequence[Tuple[int, ...]]]


# -- counting ---------------------------------------------------------------------------------------------------------


class _Counting:
    """The counts of a text's operations so far.

    `depth` and `t_depth` have for each qubit the most gates and T gates on a path that ends there, `written` the same
    of registers of bits.
    """

    def __init__(self, circuit: Circuit) -> None:
        self.circuit = circuit
        self.lowering = _Lowering(circuit)
        self.known: Dict[str, _Applications] = {}
        self.depth = [0] * len(circuit.qubits)
        self.t_depth = [0] * len(circuit.qubits)
        self.written: Dict[int, Tuple[int, int]] = {}
        self.gates = self.t_count = self.two_qubit = self.other_angles = self.opaque = 0

    def done(self) -> Measures:
        for it in self.circuit.statements:
            self.add(it, None)
        return Measures(
            qubits=len(self.depth),
            gates=self.gates,
            t_count=self.t_count,
            t_depth=max(self.t_depth, default=0),
            depth=max(self.depth, default=0),
            two_qubit=self.two_qubit,
            other_angles=self.other_angles,
            opaque=self.opaque,
        )

    def add(self, it: Statement, condition: Optional[int]) -> None:
        """Counts a statement, under a condition on the register of this number, or under none."""
        known = self.known.get(it.text)
        one = call(it.text) if known is None else None
        if one is not None:
            known = self.known[it.text] = self.applications(one, it.line)
        if known is not None:
            self.apply(known, it.line, condition)
            return
        found = _IF.fullmatch(squeezed(it.text))
        if found and found[1] in self.circuit.bits:
            self.add(Statement("", found[2], it.line), self.circuit.bits[found[1]][0])
            return
        operation = self.circuit.other(it.text, it.line)
        if operation is None:
            return
        if condition is not None:
            self.wait(operation.qubits, condition)
        for number in {number for number, _ in operation.writes}:
            self.write(number, operation.qubits)

    def write(self, register: int, qubits: Iterable[int]) -> None:
        """A measurement of these qubits into a register."""
        depth, t_depth = self.written.get(register, (0, 0))
        for qubit in qubits:
            depth, t_depth = max(depth, self.depth[qubit]), max(t_depth, self.t_depth[qubit])
        self.written[register] = depth, t_depth

    def applications(self, one: Call, line: int) -> _Applications:
        """What a statement stands for that applies a gate to qubits or registers."""
        gate = self.lowering.gates.get(one.name)
        if gate is not None and len(gate.qubits) != len(one.places):
            raise CannotCut(f"{one.name} takes {len(gate.qubits)} qubits", line)
        places = [self.circuit.place(text, line) for text in one.places]
        if any(is_register for _, is_register in places):
            many = self.circuit.broadcast(places, one.name, line)
        else:
            many = [tuple([those[0] for those, _ in places])]
            if len(set(many[0])) < len(places):
                raise CannotCut(f"{one.name} names a qubit twice", line)
        return self.lowering.application(one, {}), many

    def apply(self, known: _Applications, line: int, condition: Optional[int]) -> None:
        lowered, many = known
        for qubits in many:
            if condition is not None:
                self.wait(qubits, condition)
            self.place(lowered, qubits, line)

    def wait(self, qubits: Sequence[int], register: int) -> None:
        """Brings the paths that end in a register to qubits."""
        depth, t_depth = self.written.get(register, (0, 0))
        for qubit in qubits:
            self.depth[qubit] = max(self.depth[qubit], depth)
            self.t_depth[qubit] = max(self.t_depth[qubit], t_depth)

    def place(self, lowered: _Lowered, qubits: Sequence[int], line: int) -> None:
        """Counts the lowered gates of one application."""
        self.gates += len(lowered.steps)
        if self.gates > GREATEST_GATES:
            raise TooManyGates(f"there are more than {GREATEST_GATES:,} gates", line)
        self.two_qubit += lowered.two_qubit
        self.other_angles += lowered.other_angles
        self.opaque += lowered.opaque
        depths, t_depths = self.depth, self.t_depth
        for t, places in lowered.steps:
            self.t_count += t
            if len(places) == 1:
                qubit = qubits[places[0]]
                depths[qubit] += 1
                t_depths[qubit] += t
                continue
            those = [qubits[at] for at in places]
            depth, t_depth = max([depths[it] for it in those]) + 1, max([t_depths[it] for it in those])
            for it in those:
                depths[it], t_depths[it] = depth, t_depth


# -- the command ------------------------------------------------------------------------------------------------------


def command_parser(command: str) -> argparse.ArgumentParser:
    """The words of the command `measures`."""
    about = (
        "Tells T-count, T-depth, depth and gates of texts of OpenQASM 2.0 as they are written, lowered to CX, CZ, H, "
        "NOT and phases. Square roots of T count as T; phases that are no multiple of pi/8 are told apart. The exit "
        "status is 1 where a text can't be counted."
    )
    parser = arguments.takes_within(arguments.parser(command, about))
    parser.add_argument("files", nargs="+", metavar="FILE", help="a file; - for standard input")
    parser.add_argument("--csv", action="store_true", help="write a table, in place of a line for each file")
    return parser


def command(asked: argparse.Namespace) -> int:
    """The command `measures`: a line for each file, or a row. Answers 0, or 1 where a text can't be counted."""
    rows = csv.writer(sys.stdout, lineterminator="\n") if asked.csv else None
    if rows:
        rows.writerow(["file", *Measures.__dataclass_fields__])
    status = 0
    for file in asked.files:
        try:
            prepared = prepare(cli.read_text(file), within=asked.within)
            found = _counted(prepared.text)
        except ValueError as refused:
            print(cli.placed(file, refused), file=sys.stderr)
            status = cli.REFUSED
            continue
        if rows:
            rows.writerow([file, *asdict(found).values()])
        else:
            print(f"{file}: {_line(found)}")
        if prepared.rounded:
            print(f"{file}: {told(prepared.rounded)}", file=sys.stderr)
    return status


def _line(found: Measures) -> str:
    """What is told of a text."""
    said = (
        f"qubits {found.qubits}, T {found.t_count}, T-depth {found.t_depth}, two-qubit {found.two_qubit}, "
        f"gates {found.gates}, depth {found.depth}"
    )
    others = [(found.other_angles, "other angles"), (found.opaque, "opaque gates")]
    return said + "".join(f", {name} {count}" for count, name in others if count)
