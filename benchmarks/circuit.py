"""A circuit as the generators make it, and its text in OpenQASM 2.0."""
from __future__ import annotations

from typing import Dict, List, NamedTuple, Sequence, Tuple

__all__ = ["Circuit", "Gate"]

_REGISTER = "q"


class Gate(NamedTuple):
    """One gate of the header `qelib1.inc`."""

    name: str
    qubits: Tuple[int, ...]
    angle: str = ""

    def text(self) -> str:
        """The statement that applies the gate to places of the register `q`."""
        angle = f"({self.angle})" if self.angle else ""
        return f"{self.name}{angle} {','.join(f'{_REGISTER}[{it}]' for it in self.qubits)};"


class Circuit:
    """Gates in their order, on qubits that are taken in groups by what they hold.

    The text has one register `q`, since every tool reads that; a comment tells which of its places hold what.
    """

    def __init__(self, name: str, about: str) -> None:
        """name: that of its file, without `.qasm`. about: what it does, with its source."""
        self.name = name
        self.about = about
        self.groups: Dict[str, List[int]] = {}
        self.gates: List[Gate] = []

    @property
    def width(self) -> int:
        """The number of qubits."""
        return sum(map(len, self.groups.values()))

    def qubits(self, group: str, count: int) -> List[int]:
        """Takes the next `count` qubits as the group of this name, and answers them. The text's comment tells all
        groups but one that has the register's name."""
        self.groups[group] = list(range(self.width, self.width + count))
        return self.groups[group]

    def add(self, name: str, *qubits: int, angle: str = "") -> None:
        """Puts a gate behind the others."""
        self.gates.append(Gate(name, qubits, angle))

    def ccx(self, control: int, other: int, target: int) -> None:
        """A Toffoli gate: the target is flipped where both controls are 1."""
        self.add("ccx", control, other, target)

    def cx(self, control: int, target: int) -> None:
        """A CNOT gate: the target is flipped where the control is 1."""
        self.add("cx", control, target)

    def x(self, target: int) -> None:
        """A NOT gate."""
        self.add("x", target)

    def text(self) -> str:
        """The circuit as OpenQASM 2.0, the same bytes whenever it is generated."""
        groups = ", ".join(f"{name} = {_places(them)}" for name, them in self.groups.items() if name != _REGISTER)
        head = [f"// {self.about}", *([f"// {groups}"] if groups else [])]
        head += ["OPENQASM 2.0;", 'include "qelib1.inc";', f"qreg {_REGISTER}[{self.width}];"]
        return "\n".join(head + [gate.text() for gate in self.gates]) + "\n"


def _places(qubits: Sequence[int]) -> str:
    """The places of neighbouring qubits in the register."""
    return f"{_REGISTER}[{qubits[0]}]" if len(qubits) == 1 else f"{_REGISTER}[{qubits[0]}..{qubits[-1]}]"
