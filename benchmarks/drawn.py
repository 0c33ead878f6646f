"""Random circuits, the same text for the same seed."""
from __future__ import annotations

from enum import Enum
from typing import Tuple

from .circuit import Circuit
from .draws import Draws

__all__ = ["Kind", "mixed", "random_circuit"]


class Kind(Enum):
    """What a random circuit is made of. Each value is the word in its name and its seed."""

    RANDOM = "random"  # h, t, s, tdg, cz and cx, each as likely
    LOCAL = "local"  # the same, where gates on two qubits are on neighbours
    ONE_T_IN_FIFTY = "lowt"  # a t in fifty gates; else h, s, cz and cx, each as likely
    CLIFFORD = "cliff"  # h, s, cz and cx, each as likely
    CX = "cx"  # cx alone
    CX_AND_T = "cxt"  # cx and t, each as likely

    def gate(self, draws: Draws) -> str:
        """The next gate's name."""
        if self is Kind.CX:
            return "cx"
        if self is Kind.CX_AND_T:
            return draws.one_of(("t", "cx"))
        if self is Kind.ONE_T_IN_FIFTY and draws.chance(0.02):
            return "t"
        return draws.one_of(("h", "t", "s", "tdg", "cz", "cx") if self in _WITH_T else ("h", "s", "cz", "cx"))

    def pair(self, draws: Draws, qubits: int) -> Tuple[int, int]:
        """The qubits of the next gate on two."""
        if self is Kind.LOCAL:
            one = draws.below(qubits - 1)
            return (one, one + 1) if draws.chance(0.5) else (one + 1, one)
        one, other = draws.below(qubits), draws.below(qubits - 1)
        return one, other + (other >= one)


_WITH_T = (Kind.RANDOM, Kind.LOCAL)


def random_circuit(kind: Kind, qubits: int, gates: int, seed: int = 1) -> Circuit:
    """So many drawn gates on qubits that are drawn evenly, too. ValueError on fewer than two."""
    if qubits < 2:
        raise ValueError(f"{qubits} qubits are too few: two or more are needed")
    about = f"{gates} drawn gates of the kind {kind.value}, by seed {seed}."
    circuit = Circuit(f"{kind.value}_{qubits}_{gates}", about)
    circuit.qubits("q", qubits)
    draws = Draws(f"{kind.value} {qubits} {gates} {seed}")
    for _ in range(gates):
        name = kind.gate(draws)
        if name in ("cx", "cz"):
            circuit.add(name, *kind.pair(draws, qubits))
        else:
            circuit.add(name, draws.below(qubits))
    return circuit


def mixed(qubits: int, gates: int, seed: int = 1) -> Circuit:
    """So many of ccx, cx and t, each as likely. ValueError on fewer than three qubits."""
    if qubits < 3:
        raise ValueError(f"{qubits} qubits are too few: three or more are needed")
    circuit = Circuit(f"mixed_{qubits}_{gates}", f"{gates} drawn gates of ccx, cx and t, by seed {seed}.")
    circuit.qubits("q", qubits)
    draws = Draws(f"mixed {qubits} {gates} {seed}")
    for _ in range(gates):
        name, count = draws.one_of((("ccx", 3), ("cx", 2), ("t", 1)))
        circuit.add(name, *draws.distinct(qubits, count))
    return circuit
