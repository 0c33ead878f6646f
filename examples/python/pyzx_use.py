"""zxopt on circuits of PyZX, and what it makes of them compared by both.

    python3 pyzx_use.py [QUBITS GATES SEED]

Written for PyZX 0.8 or later. This file isn't run by the tests of this repository, where PyZX isn't installed.
"""
from __future__ import annotations

import random
import sys

import pyzx

import zxopt


def main() -> None:
    """Draws a circuit of Clifford gates and T, and optimises it by both."""
    qubits, gates, seed = map(int, sys.argv[1:] or (5, 200, 1))
    random.seed(seed)
    circuit = pyzx.generate.CNOT_HAD_PHASE_circuit(qubits, gates)
    better = zxopt.optimise(circuit)
    theirs = pyzx.optimize.full_optimize(circuit.to_basic_gates())
    for name, each in (("drawn", circuit), ("zxopt", better), ("full_optimize", theirs)):
        print(f"{name}: T {each.tcount()}, two-qubit {each.twoqubitcount()}")
    print("zxopt says:", zxopt.same(circuit, better))
    print("PyZX says:", "same" if circuit.verify_equality(better) else "not shown")
    print("PyZX's own:", zxopt.same(circuit, theirs))


if __name__ == "__main__":
    main()
