"""zxopt on a circuit of Qiskit, as a pass of its transpiler, and what it makes of it compared by both.

    python3 qiskit_pass.py [FILE]

Written for Qiskit 1.0 or later. This file isn't run by the tests of this repository, where Qiskit isn't installed.
"""
from __future__ import annotations

import sys

from qiskit import QuantumCircuit, qasm2
from qiskit.quantum_info import Operator
from qiskit.transpiler import PassManager

import zxopt


def drawn() -> QuantumCircuit:
    """Two Toffoli gates that share a control."""
    circuit = QuantumCircuit(3)
    circuit.ccx(0, 1, 2)
    circuit.t(0)
    circuit.h(2)
    circuit.ccx(1, 0, 2)
    return circuit


def main() -> None:
    """Optimises a file's circuit, or a small one."""
    circuit = qasm2.load(sys.argv[1]) if sys.argv[1:] else drawn()
    better = PassManager([zxopt.qiskit.ZxOpt()]).run(circuit)
    for name, each in (("read", circuit), ("zxopt", better)):
        print(f"{name}: {zxopt.measures(each)}")
    print("zxopt says:", zxopt.same(circuit, better))
    if circuit.num_qubits <= 10:
        print("Qiskit says:", "same" if Operator(circuit).equiv(Operator(better)) else "not the same")


if __name__ == "__main__":
    main()
