"""`opt --best` writes fewer T gates than gadget fusion leaves, and the same map, as a simulator of the tests' own shows."""
from __future__ import annotations

import sys
import unittest

import simulator
import zxopt
from support import TOP, example

if str(TOP) not in sys.path:
    sys.path.insert(0, str(TOP))

from benchmarks import families  # noqa: E402
from benchmarks.circuit import Circuit  # noqa: E402
from benchmarks.drawn import mixed  # noqa: E402

PARITIES = range(1, 16)


def all_parities() -> str:
    """T on each parity of four qubits: the identity, since each basis state makes none or eight of them odd."""
    lines = ["OPENQASM 2.0;", 'include "qelib1.inc";', "qreg q[4];"]
    for parity in PARITIES:
        *others, last = [qubit for qubit in range(4) if parity >> qubit & 1]
        gathered = [f"cx q[{qubit}],q[{last}];" for qubit in others]
        lines += [*gathered, f"t q[{last}];", *reversed(gathered)]
    return "\n".join(lines) + "\n"


class FewerT(unittest.TestCase):
    def test_fewer_than_gadget_fusion_leaves(self) -> None:
        """Gadget fusion leaves 8 in mod5_4 and 24 in this VBE adder."""
        for circuit, most in ((families.mod5_4(), 7), (families.vbe_adder(3), 23)):
            with self.subTest(circuit.name):
                self.assertLessEqual(zxopt.measures(zxopt.optimise(circuit.text(), best=True)).t_count, most)

    def test_what_does_nothing_is_seen_through(self) -> None:
        self.assertEqual(zxopt.measures(zxopt.optimise(all_parities(), best=True)).t_count, 0)

    def test_the_map_stays(self) -> None:
        circuits: list[Circuit] = [families.mod5_4(), mixed(5, 20), mixed(6, 32), mixed(6, 48)]
        texts = {circuit.name: circuit.text() for circuit in circuits}
        for name, text in {**texts, "adder": example("adder.qasm")}.items():
            with self.subTest(name):
                self.assertTrue(simulator.is_same(text, zxopt.optimise(text, best=True)))


if __name__ == "__main__":
    unittest.main()
