"""Tests of `zxopt.counting`: counts by hand, by another way to find paths, and by the program's report."""
from __future__ import annotations

import random
import unittest
from typing import Dict, List, Tuple
from unittest import mock

from support import EXAMPLES, HEAD, example

import zxopt
from zxopt import counting
from zxopt.counting import Measures, TooManyGates, measures


def counted(body: str, **more: float) -> Measures:
    return measures(HEAD + body, **more)


class ByHand(unittest.TestCase):
    """Counts that can be followed on paper."""

    def rows(self, *rows: Tuple[str, Tuple[int, ...]]) -> None:
        """Gates, T gates, T-depth, depth, gates on two qubits, other angles."""
        for body, counts in rows:
            with self.subTest(body=body):
                it = counted(f"qreg q[4]; creg c[2]; creg d[1]; {body}")
                found = (it.gates, it.t_count, it.t_depth, it.depth, it.two_qubit, it.other_angles)
                self.assertEqual((it.qubits, *found), (4, *counts))

    def test_one_qubit(self) -> None:
        self.rows(
            ("", (0, 0, 0, 0, 0, 0)),
            ("h q[0]; x q[0]; s q[0]; z q[0]; sdg q[0];", (5, 0, 0, 5, 0, 0)),
            ("t q[0]; h q[0]; tdg q[0];", (3, 2, 2, 3, 0, 0)),
            ("t q[0]; t q[1]; t q[2];", (3, 3, 1, 1, 0, 0)),
            ("id q[0]; u1(0) q[0]; rz(4*pi) q[0];", (0, 0, 0, 0, 0, 0)),
            ("t q;", (4, 4, 1, 1, 0, 0)),
        )

    def test_roots_of_t(self) -> None:
        """Square roots of T and all odd multiples are one T gate each, wherever they come from."""
        self.rows(
            ("u1(pi/8) q[0]; rz(3*pi/8) q[0]; p(-7*pi/8) q[0];", (3, 3, 3, 3, 0, 0)),
            ("u1(3*pi/4) q[0]; u1(pi) q[0];", (2, 1, 1, 2, 0, 0)),
            ("rx(pi/4) q[0];", (3, 1, 1, 3, 0, 0)),
        )

    def test_other_angles(self) -> None:
        self.rows(
            ("rz(0.3) q[0]; t q[0]; rz(pi/16) q[0];", (3, 1, 1, 3, 0, 2)),
            ("rx(0.3) q[0];", (3, 0, 0, 3, 0, 1)),
            ("u3(0,0.3,-0.3) q[0]; u3(0,0.3,pi/4) q[0];", (1, 0, 0, 1, 0, 1)),
            ("cu1(pi/8) q[0],q[1];", (5, 0, 0, 5, 2, 3)),
        )

    def test_rounded_angles(self) -> None:
        body = "qreg q[1]; rz(0.785398163) q[0];"
        self.assertEqual((counted(body).t_count, counted(body).other_angles), (0, 1))
        within = counted(body, within=1e-9)
        self.assertEqual((within.t_count, within.other_angles), (1, 0))

    def test_paths(self) -> None:
        """Gates on two qubits join the paths of both."""
        self.rows(
            ("t q[0]; cx q[0],q[1]; t q[1]; cx q[1],q[2]; t q[2];", (5, 3, 3, 5, 2, 0)),
            ("t q[0]; t q[1]; cx q[0],q[1]; t q[2];", (4, 3, 1, 2, 1, 0)),
            # the longest path and the one with most T are two
            ("h q[0]; h q[0]; h q[0]; cx q[0],q[1]; t q[2]; t q[2];", (6, 2, 2, 4, 1, 0)),
            # nothing cancels, and the T don't meet at the control
            ("h q[0]; h q[0]; t q[1]; cx q[1],q[0]; t q[1];", (5, 2, 2, 4, 1, 0)),
        )

    def test_lowered_gates(self) -> None:
        """A Toffoli of the header: four T on the target, and on the first control one behind the target's third."""
        self.rows(
            ("cz q[0],q[1];", (1, 0, 0, 1, 1, 0)),
            ("swap q[0],q[1];", (3, 0, 0, 3, 3, 0)),
            ("ccx q[0],q[1],q[2];", (15, 7, 4, 11, 6, 0)),
            ("gate two a,b { t a; cz a,b; t b; } two q[1],q[0]; two q[0],q[3];", (6, 4, 4, 6, 2, 0)),
            ("gate turn(x) a { rz(x/2) a; } turn(pi/2) q[0]; turn(pi/8) q[0];", (2, 1, 1, 2, 0, 1)),
        )

    def test_what_is_no_gate(self) -> None:
        self.rows(
            ("t q[0]; barrier q; t q[1];", (2, 2, 1, 1, 0, 0)),
            ("t q[0]; reset q[0]; t q[0];", (2, 2, 2, 2, 0, 0)),
            ("t q[0]; measure q[0] -> c[0]; t q[1];", (2, 2, 1, 1, 0, 0)),
        )

    def test_conditions(self) -> None:
        """A path goes from a measurement through its register, and through no other one."""
        self.rows(
            ("t q[0]; measure q[0] -> c[0]; if(c==1) t q[1];", (2, 2, 2, 2, 0, 0)),
            ("t q[0]; measure q[0] -> c[0]; if(d==1) t q[1];", (2, 2, 1, 1, 0, 0)),
            ("t q[0]; measure q[0] -> c[0]; if(c==1) measure q[1] -> d[0]; if(d==1) t q[2];", (2, 2, 2, 2, 0, 0)),
            ("t q[0]; if(c==1) measure q[0] -> d[0]; if(d==1) x q[3]; t q[3];", (3, 2, 2, 3, 0, 0)),
        )

    def test_opaque_gates(self) -> None:
        found = counted("opaque magic a,b; qreg q[3]; t q[0]; magic q[0],q[1]; strange(1) q[1],q[2],q[0]; t q[2];")
        self.assertEqual(found, Measures(3, 4, 2, 2, 4, 1, 0, 2))

    def test_texts_of_other_tools(self) -> None:
        """What `prepare` mends is mended here, too: capital letters, a missing include, a gate of Qiskit's."""
        found = measures(b"\xef\xbb\xbfOPENQASM 2.0;\nqreg Q[3];\nT Q[0];\nrccx Q[0],Q[1],Q[2];\n")
        self.assertEqual((found.t_count, found.two_qubit, found.opaque), (5, 3, 0))


class AnotherWay(unittest.TestCase):
    """The longest paths of drawn circuits, found gate by gate among all earlier ones."""

    def longest(self, gates: List[Tuple[int, Tuple[int, ...]]]) -> int:
        ends: List[int] = []
        for at, (weight, qubits) in enumerate(gates):
            before = [ends[it] for it in range(at) if set(gates[it][1]) & set(qubits)]
            ends.append(weight + max(before, default=0))
        return max(ends, default=0)

    def test_drawn_circuits(self) -> None:
        draw = random.Random(5)
        for _ in range(40):
            count = draw.randint(2, 6)
            gates: List[Tuple[str, Tuple[int, ...]]] = []
            for _ in range(draw.randint(0, 60)):
                name = draw.choice(["h", "t", "tdg", "s", "cx", "cz"])
                gates.append((name, tuple(draw.sample(range(count), 2 if name[0] == "c" else 1))))
            body = "".join(f"{name} {','.join(f'q[{it}]' for it in qubits)};\n" for name, qubits in gates)
            found = counted(f"qreg q[{count}];\n{body}")
            self.assertEqual(found.depth, self.longest([(1, qubits) for _, qubits in gates]), body)
            self.assertEqual(found.t_depth, self.longest([(int(name[0] == "t"), qubits) for name, qubits in gates]), body)


class TheReport(unittest.TestCase):
    """The program's own counts of what it reads and writes: there `cz` that is read is two H and a CX."""

    def compare(self, text: str) -> None:
        report = zxopt.optimise_counted(text, best=False)
        for said, counts in ((text, report.counts.read), (report.text, report.counts.written)):
            found = measures(said)
            czs = self.czs(said) if said is text else 0
            self.assertEqual(
                (found.gates + 2 * czs, found.t_count, found.two_qubit, found.other_angles, found.opaque),
                (counts.gates, counts.odd, counts.two_qubit, 0, 0),
            )

    def czs(self, text: str) -> int:
        return sum(line.startswith("cz ") for line in text.splitlines())

    def test_examples(self) -> None:
        names = [file.name for file in EXAMPLES.glob("*.qasm") if file.name not in ("refused.qasm", "more_gates.qasm")]
        self.assertGreater(len(names), 8)
        for name in names:
            with self.subTest(name=name):
                self.compare(example(name))

    def test_each_gate_of_the_header(self) -> None:
        """With angles that are drawn from all sixteenth turns."""
        draw = random.Random(7)
        angled: Dict[str, int] = {"u3": 3, "u2": 2, "u1": 1, "u": 3, "p": 1, "rx": 1, "ry": 1, "rz": 1, "U": 3}
        for name, count in {**angled, "crz": 1, "cu1": 1, "cp": 1, "crx": 1, "cry": 1, "rzz": 1}.items():
            step = "pi/4" if name[0] == "c" else "pi/8"
            qubits = "q[0]" if name in angled else "q[0],q[1]"
            lines = [
                f"{name}({','.join(f'{draw.randint(-20, 20)}*{step}' for _ in range(count))}) {qubits};\n" for _ in range(40)
            ]
            with self.subTest(name=name):
                self.compare(HEAD + "qreg q[2];\n" + "".join(lines))
        plain = "id x y z h s sdg t tdg sx sxdg".split()
        pairs, triples = "cx cy ch swap cz".split(), "ccx cswap ccz".split()
        places = [(plain, "q[0]"), (pairs, "q[0],q[1]"), (triples, "q[2],q[0],q[1]")]
        self.compare(HEAD + "qreg q[3];\n" + "".join(f"{it} {said};\n" for names, said in places for it in names))


class Refusals(unittest.TestCase):
    def test_texts_that_are_none(self) -> None:
        for body in ("qreg q[1]; h q[1];", "qreg q[2]; cx q[0],q[0];", "qreg q[2]; h q[0],q[1];", "qreg q[1]; h r;", "hello"):
            with self.subTest(body=body), self.assertRaises(ValueError):
                counted(body)
        with self.assertRaises(ValueError):
            measures("OPENQASM 3.0; qubit q;")

    def test_too_many_gates(self) -> None:
        doubled = "gate d0 a { h a; h a; }" + "".join(f"gate d{i + 1} a {{ d{i} a; d{i} a; }}" for i in range(200))
        self.assertEqual(counted(f"{doubled} qreg q[1]; d9 q[0];").depth, 1 << 10)
        with mock.patch.object(counting, "GREATEST_BODY", 1 << 12):
            self.assertEqual(counted(f"{doubled} qreg q[1]; d11 q[0];").depth, 1 << 12)
            for count in (12, 200):
                with self.assertRaises(TooManyGates):
                    counted(f"{doubled} qreg q[1]; d{count} q[0];")
        with mock.patch.object(counting, "GREATEST_GATES", 3 << 10):
            self.assertEqual(counted(f"{doubled} qreg q[3]; d9 q;").gates, 3 << 10)
            with self.assertRaises(TooManyGates):
                counted(f"{doubled} qreg q[3]; d9 q; h q[0];")
        nested = "gate n0 a { h a; }" + "".join(f"gate n{i + 1} a {{ n{i} a; }}" for i in range(300))
        with self.assertRaises(TooManyGates):
            counted(f"{nested} qreg q[1]; n300 q[0];")


if __name__ == "__main__":
    unittest.main()
