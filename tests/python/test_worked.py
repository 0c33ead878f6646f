"""Worked examples: what is written for small texts, letter by letter, and the first faults of others, with their places."""
from __future__ import annotations

import unittest

from support import HEAD

import zxopt

ONE = HEAD + "qreg q[1];\n"
TWO = HEAD + "qreg q[2];\n"

WRITTEN = [
    ("OPENQASM 2.0;", HEAD),
    (ONE + "h q[0]; h q[0];", ONE),
    (ONE + "t q[0]; t q[0];", ONE + "s q[0];\n"),
    (ONE + "t q[0]; h q[0]; h q[0]; t q[0];", ONE + "s q[0];\n"),
    (ONE + "h q[0];" * 200 + "s q[0];", ONE + "s q[0];\n"),
    (TWO + "cx q[0],q[1]; cx q[0],q[1];", TWO),
    (ONE + "s q[0]; h q[0]; s q[0]; h q[0]; s q[0];", ONE + "h q[0];\n"),
    (ONE + "x q[0];", ONE + "x q[0];\n"),
    (ONE + "rz(0.25*pi) q[0];", ONE + "t q[0];\n"),
    (ONE + "ry(pi/4) q[0];", ONE + "sdg q[0];\nh q[0];\nt q[0];\nh q[0];\ns q[0];\n"),
    ("OPENQASM 2.0; qreg q[1]; U(pi/2,0,pi) q[0];", ONE + "h q[0];\n"),
    (ONE + "gate g(x) a { U(0,0,x/2) a; } g(pi/2) q[0];", ONE + "t q[0];\n"),
    (TWO + "cx q[0],q[1];", TWO + "cx q[0],q[1];\n"),
    (ONE + "gate g a { U(0,0,pi/0) a; }", ONE),
    (HEAD + "qreg u[2]; gate swap a,b { }", TWO),
    (HEAD + "qreg q[1024];", HEAD + "qreg q[1024];\n"),
    (ONE + "u1(" + "(" * 255 + "pi" + ")" * 255 + ") q[0];", ONE + "z q[0];\n"),
    (ONE + "u1(1152921504606846976*pi) q[0];", ONE),
]

REFUSED = [
    ("", 4, None),
    (ONE + "@", 2, 47),
    (ONE + "h q[0]", 3, 47),
    ('OPENQASM 2.0;\ninclude "other.inc";', 5, 14),
    (ONE + "reset q[0];", 6, 47),
    (ONE + "qreg q[2];", 7, 47),
    (HEAD + "qreg q[0];", 8, 36),
    (HEAD + "qreg q[1025];", 9, 36),
    (ONE + "cu3(0,0,0) q[0],q[0];", 10, 47),
    (ONE + "cx q[0];", 11, 47),
    (ONE + "h q[1];", 12, 47),
    (HEAD + "qreg a[2]; qreg b[3]; cx a,b;", 13, 58),
    (TWO + "cx q[0],q[0];", 14, 47),
    (ONE + "u1(pi/0) q[0];", 15, 47),
    (ONE + "u1(1152921504606846977*pi) q[0];", 16, 47),
    (ONE + "u1(0.7853981633974483) q[0];", 17, 47),
    (ONE + "u1(" + "(" * 256 + "pi" + ")" * 256 + ") q[0];", 18, 305),
    (HEAD + "OPENQASM 2.0;", 20, 36),
    (ONE + "creg c[1]; measure q[0] -> c[0]; h q[0];", 22, 80),
    (TWO + "creg c[1]; measure q[0] -> c[0]; measure q[1] -> c[0];", 23, 80),
    (HEAD + "creg c[65537];", 24, 36),
]


class Worked(unittest.TestCase):
    def test_written(self) -> None:
        for text, written in WRITTEN:
            with self.subTest(text=text[:120]):
                self.assertEqual(zxopt.optimise(text), written)

    def test_a_gate_on_a_register(self) -> None:
        self.assertEqual(sorted(zxopt.optimise(TWO + "t q;").splitlines()[3:]), ["t q[0];", "t q[1];"])

    def test_refused(self) -> None:
        for text, number, place in REFUSED:
            with self.subTest(text=text[:120]), self.assertRaises(zxopt.Refused) as caught:
                zxopt.optimise(text)
            refused = caught.exception
            self.assertEqual((refused.number, refused.name, refused.place), (number, zxopt.FAULTS[number].name, place))
            if place is not None:
                before = text[:place]
                self.assertEqual(refused.line, before.count("\n") + 1)
                self.assertEqual(refused.column, place - before.rfind("\n"))

    def test_too_many_calls(self) -> None:
        begin = ONE + "gate g0 a { }" + "".join(f"gate g{k} a {{ g{k - 1} a; g{k - 1} a; }}" for k in range(1, 25))
        self.assertEqual(zxopt.optimise(begin + "g18 q[0];"), ONE)
        with self.assertRaises(zxopt.Refused) as caught:
            zxopt.optimise(begin + "g24 q[0];")
        self.assertEqual((caught.exception.number, caught.exception.place), (19, len(begin)))

    def test_toffoli(self) -> None:
        text = HEAD + "qreg q[3]; ccx q[0],q[1],q[2];"
        made = zxopt.optimise_counted(text)
        self.assertLessEqual(made.counts.written.odd, 7)
        self.assertLessEqual(made.counts.written.gates, 117)
        self.assertTrue(zxopt.same(text, made.text))


if __name__ == "__main__":
    unittest.main()
