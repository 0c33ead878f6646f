"""Tests of `library.qasm` and `header.qasm`: each gate against its matrix, and which gates commute with what."""
from __future__ import annotations

import re
import sys
import unittest
from pathlib import Path

sys.path.insert(0, str(Path(__file__).parent))
import simulator

from zxopt import library, shapes
from zxopt.qasm import HEADER, declaration, split
from zxopt.shapes import diagonal_of

FOLDER = Path(library.__file__).parent
TOP = Path(__file__).resolve().parents[2]
ANGLES = [["0.3", "pi/4", "1.1", "-0.7"], ["pi/2", "-2.9", "0.25", "4"], ["-3*pi/4", "pi/8", "-pi/4", "0.6"]]
# Gates that the bodies of the header and of the library are made of at last.
BASE = {"U", "CX"}


def called(name: str, angles: list[str], qubits: int) -> str:
    """A text with one call of a gate."""
    places = ",".join(f"q[{at}]" for at in range(qubits))
    return f"qreg q[{qubits}];\n{name}{'(' + ','.join(angles) + ')' if angles else ''} {places};\n"


class Gates(unittest.TestCase):
    """The declarations have the maps of their matrices."""

    def compare(self, declarations: str, names: list[str]) -> None:
        """Each gate by its declaration, down to U and CX, and by its matrix."""
        for name in names:
            angles, qubits, matrix = simulator.GATES[name]
            for values in ANGLES:
                if name == "u0" and values is not ANGLES[0]:
                    continue
                said = values[:angles]
                want = matrix(*[simulator.value(it, {}) for it in said])
                with self.subTest(name=name, angles=said):
                    found = simulator.matrix_of(declarations + called(name, said, qubits))
                    self.assertTrue(simulator.is_multiple(found, want))

    def test_header(self) -> None:
        declarations = (FOLDER / "header.qasm").read_text(encoding="utf-8")
        self.assertEqual(set(shapes.header()), HEADER)
        self.compare(declarations, sorted(HEADER))

    def test_library(self) -> None:
        header = (FOLDER / "header.qasm").read_text(encoding="utf-8")
        own = (FOLDER / "library.qasm").read_text(encoding="utf-8")
        names = [it.name for it in (declaration(one.text) for one in split(own)[0]) if it]
        self.assertEqual(names, list(library.library()))
        self.assertTrue(HEADER.isdisjoint(names))
        self.compare(header + own, names)

    def test_a_gate_of_another_matrix_is_seen(self) -> None:
        for text, name in (("h q[0];", "x"), ("u1(pi/4) q[0];", "s")):
            self.assertFalse(simulator.is_multiple(simulator.matrix_of(f"qreg q[1];\n{text}"), simulator.GATES[name][2]()))

    def test_copies(self) -> None:
        """The library is the file of the examples, and the header that of the program."""
        example = TOP / "examples" / "more_gates.qasm"
        if not example.exists():
            self.skipTest("no clone of the repository")
        self.assertEqual(example.read_text(encoding="utf-8"), (FOLDER / "library.qasm").read_text(encoding="utf-8"))
        definition = (TOP / "crates" / "qasm_scope" / "specs" / "Header.antt").read_text(encoding="utf-8")
        source = "".join(re.findall(r'codes "([^"]*)"', definition))
        for statement in split((FOLDER / "header.qasm").read_text(encoding="utf-8"))[0]:
            self.assertIn(statement.text, source)


class Diagonal(unittest.TestCase):
    """Where a gate is told to be diagonal on a qubit, its matrix keeps that qubit's bit."""

    def test_standard_gates(self) -> None:
        names = [*HEADER, *library.library()]
        known = 0
        for name in names:
            angles, qubits, matrix = simulator.GATES[name]
            flags = diagonal_of(name, qubits)
            if flags is None:
                continue
            known += 1
            entries = matrix(*[0.3, 1.1, 0.7, 0.2][:angles])
            for at, flag in enumerate(flags):
                crosses = any(entries[row][column] != 0 and (row ^ column) >> at & 1
                              for row in range(1 << qubits) for column in range(1 << qubits))
                with self.subTest(name=name, qubit=at):
                    self.assertEqual(flag, not crosses)
        self.assertGreater(known, 30)

    def test_own_gates(self) -> None:
        texts = ["gate a(x) p,q,r { cx p,q; rz(x) p; cx r,q; }", "gate b p,q { a(0.1) p,q,q; }", "gate c p { U(0,0,1) p; }",
                 "gate d p,q { CX p,q; U(pi,0,0) q; }", "gate p(x) p { h p; }", "gate e q { p(1) q; }", "opaque f p;"]
        found = shapes.Shapes(texts)
        for name, flags in (("a", (True, False, True)), ("c", (True,)), ("d", (True, False)), ("p", (False,)), ("e", (False,))):
            with self.subTest(name=name):
                self.assertEqual(found.diagonal(name), flags)
        bound = shapes.Shapes(["gate a p,q { swap p,q; }", "gate swap a,b { cz a,b; }", "gate b p,q { swap p,q; }"])
        self.assertEqual([bound.diagonal(it) for it in ("a", "swap", "b")], [(False, False), (True, True), (True, True)])
        self.assertEqual(shapes.Shapes(["gate swap a,b { cx a,b; }"]).diagonal("swap"), (True, False))
        self.assertEqual(found.shape("f", ()).diagonal, (False,))
        self.assertEqual(found.shape("U", ("0", "0", "0.1")).diagonal, (True,))


class Readable(unittest.TestCase):
    """What the program reads is predicted as it is."""

    def test_calls(self) -> None:
        found = shapes.Shapes(["gate half(x) a { rz(x/2) a; }", "gate both a,b { half(pi/4) a; cx a,b; }", "gate none(x) a { }"])
        for name, angles, calls in (
            ("U", ("pi/8", "0", "0"), 1), ("CX", (), 1), ("cx", (), 2), ("t", (), 3), ("rz", ("pi/8",), 3), ("rz", ("pi/16",), None),
            ("rz", ("0.3",), None), ("rz", ("0.0",), 3), ("half", ("pi/4",), 4), ("half", ("pi/8",), None), ("both", (), 7),
            ("none", ("0.3",), 1), ("cp", ("pi/8",), None), ("cp", ("pi/4",), 11), ("rz", ("2^0*pi",), None), ("rz", ("pi/0",), None),
            ("rz", ("pi*pi",), None), ("rz", ("x",), None), ("unknown", (), None),
        ):
            with self.subTest(name=name, angles=angles):
                self.assertEqual(found.shape(name, angles).calls, calls)


if __name__ == "__main__":
    unittest.main()
