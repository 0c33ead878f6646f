"""Tests of `zxopt.parts`: channels of drawn texts, what a part may take, limits, and time."""
from __future__ import annotations

import io
import os
import random
import sys
import tempfile
import time
import unittest
from contextlib import redirect_stderr, redirect_stdout
from pathlib import Path
from unittest import mock

sys.path.insert(0, str(Path(__file__).parent))
import simulator

from zxopt import parts, windows
from zxopt.parts import CannotCut, Counts, optimise_parts
from zxopt.prepare import prepare

HEAD = 'OPENQASM 2.0;\ninclude "qelib1.inc";\n'
ONE = "h x y z s sdg t tdg sx sxdg id".split()
TWO = "cx cx cx cz cy ch swap".split()
THREE = "ccx ccz cswap".split()
OWN = (
    "gate own(a) p,r { cx p,r; u1(a/2) r; cx p,r; h p; }\n"
    "gate fine(a) p,r { cz p,r; rz(a) p; rz(-a) r; }\n"
    "gate far(a) p { rz(a) p; }\n"
    "gate lost p,r { far(0.4) p; cx p,r; }\n"
    "opaque dark(a) p,r;\n"
)
ANGLES = ["pi/4", "-pi/8", "3*pi/8", "0.3", "pi/16", "0.7853981633974483", "pi/2", "0", "-1.25"]
OWN_EVEN = ["pi/4", "pi/2", "-3*pi/4", "pi"]


class Drawn:
    """A text that is drawn from a seed: gates, and what the program refuses."""

    def __init__(self, seed: int) -> None:
        self.draw = random.Random(seed)
        self.qubits = self.draw.randint(1, 4)
        names = [f"a[{at}]" for at in range(min(2, self.qubits))] + [f"b[{at}]" for at in range(self.qubits - 2)]
        self.names = names
        self.measures = 0

    def text(self) -> str:
        """The text."""
        b = f"qreg b[{self.qubits - 2}];\n" if self.qubits > 2 else ""
        registers = f"qreg a[{min(2, self.qubits)}];\n{b}creg c[2];\ncreg d[1];\n"
        count = self.draw.randint(5, 30)
        return HEAD + OWN + registers + "".join(f"{self.statement()}\n" for _ in range(count))

    def statement(self) -> str:
        """One statement."""
        kind = self.draw.random()
        if kind < 0.12:
            self.measures += 1
            if self.measures <= 5:
                return f"measure {self.some(1)[0]} -> {self.draw.choice(['c[0]', 'c[1]', 'd[0]'])};"
        if kind < 0.15:
            return f"reset {self.some(1)[0]};"
        if kind < 0.27:
            return f"if({self.draw.choice(['c==1', 'c==2', 'd==1', 'd==0', 'c==3'])}) {self.gate()}"
        if kind < 0.3:
            return f"barrier {','.join(self.some(self.draw.randint(1, self.qubits)))};"
        return self.gate()

    def some(self, count: int) -> list[str]:
        return self.draw.sample(self.names, count)

    def gate(self) -> str:
        """An application."""
        width = self.draw.choice([1, 1, 1, 2, 2, 2, 3])
        width = min(width, self.qubits)
        some = ",".join(self.some(width))
        angle = self.draw.choice(ANGLES)
        if width == 1:
            if self.draw.random() < 0.06:
                return f"{self.draw.choice(ONE)} a;"
            if self.draw.random() < 0.35:
                name = self.draw.choice(["rz", "rx", "ry", "u1", "p", "u2", "far"])
                return f"{name}({angle}{',' + self.draw.choice(ANGLES) if name == 'u2' else ''}) {some};"
            return f"{self.draw.choice(ONE)} {some};"
        if width == 2:
            if self.draw.random() < 0.25:
                return f"{self.draw.choice(['crz', 'cu1', 'crx', 'rzz', 'own', 'fine'])}({angle}) {some};"
            return f"{self.draw.choice([*TWO, *TWO, *TWO, 'lost'])} {some};"
        return f"{self.draw.choice(THREE)} {some};"


class Channels(unittest.TestCase):
    """The channel of a text is that of what parts makes of it."""

    def test_drawn_texts(self) -> None:
        stays = taken = 0
        for seed in range(200):
            text = Drawn(seed).text()
            done = optimise_parts(text, best=seed % 2 == 0, keep_barriers=seed % 5 == 0)
            with self.subTest(seed=seed):
                self.assertTrue(simulator.is_same(text, done.text, seed=seed + 1), f"{text}\n{done.text}")
                self.assertLessEqual(done.after, done.before)
            stays, taken = stays + done.kept, taken + done.parts
        self.assertGreater(stays, 500)
        self.assertGreater(taken, 200)

    def test_behind_prepare(self) -> None:
        for seed in range(1000, 1020):
            text = Drawn(seed).text()
            done = optimise_parts(prepare(text, within=1e-9).text)
            with self.subTest(seed=seed):
                self.assertTrue(simulator.is_same(text, done.text, from_zero=True), f"{text}\n{done.text}")

    def test_rows(self) -> None:
        """Texts in which one wrong exchange would show."""
        head = HEAD + "qreg q[3];\ncreg c[2];\n"
        for rest in (
            "h q[0]; measure q[0] -> c[0]; h q[0]; measure q[0] -> c[1];",
            "h q[0]; measure q[0] -> c[0]; if(c==1) x q[1]; h q[0]; measure q[0] -> c[0]; if(c==1) x q[2];",
            "h q[0]; cx q[0],q[1]; measure q[0] -> c[0]; cx q[0],q[2]; t q[0]; measure q[1] -> c[1];",
            "ry(0.3) q[0]; cx q[0],q[1]; rz(0.2) q[0]; cx q[0],q[1]; rz(0.2) q[1]; cx q[0],q[1]; ry(0.1) q[1];",
            "h q; rz(0.4) q; cx q[0],q[1]; rz(0.3) q[1]; cx q[1],q[2]; rx(0.3) q[1]; cx q[0],q[1]; h q;",
            "if(c==0) h q[0]; measure q[0] -> c[0]; if(c==1) rz(0.3) q[1]; if(c==0) measure q[0] -> c[1]; reset q; h q;",
            "h q[0]; reset q[0]; h q[0]; cx q[0],q[1]; reset q[1]; cx q[0],q[1]; if(c==0) reset q[0];",
            "rz(0.3) q[0]; rz(0.4) q[0]; x q[0]; rz(0.3) q[0]; x q[0]; rz(0.3) q[0];",
            "measure q[0] -> c[0]; measure q[1] -> c[0]; if(c==1) x q[2]; measure q[0] -> c[0]; if(c==1) h q[2];",
        ):
            done = optimise_parts(head + rest)
            with self.subTest(rest=rest):
                self.assertTrue(simulator.is_same(head + rest, done.text), done.text)


class Cuts(unittest.TestCase):
    """What parts takes, and what it leaves."""

    def parts(self, rest: str, **more: object) -> parts.Parts:
        return optimise_parts(HEAD + rest, **more)  # type: ignore[arg-type]

    def test_a_stay_cuts_only_its_qubits(self) -> None:
        done = self.parts("qreg q[3]; t q[0]; rx(0.1) q[1]; t q[0]; cx q[0],q[2]; rx(0.2) q[1]; tdg q[0]; tdg q[2];")
        self.assertEqual((done.parts, done.kept), (1, 2))
        self.assertEqual((done.before, done.after), (Counts(4, 1), Counts(2, 1)))

    def test_diagonal_stays_let_diagonal_gates_pass(self) -> None:
        done = self.parts("qreg q[2]; t q[0]; rz(0.1) q[0]; cx q[0],q[1]; rz(0.2) q[0]; t q[0]; h q[1];")
        self.assertEqual((done.parts, done.kept), (1, 2))
        self.assertEqual(done.after.t, 0)

    def test_a_measurement_lets_controls_pass(self) -> None:
        done = self.parts("qreg q[2]; creg c[1]; h q[0]; measure q[0] -> c[0]; cx q[0],q[1]; t q[1];")
        self.assertEqual((done.parts, done.kept), (1, 1))
        self.assertTrue(done.text.rstrip().endswith("measure q[0] -> c[0];"))

    def test_a_condition_waits_for_its_bits(self) -> None:
        done = self.parts("qreg q[2]; creg c[1]; h q[0]; measure q[0] -> c[0]; if(c==1) x q[1]; measure q[1] -> c[0];")
        lines = done.text.splitlines()
        self.assertEqual(lines[-3:], ["measure q[0] -> c[0];", "if(c==1) x q[1];", "measure q[1] -> c[0];"])

    def test_registers_and_names_stay(self) -> None:
        done = self.parts("qreg left[1];\nqreg right[2];\ncreg out[2];\nh left[0]; ccx left[0],right[0],right[1]; reset right[1];\n"
                          "cx left[0],right[1];\nmeasure right -> out;")
        for line in ("qreg left[1];", "qreg right[2];", "creg out[2];", "reset right[1];", "measure right -> out;"):
            self.assertEqual(done.text.splitlines().count(line), 1, line)

    def test_barriers(self) -> None:
        text = "qreg q[2]; t q[0]; barrier q; t q[0]; barrier q[1]; h q[1]; barrier q[1]; h q[1];"
        self.assertEqual(self.parts(text).after.t, 0)
        done = self.parts(text, keep_barriers=True)
        self.assertEqual((done.after.t, done.kept), (2, 3))
        self.assertEqual(done.text.count("barrier"), 3)

    def test_declarations_stay_where_they_are_needed(self) -> None:
        text = "gate a(x) p { rz(x) p; }\ngate b p { a(0.1) p; h p; }\ngate c p { h p; }\nqreg q[2]; b q[0]; c q[1]; c q[1];"
        done = self.parts(text)
        self.assertIn("gate a(x) p", done.text)
        self.assertIn("gate b p", done.text)
        self.assertNotIn("gate c p", done.text)
        self.assertIn("b q[0];", done.text)

    def test_unknown_and_opaque_gates_stay(self) -> None:
        done = self.parts("opaque magic(x) a,b;\nqreg q[3]; h q[0]; magic(3) q[0],q[1]; c4x2 q[0],q[1],q[2]; t q[2]; t q[2];")
        self.assertEqual((done.parts, done.kept), (2, 2))
        self.assertIn("opaque magic(x) a,b;", done.text)
        self.assertIn("c4x2 q[0],q[1],q[2];", done.text)

    def test_own_gates_with_names_of_the_header(self) -> None:
        text = "OPENQASM 2.0;\ngate h a { U(pi/2,0.1,pi) a; }\ngate cx a,b { CX b,a; }\nqreg t[2];\nh t[0]; cx t[0],t[1]; U(pi/2,0,pi) t[1];"
        done = optimise_parts(text)
        self.assertTrue(simulator.is_same(text, done.text), done.text)

    def test_a_gate_of_the_header_that_is_declared_anew(self) -> None:
        text = "gate a p,q { sx p; cx p,q; }\ngate swap a,b { cz a,b; }\nqreg q[2]; rx(0.1) q[0]; swap q[0],q[1]; rz(0.3) q[1]; a q[0],q[1];"
        self.assertTrue(simulator.is_same(HEAD + text, self.parts(text).text))
        for rest in ("qreg q[2]; swap q[0],q[1];\n", "gate a p,q { swap p,q; }\n", "qreg q[2]; creg c[1]; if(c==0) swap q[0],q[1];\n"):
            with self.subTest(rest=rest), self.assertRaises(CannotCut) as caught:
                self.parts(rest + "gate swap a,b { cz a,b; }")
            self.assertEqual(caught.exception.line, 4)

    def test_words_of_other_forms(self) -> None:
        for rest in ("qreg q[2];\nh q[2];", "qreg q[2];\ncx q[0],q[0];", "qreg q[2];\nh r;", "qreg q[2]; qreg r[3];\ncx q,r;",
                     "qreg q[1];\ncx q[0];", "qreg q[1];\nfoo bar baz;", "qreg q[1];\nh q[0]", "qreg q[2]; creg c[1];\nmeasure q -> c;",
                     "qreg q[1]; creg c[1];\nmeasure q[0] -> d[0];"):
            with self.subTest(rest=rest), self.assertRaises(CannotCut) as caught:
                self.parts(rest)
            self.assertEqual(caught.exception.line, 4)
        for text, line in (("qreg q[1];", 1), ('OPENQASM 2.0;\ninclude "else.inc";\nqreg q[1];', 2), (HEAD + "qreg q[0];", 3),
                           (HEAD + "qreg q[1];\nqreg q[1];", 4), (HEAD + "gate a b,b { }", 3)):
            with self.subTest(text=text), self.assertRaises(CannotCut) as caught:
                optimise_parts(text)
            self.assertEqual(caught.exception.line, line)

    def test_other_conditions_keep_their_place(self) -> None:
        done = self.parts("qreg q[2]; creg c[2]; t q[0]; if(c[0]==1) { x q[0]; h q[1]; } t q[0];")
        self.assertEqual((done.parts, done.kept), (2, 1))
        self.assertIn("if(c[0]==1) { x q[0]; h q[1]; }", done.text)

    def test_shapes_that_the_program_refuses_against_what_was_predicted(self) -> None:
        with mock.patch("zxopt.shapes.Shapes.calls_of", return_value=1):
            done = self.parts("qreg q[2]; h q[0]; rx(0.1) q[0]; rx(0.1) q[1]; ry(0.2) q[0]; t q[0]; t q[0];")
        self.assertEqual(done.kept, 3)
        self.assertIn("rx(0.1) q[1];", done.text)

    def test_jobs_and_progress(self) -> None:
        text = HEAD + "qreg q[3];\n" + "h q[0]; cx q[0],q[1]; t q[1]; rx(0.1) q[1]; ry(0.1) q[0]; h q[2];\n" * 20
        seen: list[tuple[int, int]] = []
        one = optimise_parts(text)
        two = optimise_parts(text, jobs=3, progress=lambda done, count: seen.append((done, count)))
        self.assertEqual(one, two)
        self.assertEqual(seen[-1], (one.parts, one.parts))

    def test_numbers_out_of_range(self) -> None:
        for wrong in ({"jobs": 0}, {"jobs": -3}, {"timeout": 0}):
            with self.subTest(wrong=wrong), self.assertRaises(ValueError):
                self.parts("qreg q[1]; h q[0]; t q[0];", **wrong)

    def test_a_program_that_is_missing(self) -> None:
        with self.assertRaises(OSError):
            self.parts("qreg q[1]; h q[0]; t q[0];", program="/no/such/program")

    def test_a_part_that_takes_too_long_stays(self) -> None:
        text = HEAD + "qreg q[2];\n" + "h q[0]; cx q[0],q[1]; t q[1];\n" * 3
        for more in ({}, {"best": False}, {"teleport": True}):
            with self.subTest(more=more), mock.patch("zxopt.windows.made", side_effect=TimeoutError("so long")):
                done = optimise_parts(text, timeout=1, **more)
                self.assertEqual(done.parts, 1)
                self.assertEqual([str(it) for it in done.late], ["line 4: 9 gates from here on are left as they were read: so long"])
                self.assertEqual((done.before, done.after), (Counts(3, 3), Counts(3, 3)))
                self.assertTrue(simulator.is_same(text, done.text))

    def test_a_part_that_takes_too_long_goes_through_teleport(self) -> None:
        """Two-qubit gates are those that were read; a window that takes too long even then is left, and told."""
        text = HEAD + "qreg q[2];\n" + "t q[0]; cx q[0],q[1]; t q[1]; cx q[0],q[1]; tdg q[0]; h q[1];\n" * 4
        made, modes = windows.made, []

        def slow(said: str, mode: str, *more: object) -> windows.Written:
            modes.append(mode)
            if mode != "teleport" or len(modes) == 2:
                raise TimeoutError("so long")
            return made(said, mode, *more)

        with mock.patch("zxopt.windows.made", slow), mock.patch("zxopt.parts.RESCUE_GATES", 6):
            done = optimise_parts(text, timeout=1)
        self.assertEqual(modes, ["best"] + ["teleport"] * 4)
        self.assertEqual((done.parts, done.left, [(it.line, it.gates) for it in done.late]), (1, 0, [(4, 6)]))
        self.assertEqual((done.before, done.after), (Counts(12, 8), Counts(3 + 3 * 1, 8)))
        self.assertTrue(simulator.is_same(text, done.text))

    def test_teleport(self) -> None:
        """Phases change alone: T is that of the other modes, and each gate on two qubits stays."""
        text = HEAD + "qreg q[3];\nt q[0]; cx q[0],q[1]; ccx q[0],q[1],q[2]; rx(0.1) q[2]; t q[0]; swap q[0],q[1]; h q[2];"
        done, plain = self.parts(text[len(HEAD) :], teleport=True), self.parts(text[len(HEAD) :], best=False)
        self.assertEqual((done.before, done.after.two_qubit), (Counts(9, 10), 10))
        self.assertEqual((plain.before, plain.after.t), (done.before, done.after.t))
        self.assertLess(done.after.t, 9)
        self.assertEqual(done.text.count("cx ") + done.text.count("cz "), 10)
        self.assertTrue(simulator.is_same(text, done.text))


class Limits(unittest.TestCase):
    """More calls, qubits and bytes than the program takes at once."""

    def test_calls(self) -> None:
        gates = "gate g0 a { U(0,0,pi/4) a; }\n" + "".join(f"gate g{n} a {{ {f'g{n - 1} a; ' * 16}}}\n" for n in range(1, 5))
        text = HEAD + gates + "qreg q[1];\n" + "g4 q[0];\n" * 8
        done = optimise_parts(text, best=False)
        self.assertEqual((done.parts, done.kept, done.before.t, done.after.t), (2, 0, 8 * 16**4, 0))
        self.assertTrue(done.text.endswith("qreg q[1];\n"), done.text)

    def test_a_gate_of_too_many_calls_stays(self) -> None:
        gates = "gate g0 a { U(0,0,pi) a; }\n" + "".join(f"gate g{n} a {{ {f'g{n - 1} a; ' * 16}}}\n" for n in range(1, 6))
        done = optimise_parts(HEAD + gates + "qreg q[1]; h q[0]; g5 q[0]; h q[0];")
        self.assertEqual((done.parts, done.kept), (2, 1))

    def test_qubits(self) -> None:
        text = HEAD + "qreg q[3000];\n" + "".join(f"h q[{at}]; t q[{at}]; t q[{at}];\n" for at in range(3000))
        done = optimise_parts(text, best=False)
        self.assertEqual((done.parts, done.kept, done.after.t), (3, 0, 0))

    def test_parts_follow_qubits(self) -> None:
        """Each qubit has a T and its inverse, 1,100 gates apart, which meet on the qubit."""
        text = HEAD + "qreg q[1100];\n" + "".join(f"{gate} q[{at}];\n" for gate in ("t", "s", "tdg") for at in range(1100))
        done = optimise_parts(text, best=False)
        self.assertEqual((done.parts, done.before.t, done.after.t), (2, 2200, 0))

    def test_gates(self) -> None:
        """Windows of so many gates, by what was in one part else."""
        text = HEAD + "qreg q[2];\n" + "t q[0]; cx q[0],q[1]; h q[1];\n" * 8
        found = [optimise_parts(text, teleport=True, gates=gates) for gates in (24, 12, 6, 3)]
        self.assertEqual([it.parts for it in found], [1, 2, 4, 8])
        # of the eight T on the control, which commute with all else, pairs become an S
        self.assertEqual([it.after.t for it in found], [0, 0, 0, 8])

    def test_windows_of_drawn_texts(self) -> None:
        for seed in range(2000, 2060):
            text, gates = Drawn(seed).text(), 3 + seed % 7
            done = optimise_parts(text, best=seed % 3 == 0, teleport=seed % 3 == 1, gates=gates)
            with self.subTest(seed=seed):
                self.assertTrue(simulator.is_same(text, done.text, seed=seed), f"{text}\n{done.text}")
                self.assertLessEqual(done.after, done.before)

    def test_bytes(self) -> None:
        name = "g" * 60_000
        text = HEAD + f"gate {name} a {{ t a; }}\nqreg q[1];\n" + f"{name} q[0];\n" * 300
        done = optimise_parts(text, best=False)
        self.assertGreater(len(text), 16 << 20)
        self.assertEqual((done.parts, done.after.t), (2, 0))


class Time(unittest.TestCase):
    """Time is linear. The bounds leave room for a machine that does other work."""

    def test_two_hundred_stays(self) -> None:
        draw = random.Random(5)
        lines = []
        for at in range(10_000):
            some = draw.sample(range(50), 2)
            kind = draw.choice(["h", "t", "s", "tdg", "cz", "cx"])
            lines.append(f"{kind} q[{some[0]}]{f',q[{some[1]}]' if kind[0] == 'c' else ''};")
            if at % 50 == 0:
                lines.append(f"rz(0.123) q[{draw.randrange(50)}];")
        begin = time.process_time()
        done = optimise_parts(HEAD + "qreg q[50];\n" + "\n".join(lines), best=False)
        self.assertLess(time.process_time() - begin, 2)
        self.assertEqual(done.kept, 200)
        self.assertLess(done.parts, 100)

    def test_many_lines(self) -> None:
        draw = random.Random(6)
        lines = [f"cx q[{a}],q[{b}];" for a, b in (draw.sample(range(1000), 2) for _ in range(99_000))]
        lines += [f"rz({draw.random():.9f}) q[{draw.randrange(1000)}];" for _ in range(1000)]
        begin = time.process_time()
        nothing = windows.Written([], windows.NO_GATES, windows.NO_GATES)
        with mock.patch("zxopt.windows.made", return_value=nothing):
            optimise_parts(HEAD + "qreg q[1000];\n" + "\n".join(lines))
        self.assertLess(time.process_time() - begin, 6)


class Command(unittest.TestCase):
    """The command `parts`."""

    def test_a_file(self) -> None:
        with tempfile.TemporaryDirectory() as folder:
            file = os.path.join(folder, "a.qasm")
            Path(file).write_text(HEAD + "qreg q[1]; t q[0]; t q[0]; rx(0.1) q[0];")
            out = io.TextIOWrapper(io.BytesIO(), encoding="utf-8")
            with redirect_stdout(out), redirect_stderr(io.StringIO()) as said:
                status = parts.main(["--best", "--jobs", "2", file])
            self.assertEqual(status, 0)
            self.assertEqual(out.buffer.getvalue().decode(), HEAD + "qreg q[1];\ns q[0];\nrx(0.1) q[0];\n")  # type: ignore[attr-defined]
            self.assertIn("1 parts, 1 statements stay; T 2 before, 0 after", said.getvalue())

    def test_rounded_angles(self) -> None:
        """They stay, and that is told, unless a distance is given."""
        with tempfile.TemporaryDirectory() as folder:
            file, target = os.path.join(folder, "a.qasm"), Path(folder, "b.qasm")
            Path(file).write_text(HEAD + "qreg q[1]; rz(0.7853981633974483) q[0]; rz(0.7853981633974483) q[0];")
            for words, body, told in (
                ([], "rz(0.7853981633974483) q[0];\n" * 2, "parts: 2 angles lie within 1e-9 of a multiple of pi/8: --within 1e-9 takes"),
                (["--within", "1e-9"], "s q[0];\n", "T 2 before, 0 after"),
            ):
                with redirect_stderr(io.StringIO()) as said:
                    self.assertEqual(parts.main([file, "--to", str(target), *words]), 0)
                self.assertEqual(target.read_text(), HEAD + "qreg q[1];\n" + body)
                self.assertIn(told, said.getvalue())
                self.assertEqual("angles lie" in said.getvalue(), not words)

    def test_what_can_not_be_cut(self) -> None:
        with tempfile.TemporaryDirectory() as folder:
            file = os.path.join(folder, "a.qasm")
            Path(file).write_text(HEAD + "qreg q[1];\nh q[3];")
            with redirect_stderr(io.StringIO()) as said:
                self.assertEqual(parts.main([file]), 1)
            self.assertEqual(said.getvalue(), f"{file}:4: q has no place 3\n")


if __name__ == "__main__":
    unittest.main()
