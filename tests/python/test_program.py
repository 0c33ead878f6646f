"""Tests of the program's commands as functions, and of what happens where the program fails."""
from __future__ import annotations

import os
import re
import shutil
import time
import unittest
from concurrent.futures import ThreadPoolExecutor
from pathlib import Path
from unittest import mock

from support import HEAD, InRoom, absolute_program, example

import zxopt
from zxopt import program
from zxopt.commands import Scalar

TWO_T = HEAD + "qreg q[1];\ns q[0];\n"
APART = "zxd 1\nspider 0 Z 0\nspider 1 Z 0\ninput 0 plain\noutput 1 plain\nend\n"


class Commands(unittest.TestCase):
    """Each function on texts whose results the README tells."""

    def test_optimise(self) -> None:
        self.assertEqual(zxopt.optimise(example("two_t.qasm")), TWO_T)
        self.assertEqual(zxopt.optimise(example("two_t.qasm").encode(), best=False), TWO_T)

    def test_optimise_with_comments(self) -> None:
        written = zxopt.optimise(example("two_t.qasm"), False, report=True, scalar=True)
        self.assertTrue(written.startswith(TWO_T + "// read gates 2 odd 2 two-qubit 0 h 0 "))
        self.assertTrue(written.endswith("\n// scalar root2 2 turn 0\n"))

    def test_counts(self) -> None:
        counts = zxopt.counts(example("barenco_tof_3.qasm"), best=False)
        self.assertEqual(counts.read, zxopt.GateCounts(60, 28, 24, 8, 28, 0, 24, 0))
        # as many as stand in the text; the field publishes that 16 of the phases are odd
        text = zxopt.optimise(example("barenco_tof_3.qasm"), best=False)
        names = re.findall(r"^(?!qreg)([a-z]\w*)(?:\(.*\))? q\[", text, re.MULTILINE)
        h, cz, cx, x = (names.count(name) for name in ("h", "cz", "cx", "x"))
        phase = len(names) - h - cz - cx - x
        self.assertEqual(counts.written, zxopt.GateCounts(len(names), 16, cz + cx, h, phase, cz, cx, x))

    def test_counts_of_the_best(self) -> None:
        # no more than the field publishes
        rows = [("tof_3", 21, 15, 13), ("tof_4", 35, 23, 18), ("barenco_tof_3", 28, 16, 13), ("adder", 28, 16, 24)]
        for name, read, written, most_two_qubit in rows:
            with self.subTest(name=name):
                counts = zxopt.counts(example(f"{name}.qasm"))
                self.assertEqual(counts.read.odd, read)
                self.assertLessEqual(counts.written.odd, written)
                self.assertLessEqual(counts.written.two_qubit, most_two_qubit)

    def test_optimise_counted(self) -> None:
        made = zxopt.optimise_counted(example("across_cx.qasm"))
        self.assertEqual(made.text, HEAD + "qreg q[2];\ncx q[0],q[1];\ns q[0];\n")
        self.assertEqual((made.counts.read.odd, made.counts.written.odd, made.counts.written.gates), (2, 0, 2))
        self.assertEqual(zxopt.optimise_counted(example("two_t.qasm")).scalar, Scalar(2, 0))

    def test_scalar_as_a_number(self) -> None:
        self.assertAlmostEqual(abs(complex(Scalar(3, 5))), 2**1.5)
        self.assertAlmostEqual(complex(Scalar(0, 4)), 1j)

    def test_nothing_left(self) -> None:
        self.assertEqual(zxopt.optimise_counted(example("nothing_left.qasm")).text, HEAD + "qreg q[1];\n")

    def test_teleport(self) -> None:
        self.assertEqual(zxopt.teleport(example("across_cx.qasm")), HEAD + "qreg q[2];\ns q[0];\ncx q[0],q[1];\n")

    def test_compile_diagram(self) -> None:
        self.assertEqual(zxopt.compile_diagram(example("diagram.zxd")), HEAD + "qreg q[1];\nt q[0];\n")

    def test_compile_without_flow(self) -> None:
        with self.assertRaises(zxopt.NoFlow) as caught:
            zxopt.compile_diagram(APART)
        self.assertEqual(caught.exception.vertices, (0,))
        self.assertIn("no flow", str(caught.exception))

    def test_compile_not_square(self) -> None:
        with self.assertRaises(zxopt.Refused) as caught:
            zxopt.compile_diagram("zxd 1\nspider 0 Z 0\ninput 0 plain\nend\n")
        self.assertEqual((caught.exception.name, caught.exception.place), ("NotSquare", None))

    def test_graphs(self) -> None:
        self.assertTrue(zxopt.flow(example("path.zxg")))
        check = zxopt.flow(example("no_flow.zxg"))
        self.assertEqual((bool(check), check.vertex, check.condition, str(check)), (False, 0, "XY", "fails 0 XY"))
        self.assertTrue(zxopt.flow(zxopt.reduce(example("path.zxg"))))
        with self.assertRaises(zxopt.FlowFails) as caught:
            zxopt.reduce(example("no_flow.zxg"))
        self.assertEqual(caught.exception.check, check)
        self.assertEqual(zxopt.graph(example("diagram.zxd")), zxopt.run(["graph"], example("diagram.zxd"))[0])
        self.assertEqual(zxopt.compile(example("diagram.zxd")), zxopt.compile_diagram(example("diagram.zxd")))

    def test_run_answers_no(self) -> None:
        self.assertEqual(zxopt.run(["flow"], example("no_flow.zxg")), ("fails 0 XY\n", 6))
        self.assertEqual(zxopt.run(["flow"], example("path.zxg")), ("flow\n", 0))

    def test_worked_rows(self) -> None:
        """Two T are S; eight are nothing; a T across a CX's control meets another."""
        for body, odd in (("t q[0]; " * 8, 0), ("t q[0]; h q[0]; t q[0];", 2), ("t q[0]; cx q[0],q[1]; tdg q[0];", 0)):
            self.assertEqual(zxopt.counts(f"{HEAD}qreg q[2]; {body}").written.odd, odd)


class Same(unittest.TestCase):
    def test_yes_and_no(self) -> None:
        text = example("tof_3.qasm")
        self.assertTrue(zxopt.same(text, zxopt.optimise(text)))

    def test_kinds_of_no(self) -> None:
        measured = HEAD + "qreg q[1]; creg c[1]; measure q[0] -> c[0];"
        for one, other, kind, said in (
            (example("two_t.qasm"), HEAD + "qreg q[1]; s q[0];", "same", "same"),
            (example("two_t.qasm"), example("three_t.qasm"), "not shown", "not shown 1"),
            (example("tof_3.qasm"), example("tof_4.qasm"), "widths", "widths 5 7"),
            (measured, HEAD + "qreg q[1];", "measures", "measures differ"),
        ):
            with self.subTest(kind=kind):
                found = zxopt.same(one, other)
                self.assertEqual((found.kind, bool(found), str(found)), (kind, kind == "same", said))
        self.assertEqual((zxopt.same(example("tof_3.qasm"), example("tof_4.qasm")).widths, found.left), ((5, 7), None))
        self.assertEqual(zxopt.same(example("two_t.qasm"), example("three_t.qasm")).left, 1)

    def test_without_a_last_line_end(self) -> None:
        one, other = HEAD + "qreg q[1]; s q[0];", HEAD + "qreg q[1]; t q[0]; t q[0]; // here"
        self.assertTrue(zxopt.same(one, other))
        self.assertTrue(zxopt.same(other.encode(), one))

    def test_parting_lines_in_texts(self) -> None:
        plain = HEAD + "qreg q[1];"
        for text in (plain + "\n//// second\n", plain + "\n//// second", "//// second\n" + plain):
            for pair in ((text, plain), (plain, text)):
                with self.assertRaises(ValueError) as caught:
                    zxopt.same(*pair)
                self.assertNotIsInstance(caught.exception, zxopt.Refused)
        self.assertTrue(zxopt.same(plain + "\n//// second one\n", plain + "\n ////// second\n"))

    def test_which_is_refused(self) -> None:
        good, bad = HEAD + "qreg q[1];", HEAD + "qreg q[1];\n x r;\n"
        for which, pair in ((1, (bad, good)), (2, (good, bad))):
            with self.assertRaises(zxopt.Refused) as caught:
                zxopt.same(*pair)
            refused = caught.exception
            self.assertEqual((refused.which, refused.line, refused.column, refused.number), (which, 4, 2, 10))
            self.assertEqual(refused.place, bad.index("x r"))
            self.assertTrue(str(refused).startswith(("first:4:2: ", "second:4:2: ")[which - 1]))

    def test_fault_without_a_place(self) -> None:
        with self.assertRaises(zxopt.Refused) as caught:
            zxopt.same(HEAD, "qreg q[1];")
        self.assertEqual((caught.exception.number, caught.exception.which), (4, None))


class Failures(InRoom):
    def test_missing(self) -> None:
        for named in ("/nowhere/zxopt", "zxopt-that-is-nowhere", str(self.room)):
            with self.subTest(named=named), self.assertRaises(OSError):
                zxopt.optimise(TWO_T, program=named)

    def test_not_executable(self) -> None:
        with self.assertRaises(PermissionError):
            zxopt.optimise(TWO_T, program=self.write("plain", "no program"))

    def test_killed(self) -> None:
        with self.assertRaises(OSError) as caught:
            zxopt.optimise(TWO_T, program=self.stand_in("kill -KILL $$"))
        self.assertNotIsInstance(caught.exception, TimeoutError)
        self.assertIn("SIGKILL", str(caught.exception))

    def test_no_memory(self) -> None:
        with self.assertRaises(MemoryError) as caught:
            zxopt.optimise(TWO_T, program=self.stand_in("cat >/dev/null; echo 'zxopt: no memory' >&2; exit 5"))
        self.assertEqual(str(caught.exception), "zxopt: no memory")

    def test_little_memory(self) -> None:
        real = absolute_program()["ZXOPT"]
        little = self.stand_in(f'ulimit -v 20000; exec "{real}" "$@"')
        self.assertEqual(zxopt.optimise(TWO_T, program=little), TWO_T)
        with self.assertRaises(MemoryError):
            zxopt.optimise(HEAD + "qreg q[100];" + "cz q[0],q[1];t q;h q;" * 500, False, program=little)

    def test_other_statuses(self) -> None:
        for status in (2, 3, 4, 7, 70, 1):
            said = self.stand_in(f"cat >/dev/null; echo 'some text'; echo 'zxopt: odd' >&2; exit {status}")
            with self.subTest(status=status), self.assertRaises(OSError) as caught:
                zxopt.optimise(TWO_T, program=said)
            self.assertIn(f"ended with status {status}: zxopt: odd", str(caught.exception))

    def test_wrong_words(self) -> None:
        with self.assertRaises(OSError) as caught:
            zxopt.run(["optimise"], TWO_T)
        self.assertIn("usage", str(caught.exception))

    def test_timeout(self) -> None:
        slow = self.stand_in('echo $$ >"$0.pid"; exec sleep 60')
        began = time.monotonic()
        with self.assertRaises(TimeoutError) as caught:
            zxopt.optimise(TWO_T, timeout=0.5, program=slow)
        for none in (0, -1, float("nan")):
            with self.assertRaises(ValueError):
                zxopt.optimise(TWO_T, timeout=none)
        self.assertEqual(zxopt.optimise(TWO_T, timeout=1e300), TWO_T)
        self.assertLess(time.monotonic() - began, 45)
        self.assertIn("longer than 0.5 seconds", str(caught.exception))
        self.assertFalse(Path("/proc", Path(slow + ".pid").read_text().strip()).exists())

    def test_reports_that_are_none(self) -> None:
        odd = self.stand_in("cat >/dev/null; printf 'a\\nb\\nc\\nd\\n'")
        for program in (odd, "/bin/true"):
            for function in (zxopt.counts, zxopt.optimise_counted, lambda it, program: zxopt.same(it, it, program=program), zxopt.flow):
                with self.assertRaises(OSError):
                    function(TWO_T, program=program)

    def test_reads_nothing(self) -> None:
        """A program that doesn't read its input, of more than a pipe holds, is heard all the same."""
        with self.assertRaises(MemoryError):
            zxopt.optimise("x" * 1_000_000, program=self.stand_in("exit 5"))

    def test_no_shell(self) -> None:
        spaced = self.stand_in(f'exec "{absolute_program()["ZXOPT"]}" "$@"', "a name; exit 3")
        self.assertEqual(zxopt.optimise(TWO_T, program=spaced), TWO_T)


class Texts(unittest.TestCase):
    def test_unicode(self) -> None:
        self.assertEqual(zxopt.optimise(HEAD + "// Größe, 量子, \U0001f600\nqreg q[1]; s q[0];"), TWO_T)
        with self.assertRaises(zxopt.Refused) as caught:
            zxopt.optimise(HEAD + "/**/ // 量子\n")
        self.assertEqual(caught.exception.excerpt, "/**/ // 量子")

    def test_no_utf8(self) -> None:
        with self.assertRaises(ValueError):
            zxopt.optimise(HEAD + "// \ud800\n")
        self.assertEqual(zxopt.optimise((HEAD + "// ").encode() + b"\xff\xfe\n"), HEAD)

    def test_sixteen_mebibytes(self) -> None:
        most = 16_777_216
        body = HEAD + "qreg q[1]; s q[0];\n"
        text = body + ("//" + "x" * 997 + "\n") * ((most - len(body)) // 1000)
        text += " " * (most - len(text))
        self.assertEqual(len(text), most)
        self.assertEqual(zxopt.optimise(text), TWO_T)
        with self.assertRaises(zxopt.Refused) as caught:
            zxopt.optimise(text + " ")
        self.assertEqual((caught.exception.number, caught.exception.place), (1, None))


class Threads(unittest.TestCase):
    def test_side_by_side(self) -> None:
        names = ["two_t", "across_cx", "tof_3", "measured", "refused", "nothing_left"] * 8
        alone = {name: self.made(name) for name in set(names)}
        with ThreadPoolExecutor(8) as pool:
            for name, made in zip(names, pool.map(self.made, names)):
                self.assertEqual(made, alone[name])

    @staticmethod
    def made(name: str) -> str:
        try:
            return zxopt.optimise(example(f"{name}.qasm"), False)
        except zxopt.Refused as refused:
            return str(refused)


class Finding(InRoom):
    """Which program is taken, in a clone that has only what a test puts there."""

    def setUp(self) -> None:
        super().setUp()
        self.real = absolute_program()["ZXOPT"]
        self.package = self.room / "clone" / "python" / "zxopt" / "program.py"
        self.package.parent.mkdir(parents=True)
        (self.room / "path").mkdir()
        for patch in (
            mock.patch.object(program, "__file__", str(self.package)),
            mock.patch.dict(os.environ, {"PATH": str(self.room / "path"), "ZXOPT_LIBRARY": ""}),
        ):
            patch.start()
            self.addCleanup(patch.stop)
        os.environ.pop("ZXOPT", None)

    def put(self, name: str, status: int = 2) -> None:
        self.write(name, f"#!/bin/sh\nexit {status}\n").chmod(0o755)

    def put_binary(self, name: str) -> None:
        (self.room / name).parent.mkdir(parents=True, exist_ok=True)
        shutil.copy(self.real, self.room / name)

    def found(self) -> str:
        return os.path.relpath(Path(zxopt.find_program()).resolve(), self.room.resolve())

    def test_none(self) -> None:
        with self.assertRaises(FileNotFoundError):
            zxopt.find_program()

    def test_order(self) -> None:
        self.put("clone/out/zxopt")
        with self.assertRaises(FileNotFoundError):
            zxopt.find_program()  # no clone of the repository
        self.write("clone/crates.txt", "")
        self.put("clone/zxopt")
        (self.room / "clone/out/zxopt").unlink()
        self.assertEqual(self.found(), "clone/zxopt")
        self.put_binary("path/zxopt")
        self.assertEqual(self.found(), "path/zxopt")
        with mock.patch.object(program.resources, "files", lambda _: self.room / "installed"):
            self.put("installed/bin/zxopt")
            self.assertEqual(self.found(), "installed/bin/zxopt")
            for name in ("clone/dist/zxopt-static", "clone/dist/zxopt", "clone/out/zxopt"):
                self.put(name)
                self.assertEqual(self.found(), name)
            os.environ["ZXOPT"] = "named"
            self.assertEqual(zxopt.find_program(), "named")
            os.environ["ZXOPT"] = ""
            self.assertEqual(self.found(), "clone/out/zxopt")

    def test_programs_that_are_not_loaded(self) -> None:
        """A loader that fails has the status 1 or 127."""
        self.write("clone/crates.txt", "")
        self.put("clone/out/zxopt", 127)
        self.put("clone/dist/zxopt", 1)
        self.put("clone/dist/zxopt-static")
        self.assertEqual(self.found(), "clone/dist/zxopt-static")

    def test_scripts_on_the_path(self) -> None:
        """No script is taken for the program, as the command is one that pip installs, and none is started."""
        self.write("path/zxopt", f"#!/bin/sh\necho started >>'{self.room}/log'\nexit 2\n").chmod(0o755)
        with self.assertRaises(FileNotFoundError):
            zxopt.optimise("x")
        (self.room / "later").mkdir()
        self.put_binary("later/zxopt")
        os.environ["PATH"] += os.pathsep + str(self.room / "later")
        self.assertEqual(self.found(), "later/zxopt")
        self.assertFalse((self.room / "log").exists())

    def test_that_cannot_be_run_where_it_lies(self) -> None:
        """Such a program is copied once."""
        with mock.patch.object(program.resources, "files", lambda _: self.room / "installed"):
            self.put_binary("installed/bin/zxopt")
            (self.room / "installed/bin/zxopt").chmod(0o644)
            first = zxopt.find_program()
            self.assertEqual(zxopt.find_program(), first)
            self.assertEqual(zxopt.optimise(example("two_t.qasm")), TWO_T)

    def test_named_on_the_path(self) -> None:
        self.stand_in("/bin/cat >/dev/null; echo made", "path/my-zxopt")
        (self.room / "path/my-zxopt").write_text("#!/bin/bash\n/bin/cat >/dev/null\necho made\n", encoding="utf-8")
        os.environ["ZXOPT"] = "my-zxopt"
        self.assertEqual(zxopt.optimise("x"), "made\n")


class Identity(InRoom):
    def test_version(self) -> None:
        """The sum is that of the file, as `sha256sum` tells it of these bytes (FIPS 180-2, the message `abc`)."""
        (self.room / "abc").write_bytes(b"abc")
        (self.room / "abc").chmod(0o755)
        told = zxopt.version(self.room / "abc")
        self.assertEqual((told.package, told.program), (zxopt.__version__, str(self.room / "abc")))
        self.assertEqual(told.sha256, "ba7816bf8f01cfea414140de5dae2223b00361a396177a9cb410ff61f20015ad")
        self.assertEqual(zxopt.version().program, os.path.abspath(absolute_program()["ZXOPT"]))
        with self.assertRaises(FileNotFoundError):
            zxopt.version("/nowhere/zxopt")


if __name__ == "__main__":
    unittest.main()
