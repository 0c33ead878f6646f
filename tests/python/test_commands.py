"""Tests of `python3 -m zxopt`: each command on its happy path, and its exit statuses."""
from __future__ import annotations

import inspect
import io
import json
import os
import re
import subprocess
import sys
import unittest
from contextlib import redirect_stderr
from unittest import mock

from support import EXAMPLES, HEAD, PYTHON, TOP, InRoom, absolute_program, example

import zxopt
from zxopt import __main__ as commands
from zxopt import cli
from zxopt.__main__ import main
from zxopt.program import CALLED

BAD = HEAD + "qreg q[1];\nreset q[0];\n"


class Commands(InRoom):
    def writes(self, expected: str, *words: str, text: str = "") -> None:
        ran = self.command(*words, text=text)
        self.assertEqual((ran.stdout, ran.stderr, ran.returncode), (expected, "", 0))

    def test_opt(self) -> None:
        """As the program does it: one circuit, unless the best is asked for."""
        text = example("tof_3.qasm")
        plain, best = zxopt.optimise(text, False), zxopt.optimise(text)
        self.assertNotEqual(plain, best)
        self.writes(plain, "opt", str(EXAMPLES / "tof_3.qasm"))
        self.writes(best, "opt", "--best", str(EXAMPLES / "tof_3.qasm"))
        with_comments = zxopt.optimise(text, False, report=True, scalar=True)
        self.writes(with_comments, "opt", "--no-best", "--report", "--scalar", text=text)
        self.writes(best, "opt", "-", "--seconds", "60", "--best", text=text)

    def test_opt_to_a_file(self) -> None:
        self.writes("", "opt", "--to", "written.qasm", text=example("two_t.qasm"))
        self.assertEqual((self.room / "written.qasm").read_text(), HEAD + "qreg q[1];\ns q[0];\n")
        self.assertEqual(os.listdir(self.room), ["written.qasm"])

    def test_opt_with_too_little_time(self) -> None:
        real = absolute_program()["ZXOPT"]
        slow = self.stand_in(f'case " $* " in *" --best "*) exec sleep 60 ;; esac; exec "{real}" "$@"')
        text = example("tof_3.qasm")
        ran = self.command("opt", "--best", "--seconds", "4", "--report", text=text, env={"ZXOPT": slow})
        read = zxopt.optimise(text, False, report=True).splitlines()[-2]
        self.assertEqual((ran.returncode, "".join(ran.stdout.splitlines(True)[:-2])), (0, zxopt.teleport(text)))
        self.assertEqual(ran.stdout.splitlines()[-2], read)
        self.assertRegex(ran.stdout.splitlines()[-1], "^// written gates [0-9]+ odd 15 two-qubit 18 h [0-9]+ phase")
        self.assertIn("took longer than 4 seconds; teleport in windows", ran.stderr)
        ran = self.command("opt", "--best", "--seconds", "1", "--scalar", text=text, env={"ZXOPT": slow})
        self.assertEqual((ran.returncode, ran.stdout), (70, ""))

    def test_teleport(self) -> None:
        self.writes(HEAD + "qreg q[2];\ns q[0];\ncx q[0],q[1];\n", "teleport", str(EXAMPLES / "across_cx.qasm"))

    def test_same(self) -> None:
        one, other = str(EXAMPLES / "two_t.qasm"), str(EXAMPLES / "three_t.qasm")
        self.writes("same\n", "same", one, "-", text=HEAD + "qreg q[1]; s q[0];")
        for other, said in ((other, "not shown 1\n"), (str(EXAMPLES / "across_cx.qasm"), "widths 1 2\n")):
            ran = self.command("same", one, other)
            self.assertEqual((ran.returncode, ran.stdout), (6, said))

    def test_counts(self) -> None:
        """The best of several, unless one alone is asked for."""
        ran = self.command("counts", str(EXAMPLES / "tof_3.qasm"))
        told = json.loads(ran.stdout)
        self.assertEqual((told["read"]["odd"], told["written"]["odd"]), (21, 15))
        self.assertLessEqual(told["written"]["two_qubit"], 13)
        told = json.loads(self.command("counts", "--no-best", str(EXAMPLES / "tof_3.qasm")).stdout)
        self.assertEqual(told["written"]["two_qubit"], 18)

    def test_both_words_everywhere(self) -> None:
        for words in (["opt"], ["counts"], ["parts"], ["batch", str(EXAMPLES / "two_t.qasm"), "--to", "out"]):
            for flag in ("--best", "--no-best"):
                ran = self.command(*words, flag, text=example("two_t.qasm"))
                self.assertEqual(ran.returncode, 0, ran.stderr)

    def test_the_table_of_readme(self) -> None:
        """Where the best of several is taken, as the package's README has it."""
        text = (TOP / "python/README.md").read_text(encoding="utf-8")
        rows = re.findall(r"^\| (.*`opt`.*|.*`batch`.*) \| (where|unless) .* \|$", text, re.MULTILINE)
        told = {(name, kind == "unless") for said, kind in rows for name in re.findall(r"`([a-z.]+)`", said)}
        best = {(name, commands.parser_of(name).get_default("best")) for name in ("opt", "counts", "parts", "batch")}
        functions = {"zxopt.optimise": zxopt.optimise, "counts": zxopt.counts}
        best |= {(name, inspect.signature(it).parameters["best"].default) for name, it in functions.items()}
        self.assertEqual(told, best)
        self.assertTrue(inspect.signature(zxopt.optimise_counted).parameters["best"].default)

    def test_reading_from_a_terminal(self) -> None:
        data = example("two_t.qasm").encode()
        for is_terminal in (True, False):
            stdin = mock.Mock(isatty=lambda: is_terminal, buffer=io.BytesIO(data))
            with mock.patch.object(sys, "stdin", stdin), redirect_stderr(io.StringIO()) as said:
                self.assertEqual(cli.read_text(None), data)
            self.assertEqual("read from this terminal" in said.getvalue(), is_terminal)

    def test_parts_take_the_best(self) -> None:
        file = str(EXAMPLES / "tof_3.qasm")
        for words, holds in (([], lambda after: after <= 13), (["--no-best"], lambda after: after == 18)):
            told = self.command("parts", file, *words).stderr
            found = re.search(r"gates on two qubits 18 before, (\d+) after", told)
            self.assertTrue(found and holds(int(found[1])), told)

    def test_measures(self) -> None:
        odd = self.write("odd.qasm", HEAD + "qreg q[2]; t q[0]; cx q[0],q[1]; rz(0.785398163397) q[1]; h q[1],q[2];")
        good = self.write("good.qasm", odd.read_text().replace("h q[1],q[2];", "rz(0.3) q[1];"))
        ran = self.command("measures", "odd.qasm", "good.qasm")
        said = "good.qasm: qubits 2, T 1, T-depth 1, two-qubit 1, gates 4, depth 4, other angles 2\n"
        self.assertEqual((ran.returncode, ran.stdout), (1, said))
        told = "1 angle lies within 1e-9 of a multiple of pi/8: --within 1e-9 takes it for that"
        self.assertEqual(ran.stderr.splitlines(), ["odd.qasm:3: h takes 1 qubits", f"good.qasm: {told}"])
        self.writes(
            "file,qubits,gates,t_count,t_depth,depth,two_qubit,other_angles,opaque\ngood.qasm,2,4,2,2,4,1,1,0\n",
            "measures", "--csv", "--within", "1e-9", good.name,
        )
        self.writes("-: qubits 1, T 2, T-depth 2, two-qubit 0, gates 2, depth 2\n", "measures", "-", text=example("two_t.qasm"))

    def test_graphs(self) -> None:
        self.writes("flow\n", "flow", str(EXAMPLES / "path.zxg"))
        ran = self.command("flow", text=example("no_flow.zxg"))
        self.assertEqual((ran.returncode, ran.stdout), (6, "fails 0 XY\n"))
        ran = self.command("reduce", text=example("no_flow.zxg"))
        self.assertEqual((ran.returncode, ran.stdout), (6, ""))
        self.assertIn("the condition XY fails at the vertex 0", ran.stderr)
        self.writes("", "reduce", str(EXAMPLES / "path.zxg"), "--to", "reduced.zxg")
        self.assertTrue((self.room / "reduced.zxg").read_text().startswith("zxg 2\nvertex 0 XY 12\n"))
        self.writes(zxopt.graph(example("diagram.zxd")), "graph", text=example("diagram.zxd"))

    def test_compile(self) -> None:
        self.writes(HEAD + "qreg q[1];\nt q[0];\n", "compile", str(EXAMPLES / "diagram.zxd"))
        apart = "zxd 1\nspider 0 Z 0\nspider 1 Z 0\ninput 0 plain\noutput 1 plain\nend\n"
        ran = self.command("compile", text=apart)
        self.assertEqual((ran.returncode, ran.stdout), (6, ""))
        self.assertIn("no flow; left are the vertices 0", ran.stderr)

    def test_help(self) -> None:
        ran = self.command("--help")
        self.assertEqual((ran.returncode, ran.stderr), (0, ""))
        self.assertIn("stands outside of the proved program", ran.stdout)
        self.assertIn("< FILE", ran.stdout)
        for word in ("-h", "help"):
            self.assertEqual(self.command(word).stdout, ran.stdout)
        without = self.command()
        self.assertEqual((without.returncode, without.stdout, without.stderr), (2, "", ran.stdout))
        commands = "opt teleport same counts measures spell prepare parts batch stream compile graph flow reduce".split()
        for command in commands:
            self.assertIn(f"\n  {command} ", ran.stdout)
            self.assertIn("usage: python3 -m zxopt " + command, self.command(command, "--help").stdout)


    def test_version(self) -> None:
        told = zxopt.version()
        self.writes(f"zxopt {zxopt.__version__}\nprogram {told.program}\nsha256 {told.sha256}\nlibrary none\n", "--version")
        ran = self.command("--version", env={"ZXOPT": "/nowhere/zxopt"})
        self.assertEqual((ran.returncode, ran.stdout), (70, ""))

    def test_not_as_the_program(self) -> None:
        """A process that is started as the program refuses to look for it."""
        ran = self.command("opt", text=example("two_t.qasm"), env={CALLED: "1"})
        self.assertEqual((ran.returncode, ran.stdout), (70, ""))

    def test_terminal(self) -> None:
        """Who sits before a terminal is told that it is read."""
        try:
            main, other = os.openpty()
        except OSError as none:
            self.skipTest(f"no terminal can be made: {none}")
        os.write(main, example("two_t.qasm").encode() + b"\x04")
        env = {**os.environ, "PYTHONPATH": str(PYTHON), **absolute_program()}
        command = [sys.executable, "-m", "zxopt", "opt"]
        ran = subprocess.run(command, stdin=other, stdout=subprocess.PIPE, stderr=subprocess.PIPE, env=env, timeout=60)
        os.close(main), os.close(other)
        self.assertIn(b"read from this terminal", ran.stderr)
        self.assertEqual(ran.stdout.decode(), HEAD + "qreg q[1];\ns q[0];\n")


class Statuses(InRoom):
    def test_refused(self) -> None:
        ran = self.command("opt", str(self.write("bad.qasm", BAD)))
        self.assertEqual((ran.returncode, ran.stdout), (1, ""))
        self.assertTrue(ran.stderr.startswith(f"{self.room}/bad.qasm:4:1: reset, if, opaque"))
        self.assertEqual(ran.stderr.splitlines()[-1], f"hint: {zxopt.FAULTS[6].remedy}")
        ran = self.command("teleport", text=BAD)
        self.assertEqual((ran.returncode, ran.stderr[:20]), (1, "zxopt teleport: 4:1:"))

    def test_words(self) -> None:
        for words in ([], ["optimise"], ["opt", "--worst"], ["same", "one"]):
            self.assertEqual(self.command(*words).returncode, 2, words)

    def test_bad_numbers(self) -> None:
        """Each command refuses them alike, before it reads anything."""
        takes = {"--seconds": ["opt", "teleport", "same", "counts", "compile", "graph", "flow", "reduce", "parts", "batch", "stream"],
                 "--jobs": ["parts", "batch", "stream"], "--gates": ["parts", "stream"], "--within": ["prepare", "parts", "batch", "measures"]}
        bad = {"--seconds": ["0", "-1", "nan", "inf", "soon"], "--jobs": ["0", "-2", "1.5", "all"], "--gates": ["0", "few"],
               "--within": ["-1e-9", "0.2", "nan", "inf", "pi"]}
        more = {"same": ["one", "other"], "batch": ["file", "--to", "out"], "measures": ["file"], "stream": ["file", "--to", "out"]}
        for flag, commands in takes.items():
            for command in commands:
                for number in bad[flag]:
                    with self.subTest(command=command, number=number), redirect_stderr(io.StringIO()) as said:
                        with self.assertRaises(SystemExit) as caught:
                            main([command, f"{flag}={number}", *more.get(command, [])])
                        self.assertEqual(caught.exception.code, 2)
                        self.assertIn(f"argument {flag}: ", said.getvalue())

    def test_no_memory(self) -> None:
        ran = self.command("opt", text=BAD, env={"ZXOPT": self.stand_in("cat >/dev/null; exit 5")})
        self.assertEqual((ran.returncode, ran.stderr), (5, "zxopt: no memory\n"))

    def test_unable(self) -> None:
        for env in ({"ZXOPT": "/nowhere/zxopt"}, {"ZXOPT": self.stand_in("kill -TERM $$")}):
            ran = self.command("opt", text=BAD, env=env)
            self.assertEqual((ran.returncode, ran.stdout), (70, ""))
        self.assertEqual(self.command("opt", "missing.qasm").returncode, 70)

    def test_closed_output(self) -> None:
        command = [sys.executable, "-m", "zxopt", "opt", str(EXAMPLES / "tof_3.qasm")]
        env = {**os.environ, "PYTHONPATH": str(PYTHON), **absolute_program()}
        read, write = os.pipe()
        os.close(read)
        try:
            ran = subprocess.run(command, stdout=write, stderr=subprocess.PIPE, env=env)
        finally:
            os.close(write)
        self.assertEqual((ran.returncode, ran.stderr), (4, b""))

    def test_closed_streams(self) -> None:
        env = {**os.environ, "PYTHONPATH": str(PYTHON), **absolute_program()}
        for closed, status in ((">&-", 4), ("<&-", 70)):
            command = ["bash", "-c", f'"$0" -m zxopt opt {closed}', sys.executable]
            ran = subprocess.run(command, env=env, input=b"", stderr=subprocess.PIPE)
            self.assertEqual(ran.returncode, status, ran.stderr)
            self.assertNotIn(b"Traceback", ran.stderr)


if __name__ == "__main__":
    unittest.main()
