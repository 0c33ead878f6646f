"""Tests of the examples of use, and of the package as it is installed."""
from __future__ import annotations

import importlib.util
import os
import shutil
import subprocess
import sys
import tarfile
import unittest
import zipfile

from support import EXAMPLES, PYTHON, InRoom, absolute_program, example

import zxopt

HERE = EXAMPLES / "python"


class Examples(InRoom):
    def setUp(self) -> None:
        super().setUp()
        for name in ("tof_3", "two_t", "refused"):
            shutil.copy(EXAMPLES / f"{name}.qasm", self.room)

    def called(self, *words: str) -> "subprocess.CompletedProcess[str]":
        env = {**os.environ, **absolute_program()}
        for name in ("MAKEFLAGS", "MFLAGS", "MAKELEVEL"):
            env.pop(name, None)
        return subprocess.run(words, cwd=self.room, env=env, stdout=subprocess.PIPE, stderr=subprocess.PIPE, text=True)

    @unittest.skipUnless(shutil.which("make"), "make isn't installed")
    def test_rule_for_make(self) -> None:
        ran = self.called("make", "-k", "-j2", "-f", str(HERE / "Makefile"))
        self.assertEqual(ran.returncode, 2)
        self.assertIn("fault 6 Unsupported", ran.stderr)
        written = sorted(name for name in os.listdir(self.room) if not name.endswith("s.qasm"))
        made = ["refused.qasm", "tof_3.opt.qasm", "tof_3.qasm", "tof_3.same", "two_t.opt.qasm", "two_t.qasm", "two_t.same"]
        self.assertEqual(written, made)
        self.assertEqual((self.room / "tof_3.same").read_text(), "same\n")
        self.assertEqual((self.room / "tof_3.opt.qasm").read_text(), zxopt.optimise(example("tof_3.qasm")))

    def test_loop_of_the_shell(self) -> None:
        words = (str(HERE / "optimise_each"), "out", "tof_3.qasm", "refused.qasm", "two_t.qasm")
        ran = self.called(*words)
        self.assertEqual((ran.returncode, ran.stderr), (1, "refused.qasm: zxopt: fault 6 Unsupported at 58\n"))
        self.assertEqual(sorted(os.listdir(self.room / "out")), ["tof_3.qasm", "two_t.qasm"])
        self.assertEqual((self.room / "out/tof_3.qasm").read_text(), zxopt.optimise(example("tof_3.qasm")))
        self.assertIn("out/two_t.qasm is there already", self.called(*words).stderr)
        self.assertEqual(self.called(*words[:2]).returncode, 2)

    def test_python_is_well_formed(self) -> None:
        for name in ("qiskit_pass", "pyzx_use"):
            compile((HERE / f"{name}.py").read_text(encoding="utf-8"), name, "exec")

    @unittest.skipUnless(importlib.util.find_spec("pyzx"), "PyZX isn't installed")
    def test_pyzx(self) -> None:
        command = [sys.executable, str(HERE / "pyzx_use.py"), "4", "60", "3"]
        env = {**os.environ, **absolute_program(), "PYTHONPATH": str(PYTHON)}
        ran = subprocess.run(command, env=env, stdout=subprocess.PIPE, text=True, check=True)
        self.assertEqual(ran.stdout.count(": same"), 3)

    @unittest.skipUnless(importlib.util.find_spec("qiskit"), "Qiskit isn't installed")
    def test_qiskit(self) -> None:
        env = {**os.environ, **absolute_program(), "PYTHONPATH": str(PYTHON)}
        command = [sys.executable, str(HERE / "qiskit_pass.py")]
        ran = subprocess.run(command, env=env, stdout=subprocess.PIPE, text=True, check=True)
        self.assertEqual(ran.stdout.count(" says: same"), 2)


class Installed(InRoom):
    @unittest.skipUnless(importlib.util.find_spec("pip"), "pip isn't installed")
    def test_without_a_network(self) -> None:
        source, target = self.room / "python", self.room / "installed"
        shutil.copytree(PYTHON, source, ignore=shutil.ignore_patterns("build", "*.egg-info", "__pycache__"))
        words = "install --quiet --no-index --disable-pip-version-check --target".split()
        made = subprocess.run(
            [sys.executable, "-m", "pip", *words, str(target), str(source)],
            stdout=subprocess.PIPE, stderr=subprocess.STDOUT, text=True, cwd=self.room,
        )
        self.assertEqual(made.returncode, 0, made.stdout)
        here = {file.name for file in (PYTHON / "zxopt").iterdir() if file.is_file()}
        there = {file.name for file in (target / "zxopt").iterdir() if file.is_file()}
        self.assertEqual(here, there)
        ran = self.command("opt", str(EXAMPLES / "two_t.qasm"), env={"PYTHONPATH": str(target)})
        self.assertEqual((ran.returncode, ran.stdout), (0, zxopt.optimise(example("two_t.qasm"))))

    def test_one_version(self) -> None:
        text = (PYTHON / "pyproject.toml").read_text(encoding="utf-8")
        self.assertIn("\ndependencies = []\n", text)
        self.assertIn(f'\nversion = "{zxopt.__version__}"\n', text)

    def test_archive_of_sources(self) -> None:
        source = self.room / "python"
        shutil.copytree(PYTHON, source, ignore=shutil.ignore_patterns("__pycache__"))
        command = "import backend; print(backend.build_sdist('.'), backend.build_editable('.'))"
        made = subprocess.run([sys.executable, "-c", command], cwd=source, stdout=subprocess.PIPE, text=True, check=True)
        archive, wheel = made.stdout.split()
        with tarfile.open(source / archive) as packed:
            names = {name.partition("/")[2] for name in packed.getnames()}
            said = packed.extractfile(next(name for name in packed.getnames() if name.endswith("/PKG-INFO")))
            assert said is not None
            self.assertIn("This archive holds no program", said.read().decode("utf-8"))
        here = {f"zxopt/{file.name}" for file in (PYTHON / "zxopt").iterdir() if file.is_file()}
        self.assertEqual(names, here | {"PKG-INFO", "README.md", "backend.py", "pyproject.toml"})
        with zipfile.ZipFile(source / wheel) as packed:
            self.assertEqual(packed.read("zxopt.pth").decode().strip(), str(source.resolve()))


if __name__ == "__main__":
    unittest.main()
