"""Tests of the wheel where nothing else is: in an active environment of its own, without the clone."""
from __future__ import annotations

import importlib.util
import os
import shutil
import subprocess
import sys
import tempfile
import unittest
import zipfile
from configparser import ConfigParser
from pathlib import Path
from typing import Dict, List

from support import EXAMPLES, HEAD, PYTHON, TOP, absolute_program, example

from zxopt import __version__

TWO_T = HEAD + "qreg q[1];\ns q[0];\n"
RECORD = dict(line.split(" ", 1) for line in (TOP / "dist/RECORD").read_text(encoding="utf-8").splitlines())
Ran = "subprocess.CompletedProcess[bytes]"


@unittest.skipUnless(importlib.util.find_spec("ensurepip"), "an environment with pip can't be made")
class Wheel(unittest.TestCase):
    """The wheel is built once, and installed into an empty environment."""

    room: Path
    wheel: Path
    env: Dict[str, str]

    @classmethod
    def setUpClass(cls) -> None:
        folder = tempfile.TemporaryDirectory()
        cls.addClassCleanup(folder.cleanup)
        cls.room = Path(folder.name).resolve()
        command = "import backend, sys; print(backend.build_wheel(sys.argv[1]))"
        around = {**os.environ, "PYTHONPATH": str(PYTHON), "PYTHONDONTWRITEBYTECODE": "1"}
        words: List[object] = [sys.executable, "-c", command, cls.room]
        made = subprocess.run(list(map(str, words)), env=around, stdout=subprocess.PIPE, text=True, check=True)
        cls.wheel = cls.room / made.stdout.strip()
        subprocess.run([sys.executable, "-m", "venv", cls.room / "venv"], check=True)
        words = "install --quiet --no-index --disable-pip-version-check".split()
        subprocess.run([cls.room / "venv/bin/pip", *words, cls.wheel], check=True)
        cls.env = {"PATH": f"{cls.room}/venv/bin:/usr/bin:/bin", "VIRTUAL_ENV": f"{cls.room}/venv"}

    def run_here(self, *words: object, text: bytes = b"", env: Dict[str, str] = {}) -> Ran:
        command = [str(word) for word in words]
        around = {**self.env, **env}
        return subprocess.run(command, input=text, capture_output=True, cwd=self.room, env=around, timeout=120)

    def zxopt(self, *words: object, text: bytes = b"", env: Dict[str, str] = {}) -> Ran:
        """The command that pip installed."""
        return self.run_here(self.room / "venv/bin/zxopt", *words, text=text, env=env)

    def test_what_it_holds(self) -> None:
        self.assertEqual(self.wheel.name, f"zxopt-{__version__}-py3-none-manylinux2014_x86_64.musllinux_1_1_x86_64.whl")
        with zipfile.ZipFile(self.wheel) as packed:
            entry = packed.getinfo("zxopt/bin/zxopt")
            self.assertEqual(entry.external_attr >> 16, 0o100755)
            self.assertEqual(entry.compress_type, zipfile.ZIP_DEFLATED)
            self.assertEqual(packed.read(entry), (TOP / "dist/zxopt-static").read_bytes())
            library = packed.read("zxopt/lib/libzxopt.so.1")
            self.assertEqual(library, (TOP / "dist/libzxopt.so.1").read_bytes())
            said = packed.read(f"zxopt-{__version__}.dist-info/WHEEL").decode()
            points = ConfigParser()
            points.read_string(packed.read(f"zxopt-{__version__}.dist-info/entry_points.txt").decode())
        self.assertIn("Tag: py3-none-manylinux2014_x86_64\nTag: py3-none-musllinux_1_1_x86_64\n", said)
        self.assertIn("Root-Is-Purelib: false\n", said)
        groups = {name: dict(points[name]) for name in points.sections()}
        stage = {"zxopt": "zxopt.qiskit:ZxOptPlugin"}
        commands = {"zxopt": "zxopt.console:main"}
        self.assertEqual(groups, {"console_scripts": commands, "qiskit.transpiler.optimization": stage})

    def test_words_of_the_program(self) -> None:
        """The same bytes and the same status as the program's own."""
        program = absolute_program()["ZXOPT"]
        two_texts = f"{TWO_T}//// second\n{example('two_t.qasm')}"
        rows = [
            ("opt", example("barenco_tof_3.qasm")), ("opt --best --report", example("tof_3.qasm")),
            ("opt --best --best", example("tof_3.qasm")), ("opt --", example("two_t.qasm")),
            ("opt", example("refused.qasm")), ("teleport", example("across_cx.qasm")), ("same", two_texts),
            ("flow", example("no_flow.zxg")), ("reduce", example("path.zxg")), ("graph", example("diagram.zxd")),
            ("compile", example("diagram.zxd")), ("gen 7 3 50", ""), ("gen", ""), ("gen 1 1 x", ""),
        ]
        for words, text in rows:
            with self.subTest(words=words):
                want = subprocess.run([program, *words.split()], input=text.encode(), capture_output=True)
                ran = self.zxopt(*words.split(), text=text.encode())
                self.assertEqual((ran.stdout, ran.stderr, ran.returncode), (want.stdout, want.stderr, want.returncode))

    def test_closed_pipe(self) -> None:
        """A reader that goes ends the command as it ends the program."""
        (self.room / "large.qasm").write_text(HEAD + "qreg q[1];\n" + "h q[0];\nt q[0];\n" * 40000, encoding="utf-8")
        script = '"$0" opt <large.qasm | head -c 1 >/dev/null; echo "${PIPESTATUS[0]}"'
        ends = {self.run_here("bash", "-c", script, it).stdout for it in (absolute_program()["ZXOPT"], "zxopt")}
        self.assertEqual(len(ends), 1, ends)

    def test_files(self) -> None:
        """What is read from a file is optimised as the same text from standard input is."""
        read = EXAMPLES / "barenco_tof_3.qasm"
        plain, best = (self.zxopt("opt", *it, text=read.read_bytes()).stdout for it in ([], ["--best"]))
        self.assertNotEqual(plain, best)
        self.assertEqual(self.zxopt("opt", read).stdout, plain)
        self.assertEqual(self.zxopt("opt", "--best", read).stdout, best)
        ran = self.zxopt("opt", read, "--to", "written.qasm")
        self.assertEqual((ran.returncode, ran.stdout, (self.room / "written.qasm").read_bytes()), (0, b"", plain))
        self.assertEqual(self.zxopt("flow", EXAMPLES / "path.zxg").stdout, b"flow\n")
        self.assertEqual(self.zxopt("flow", EXAMPLES / "no_flow.zxg").returncode, 6)
        self.assertEqual(self.zxopt("same", EXAMPLES / "two_t.qasm", EXAMPLES / "two_t.qasm").stdout, b"same\n")
        self.assertEqual(self.zxopt("flow", "missing.zxg").returncode, 70)

    def test_batch_and_import(self) -> None:
        python = self.room / "venv/bin/python"
        ran = self.run_here(python, "-m", "zxopt", "batch", EXAMPLES / "two_t.qasm", "--to", "out")
        self.assertEqual((ran.returncode, (self.room / "out/two_t.qasm").read_text()), (0, TWO_T), ran.stderr)
        source = "import sys, zxopt; print(zxopt.optimise(sys.stdin.read()), end='')"
        self.assertEqual(self.run_here(python, "-c", source, text=example("two_t.qasm").encode()).stdout.decode(), TWO_T)

    def test_prepare(self) -> None:
        """The gates of the library are read from the package's data."""
        text = b"qreg q[3];\nrccx q[0],q[1],q[2];\n"
        self.assertIn(b"gate rccx", self.zxopt("prepare", text=text).stdout)

    def test_version(self) -> None:
        own = next((self.room / "venv").glob("lib/python*/site-packages/zxopt/bin/zxopt"))
        library = own.parents[1] / "lib/libzxopt.so.1"
        told = f"zxopt {__version__}\nprogram {own}\nsha256 {RECORD['static']}\nlibrary {library}\n"
        self.assertEqual(self.zxopt("--version").stdout.decode(), told)

    def test_help(self) -> None:
        ran = self.zxopt()
        self.assertEqual((ran.returncode, ran.stdout), (2, b""))
        for word in ("--help", "-h", "help"):
            said = self.zxopt(word)
            self.assertEqual((said.returncode, said.stdout), (0, ran.stderr))

    def test_without_the_program(self) -> None:
        """The command itself is never taken for the program, and never started as such."""
        own = next((self.room / "venv").glob("lib/python*/site-packages/zxopt/bin/zxopt"))
        hidden, log = own.with_name("hidden"), self.room / "log"
        command = self.room / "venv/bin/zxopt"
        real = command.with_name("zxopt-real")
        own.rename(hidden)
        command.rename(real)
        try:
            command.write_text(f"#!/bin/sh\necho started >>'{log}'\nexec '{real}' \"$@\"\n", encoding="utf-8")
            command.chmod(0o755)
            python = self.room / "venv/bin/python"
            for words in ([real, "opt"], [real, "opt", "--seconds", "9"], [python, "-m", "zxopt", "opt"]):
                ran = self.run_here(*words, text=example("two_t.qasm").encode())
                self.assertEqual((ran.returncode, ran.stdout), (70, b""))
                self.assertIn(b"no program zxopt", ran.stderr)
            self.assertFalse(log.exists())
            # who names the command as the program is told so by the first process that is started
            ran = self.run_here(real, "opt", text=example("two_t.qasm").encode(), env={"ZXOPT": "zxopt"})
            self.assertEqual((ran.returncode, ran.stdout, log.read_text()), (70, b"", "started\n"))
        finally:
            hidden.rename(own)
            real.replace(command)

    def test_calls_of_the_library(self) -> None:
        """Functions call the library, which runs where there is no program, in a folder that nobody can write to."""
        package = next((self.room / "venv").glob("lib/python*/site-packages/zxopt"))
        copied = self.room / "read-only"
        shutil.copytree(package, copied / "zxopt", ignore=shutil.ignore_patterns("bin", "__pycache__"))
        for path in (*copied.rglob("*"), copied):
            path.chmod(0o555 if path.is_dir() else 0o444)
        self.room.chmod(0o755)
        source = "import sys, zxopt; print(zxopt.__file__); print(zxopt.optimise(sys.stdin.read(), False), end='')"
        command = [sys.executable, "-c", source]
        if os.geteuid() == 0 and shutil.which("setpriv"):
            command = ["setpriv", "--reuid=65534", "--regid=65534", "--clear-groups", *command]
        ran = self.run_here(*command, text=example("two_t.qasm").encode(), env={"PYTHONPATH": str(copied)})
        self.assertEqual(ran.stdout.decode(), f"{copied}/zxopt/__init__.py\n{TWO_T}", ran.stderr)

    def test_in_a_zip(self) -> None:
        """No library can be loaded from there; the program is copied once, and goes with the process."""
        source = (
            "import sys, zxopt\n"
            "text = sys.stdin.read()\n"
            "made = {zxopt.optimise(text) for _ in range(3)}\n"
            "print(zxopt.version().program, len(made), zxopt.__file__)\n"
        )
        env = {"PYTHONPATH": str(self.wheel)}
        ran = self.run_here(sys.executable, "-c", source, text=example("tof_3.qasm").encode(), env=env)
        program, made, package = ran.stdout.decode().split()
        self.assertEqual((made, package), ("1", f"{self.wheel}/zxopt/__init__.py"))
        self.assertFalse(Path(program).parent.exists())
        ran = self.run_here(sys.executable, "-m", "zxopt", "opt", text=example("two_t.qasm").encode(), env=env)
        self.assertEqual((ran.returncode, ran.stdout.decode()), (0, TWO_T), ran.stderr)


if __name__ == "__main__":
    unittest.main()
