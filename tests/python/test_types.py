"""The package's types, by mypy, where it is installed: Debian's package `mypy` is enough."""
from __future__ import annotations

import importlib.util
import shutil
import subprocess
import sys
import unittest

from support import PYTHON, InRoom

# What a program that uses the package may rely on.
USE = '''
from pathlib import Path
import zxopt

class Circuit:
    name = "mine"

text: str = zxopt.optimise(Path("a.qasm"))
text = zxopt.teleport(b"", timeout=1)
circuit: Circuit = zxopt.optimize(Circuit(), False)
same: bool = zxopt.same(circuit, text).kind == "same"
depth: int = zxopt.measures(circuit).t_depth
prepared: str = zxopt.prepare.prepare(text).text
parts: int = zxopt.parts.optimise_parts(Path("a.qasm")).after.t
stage = zxopt.qiskit.ZxOptPlugin()
'''


@unittest.skipUnless(shutil.which("mypy") or importlib.util.find_spec("mypy"), "mypy isn't installed")
class Types(InRoom):
    def mypy(self, *words: str) -> str:
        """What mypy tells, without the lines of its end."""
        command = ["mypy"] if shutil.which("mypy") else [sys.executable, "-m", "mypy"]
        ran = subprocess.run(
            [*command, "--strict", "--no-error-summary", "--cache-dir", str(self.room / "cache"), *words],
            cwd=PYTHON, stdout=subprocess.PIPE, stderr=subprocess.STDOUT, text=True,
        )
        return ran.stdout

    def test_package_and_use(self) -> None:
        """Nothing is found in the package, nor in a program that uses it as it is meant; and wrong uses are."""
        use = self.write("use.py", USE)
        self.assertEqual(self.mypy("zxopt", str(use)), "")
        wrong = self.write("wrong.py", "import zxopt\nzxopt.optimise(5)\nzxopt.measures(None)\nx: int = zxopt.optimise('')\n")
        told = self.mypy(str(wrong))
        for line in (2, 3, 4):
            self.assertIn(f"wrong.py:{line}: error: ", told)


if __name__ == "__main__":
    unittest.main()
