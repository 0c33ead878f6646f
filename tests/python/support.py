"""What tests of the package have in common: where things are, and programs that stand in for the real one."""
from __future__ import annotations

import os
import signal
import stat
import subprocess
import sys
import tempfile
import unittest
from pathlib import Path
from typing import Dict, Optional

TOP = Path(__file__).resolve().parents[2]
PYTHON = TOP / "python"
EXAMPLES = TOP / "examples"

if str(PYTHON) not in sys.path:
    sys.path.insert(0, str(PYTHON))

HEAD = 'OPENQASM 2.0;\ninclude "qelib1.inc";\n'


def example(name: str) -> str:
    """The text of a file in `examples`."""
    return (EXAMPLES / name).read_text(encoding="utf-8")


class InRoom(unittest.TestCase):
    """A test with a folder of its own, `room`."""

    def setUp(self) -> None:
        room = tempfile.TemporaryDirectory()
        self.addCleanup(room.cleanup)
        self.room = Path(room.name)

    def stand_in(self, script: str, name: str = "stand_in") -> str:
        """A program that is this script of bash."""
        file = self.room / name
        file.write_text(f"#!/usr/bin/env bash\n{script}\n", encoding="utf-8")
        file.chmod(file.stat().st_mode | stat.S_IXUSR)
        return str(file)

    def write(self, name: str, text: str) -> Path:
        """A file of the room with this text."""
        file = self.room / name
        file.parent.mkdir(parents=True, exist_ok=True)
        file.write_text(text, encoding="utf-8")
        return file

    def command(
        self, *words: str, text: str = "", env: Optional[Dict[str, str]] = None
    ) -> "subprocess.CompletedProcess[str]":
        """Runs `python3 -m zxopt` with these words in the room."""
        around = {**os.environ, "PYTHONPATH": str(PYTHON), **absolute_program(), **(env or {})}
        command = [sys.executable, "-m", "zxopt", *map(str, words)]
        return subprocess.run(
            command, input=text, stdout=subprocess.PIPE, stderr=subprocess.PIPE, text=True, cwd=self.room, env=around
        )


def with_default_signals() -> None:
    """Run in a child before its program: signals that a shell or `nohup` lets its jobs ignore end this one."""
    for number in (signal.SIGINT, signal.SIGHUP, signal.SIGTERM):
        signal.signal(number, signal.SIG_DFL)


def absolute_program() -> Dict[str, str]:
    """The program as a variable that holds in other folders, too."""
    from zxopt.program import find_program

    return {"ZXOPT": os.path.abspath(find_program())}
