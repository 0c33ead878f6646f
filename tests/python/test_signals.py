"""Tests of signals: whichever ends a command, no program runs on, and no file is left with a part of its text.

Real processes get real signals. The program is a stand-in that tells its number and waits, in place of a long run.
"""
from __future__ import annotations

import os
import signal
import subprocess
import sys
import time
import unittest
from pathlib import Path
from typing import Callable, List, Set

from support import HEAD, PYTHON, InRoom, absolute_program, with_default_signals

import zxopt
from zxopt import manifest, processes

# A time that is never met, but that a fault must not make us wait for.
LONG = 300


def waited(holds: Callable[[], bool]) -> bool:
    """Whether something comes to hold."""
    end = time.monotonic() + LONG
    while not holds():
        if time.monotonic() > end:
            return False
        time.sleep(0.02)
    return True


def is_running(number: int) -> bool:
    """Whether there is such a process, one that ended and wasn't waited for aside."""
    try:
        return Path(f"/proc/{number}/stat").read_text().rpartition(")")[2].split()[0] != "Z"
    except OSError:
        return False


@unittest.skipUnless(Path("/proc/self/stat").exists(), "there is no /proc")
class Ended(InRoom):
    """Commands that are ended while the program runs."""

    def setUp(self) -> None:
        super().setUp()
        self.numbers = self.room / "numbers"
        self.numbers.mkdir()
        self.slow = self.stand_in(f'cat >/dev/null; echo >"{self.numbers}/$$"; exec sleep {10 * LONG}')
        for at in range(6):
            self.write(f"in/{at}.qasm", f"{HEAD}qreg q[1];\nt q[0];\ns q[0];\nh q[0];\n")

    def started(self) -> Set[int]:
        return {int(name) for name in os.listdir(self.numbers)}

    def begun(
        self, words: List[str], count: int, program: str = "", signals: Callable[[], object] = with_default_signals
    ) -> "subprocess.Popen[bytes]":
        """A command, when so many programs of it run."""
        env = {**os.environ, "PYTHONPATH": str(PYTHON), "ZXOPT": program or self.slow}
        pipe = subprocess.PIPE
        process = subprocess.Popen(
            [sys.executable, "-m", "zxopt", *words], cwd=self.room, env=env, stdout=pipe, stderr=pipe, preexec_fn=signals
        )
        self.addCleanup(self.cleared, process)
        self.assertTrue(waited(lambda: len(self.started()) >= count))
        return process

    def cleared(self, process: "subprocess.Popen[bytes]") -> None:
        process.kill()
        process.communicate()
        for number in self.started():
            if is_running(number):
                os.kill(number, signal.SIGKILL)

    def ends(self, process: "subprocess.Popen[bytes]", number: int) -> bytes:
        """Sends a signal, and answers what is told on standard error when all has ended."""
        process.send_signal(number)
        out, told = process.communicate(timeout=LONG)
        self.assertEqual((process.returncode, out), (128 + number, b""), told)
        self.assertTrue(waited(lambda: not any(is_running(it) for it in self.started())))
        self.assertNotIn(b"Traceback", told)
        self.assertIn(f"ended by {signal.Signals(number).name}".encode(), told)
        return told

    def test_one_program(self) -> None:
        for number in (signal.SIGTERM, signal.SIGINT, signal.SIGHUP):
            for words in (["opt", "in/0.qasm", "--to", "out.qasm"], ["opt", "--best", "--seconds", "500", "in/0.qasm"]):
                with self.subTest(number=number, words=words):
                    before = len(self.started())
                    self.ends(self.begun(words, before + 1), number)
                    self.assertEqual(sorted(os.listdir(self.room)), ["in", "numbers", "stand_in"])

    def test_many_programs(self) -> None:
        """No further one begins, and files that are written have all of their text."""
        for number in (signal.SIGTERM, signal.SIGINT):
            before = len(self.started())
            words = ["batch", "in", "--to", "out", "--csv", "out.csv", "--jobs", "3", "--check"]
            self.ends(self.begun(words, before + 3), number)
            self.assertEqual(len(self.started()), before + 3)
            self.assertEqual(list(self.room.rglob("*.new")), [])
            self.assertEqual(os.listdir(self.room / "out"), [manifest.NAME])
            self.assertEqual((self.room / "out.csv").read_text().count("\n"), 1)

    def test_files_that_were_done(self) -> None:
        """Two files are written before a third one waits: their rows stand whole in the table."""
        real = absolute_program()["ZXOPT"]
        some = self.stand_in(
            f'n=$(ls "{self.numbers}" | wc -l); echo >"{self.numbers}/$$"; [ "$n" -lt 2 ] || exec sleep {10 * LONG}; '
            f'exec "{real}" "$@"', "some",
        )
        process = self.begun(["batch", "in", "--to", "out", "--csv", "out.csv", "--jobs", "1"], 3, some)
        self.assertTrue(waited(lambda: (self.room / "out.csv").read_text().count("\n") == 3))
        process.send_signal(signal.SIGTERM)
        out, told = process.communicate(timeout=LONG)
        self.assertEqual(process.returncode, 128 + signal.SIGTERM, told)
        self.assertEqual(len(out.splitlines()), 2)
        rows = (self.room / "out.csv").read_text().splitlines()
        self.assertEqual((len(rows), {row.count(",") for row in rows}), (3, {rows[0].count(",")}))
        for name in ("0.qasm", "1.qasm"):
            self.assertEqual((self.room / "out" / name).read_text(), zxopt.optimise(self.room / "in" / name))
        self.assertEqual(sorted(os.listdir(self.room / "out")), [manifest.NAME, "0.qasm", "1.qasm"])

    def test_parts(self) -> None:
        body = "".join(f"t q[0]; h q[0]; t q[0]; rx(0.{at}1) q[0];\n" for at in range(9))
        self.write("in/parts.qasm", f"{HEAD}qreg q[1];\n{body}")
        for number in (signal.SIGTERM, signal.SIGINT):
            before = len(self.started())
            self.ends(self.begun(["parts", "in/parts.qasm", "--jobs", "2", "--to", "out.qasm"], before + 1), number)
            self.assertLessEqual(len(self.started()), before + 2)
            self.assertFalse((self.room / "out.qasm").exists())

    def test_ignored_signals_stay_ignored(self) -> None:
        """As behind `nohup`: the command goes on, and so does its program."""
        short = self.stand_in(f'echo >"{self.numbers}/$$"; exec "{absolute_program()["ZXOPT"]}" "$@"', "short")
        words = ["batch", "in", "--to", "out", "--no-best", "--jobs", "1"]
        process = self.begun(words, 1, short, lambda: signal.signal(signal.SIGHUP, signal.SIG_IGN))
        process.send_signal(signal.SIGHUP)
        out, told = process.communicate(timeout=LONG)
        self.assertEqual((process.returncode, told), (0, b""))
        self.assertIn(b"6 files: 6 written", out)


class Handlers(InRoom):
    """What the handlers leave behind in this process."""

    def test_put_back(self) -> None:
        before = [signal.getsignal(it) for it in (signal.SIGINT, signal.SIGTERM)]
        with processes.ending_children():
            self.assertNotEqual(signal.getsignal(signal.SIGTERM), before[1])
        self.assertEqual([signal.getsignal(it) for it in (signal.SIGINT, signal.SIGTERM)], before)

    def test_none_begins_behind_a_signal(self) -> None:
        marked = self.room / "marked"
        program = self.stand_in(f'echo >"{marked}"')
        with self.assertRaises(KeyboardInterrupt):
            with processes.ending_children():
                try:
                    os.kill(os.getpid(), signal.SIGTERM)
                    time.sleep(LONG)
                except processes.Stopped as stopped:
                    self.assertEqual(stopped.number, signal.SIGTERM)
                processes.communicate([program], b"")
        self.assertFalse(marked.exists())
        processes.communicate([program], b"")
        self.assertTrue(marked.exists())

    def test_functions_set_no_handlers(self) -> None:
        before = signal.getsignal(signal.SIGTERM)
        zxopt.optimise(HEAD)
        self.assertEqual(signal.getsignal(signal.SIGTERM), before)


if __name__ == "__main__":
    unittest.main()
