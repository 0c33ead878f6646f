"""Tests of runs of `batch` that go on where one was ended: by kill -9, by a full disk, or because it was done."""
from __future__ import annotations

import csv
import os
import random
import resource
import signal
import sqlite3
import subprocess
import sys
import time
import unittest
from collections import Counter
from contextlib import closing
from pathlib import Path
from typing import Any, Dict, List

from support import HEAD, PYTHON, InRoom, absolute_program, with_default_signals

import zxopt
from zxopt import manifest, reports
from zxopt.executors import Stamp
from zxopt.files import Job, Outcome, Settings

STAMP = Stamp("1", "2" * 64, None)


class InFolder(InRoom):
    """Runs over a folder `in` of small circuits, one T pair on each qubit, by a program that notes what it is asked."""

    count = 40

    def setUp(self) -> None:
        super().setUp()
        for at in range(self.count):
            self.write(f"in/{at % 3}/{at}.qasm", f"{HEAD}qreg q[{at + 1}]; t q; t q;")
        self.calls = self.room / "calls"
        real = absolute_program()["ZXOPT"]
        width = 'text=$(cat); width=${text#*[}; width=${width%%]*}'
        self.script = f'{width}; echo "$width" >>"{self.calls}"; exec "{real}" "$@" <<<"$text"'
        self.program = self.stand_in(self.script)

    def batch(self, *words: str) -> "subprocess.CompletedProcess[str]":
        return self.command("batch", "in", "--to", "out", "--no-best", *words, env={"ZXOPT": self.program})

    def called(self) -> "Counter[int]":
        """How often the program was asked for each circuit, by its width."""
        return Counter(map(int, self.calls.read_text().split())) if self.calls.exists() else Counter()

    def rows(self, name: str = "out.csv") -> List[Dict[str, str]]:
        with open(self.room / name, newline="", encoding="utf-8") as file:
            return list(csv.DictReader(file))

    def assert_all_written(self) -> None:
        for source in (self.room / "in").rglob("*.qasm"):
            target = self.room / "out" / source.relative_to(self.room / "in")
            self.assertEqual(target.read_text(), zxopt.optimise(source, False))
        self.assertEqual([it for it in (self.room / "out").rglob("*") if it.name.endswith(".new")], [])
        self.assertEqual(sorted(it.name for it in (self.room / "out").iterdir()), [manifest.NAME, "0", "1", "2"])


class Killed(InFolder):
    def begin(self, *words: str, **more: Any) -> "subprocess.Popen[bytes]":
        env = {**os.environ, "PYTHONPATH": str(PYTHON), "ZXOPT": self.program}
        command = [sys.executable, "-m", "zxopt", "batch", "in", "--to", "out", "--no-best", *words]
        more.setdefault("preexec_fn", with_default_signals)
        return subprocess.Popen(command, cwd=self.room, env=env, stdout=subprocess.PIPE, stderr=subprocess.PIPE, **more)

    def test_kills(self) -> None:
        """Each file is written, and no more than `--jobs` are asked for once more by a kill."""
        draw, kills, moments = random.Random(4), 0, [3, 9, 16, 24, 33]
        for moment in moments:
            run = self.begin("--csv", "out.csv", "--jobs", "2")
            while run.poll() is None and sum(self.called().values()) < moment + kills * 2:
                time.sleep(0.001)
            time.sleep(draw.random() / 50)
            run.kill()
            run.communicate()
            kills += run.returncode == -signal.SIGKILL
        self.assertGreaterEqual(kills, 4)
        ran = self.batch("--csv", "out.csv", "--jobs", "2")
        self.assertEqual(ran.returncode, 0, ran.stderr)
        self.assertRegex(ran.stdout, f"{self.count} files: {self.count} written, 0 refused, 0 failed, [0-9]+ of them")
        self.assert_all_written()
        called = self.called()
        self.assertEqual(len(called), self.count)
        self.assertLessEqual(sum(called.values()), self.count + 2 * kills)
        rows = Counter(Path(row["file"]).stem for row in self.rows())
        self.assertEqual(len(rows), self.count)
        self.assertLessEqual(sum(rows.values()), self.count + kills)
        with closing(sqlite3.connect(self.room / "out" / manifest.NAME)) as data:
            self.assertEqual(data.execute("SELECT COUNT(*) FROM under_way").fetchone(), (0,))

    def test_a_disk_that_fills_up(self) -> None:
        """It is told which file can't be written, and the next run writes each row once."""
        limit = 400_000

        def small() -> None:
            with_default_signals()
            resource.setrlimit(resource.RLIMIT_FSIZE, (limit, resource.RLIM_INFINITY))

        self.batch("--csv", "out.csv")
        head, first, *_ = (self.room / "out.csv").read_bytes().splitlines(keepends=True)
        (self.room / "out.csv").write_bytes(head + first * ((limit - 2_000) // len(first)))
        before = len(self.rows())
        run = self.begin("--csv", "out.csv", "--jobs", "1", "--teleport", preexec_fn=small)
        out, said = run.communicate()
        self.assertEqual(run.returncode, 70, said)
        self.assertRegex(said.decode(), "^zxopt batch: out.csv: .*File too large; the same command goes on when")
        self.assertTrue((self.room / "out.csv").read_bytes().endswith(b"\n"))
        written = len(self.rows()) - before
        self.assertTrue(0 < written == len(out.splitlines()) < self.count, out)
        self.assertEqual(self.batch("--csv", "out.csv", "--teleport").returncode, 0)
        added = Counter(row["file"] for row in self.rows()[before:])
        self.assertEqual((len(added), set(added.values())), (self.count, {1}))

    def test_full_from_the_start(self) -> None:
        run = self.batch("--csv", "/dev/full")
        self.assertEqual((run.returncode, run.stdout), (70, ""))
        self.assertIn("/dev/full", run.stderr)


class GoesOn(InFolder):
    count = 4

    def test_what_is_done_again(self) -> None:
        """Only what changed: a source, a target that is gone or has another length, settings, the program."""
        first, second = self.room / "in/0/0.qasm", self.room / "out/1/1.qasm"
        for change, words, widths in (
            (lambda: None, (), [1, 2, 3, 4]),
            (lambda: None, (), []),
            (lambda: first.write_text(first.read_text() + "h q[0];"), (), [1]),
            (second.unlink, (), [2]),
            (lambda: second.write_text(""), (), [2]),
            (lambda: None, ("--check",), [1, 1, 2, 2, 3, 3, 4, 4]),
            (lambda: self.stand_in(f"# another\n{self.script}"), (), [1, 2, 3, 4]),
            (lambda: None, ("--anew",), [1, 2, 3, 4]),
            (lambda: None, (), []),
        ):
            change()
            self.calls.write_text("")
            ran = self.batch("--jobs", "2", *words)
            self.assertEqual(ran.returncode, 0, ran.stderr)
            self.assertEqual(sorted(self.called().elements()), widths)
            self.assertIn("4 files: 4 written, 0 refused, 0 failed", ran.stdout)
            self.assertEqual(len(ran.stdout.splitlines()), len(set(widths)) + 1)
            self.assert_all_written()

    def test_what_was_refused_is_told_again(self) -> None:
        self.write("in/2/bad.qasm", HEAD + "qreg q[1];\nreset q[0];\n")
        first, second = self.batch(), self.batch()
        self.assertEqual((first.returncode, second.returncode), (1, 1))
        self.assertEqual(first.stderr, second.stderr)
        self.assertIn("bad.qasm:4:1: reset", first.stderr)
        self.assertIn("5 files: 4 written, 1 refused, 0 failed, 5 of them before", second.stdout)
        self.assertEqual(self.called()[1], 2)

    def test_what_failed_is_done_again(self) -> None:
        broken, self.program = self.program, self.stand_in("cat >/dev/null; exit 5", "none")
        ran = self.batch()
        self.assertIn("0 written, 0 refused, 4 failed", ran.stdout)
        self.program = broken
        self.assertIn("4 written, 0 refused, 0 failed; ", self.batch().stdout)

    def test_table(self) -> None:
        """Rows are added, for what is done; `--anew` begins it anew."""
        for _ in range(2):
            self.batch("--csv", "out.csv")
            self.assertEqual(sorted(Path(row["file"]).stem for row in self.rows()), ["0", "1", "2", "3"])
        self.write("in/0/9.qasm", f"{HEAD}qreg q[9]; t q;")
        ran = self.batch("--csv", "out.csv")
        self.assertEqual(sorted(Path(row["file"]).stem for row in self.rows()), ["0", "1", "2", "3", "9"])
        self.assertEqual(ran.stderr, "")
        self.batch("--csv", "out.csv", "--anew")
        self.assertEqual(len(self.rows()), 5)
        ran = self.batch("--csv", "new.csv")
        self.assertEqual(ran.stderr, "new.csv is new: it lacks the 5 files that were done before\n")

    def test_other_columns(self) -> None:
        """They are refused, and nothing is done then."""
        old = self.write("older.csv", "file,t\na,1\n")
        ran = self.batch("--csv", "older.csv")
        self.assertEqual((ran.returncode, old.read_text(), self.called()), (1, "file,t\na,1\n", Counter()))
        self.assertEqual(
            ran.stderr, "zxopt batch: older.csv has other columns than those that are written: name another table\n"
        )
        self.assertFalse((self.room / "out").exists())

    def test_a_row_without_its_end(self) -> None:
        """What a machine that went down may leave is taken off, and no more."""
        name = str(self.room / "a.csv")
        outcome = Outcome(Job(Path("a"), Path("b")), "failed", 1.0, told="why")
        for rest in ("half", ""):
            with reports.Table(name, anew=True) as table:
                table.add(outcome)
            with open(name, "a", encoding="utf-8") as file:
                file.write(rest)
            with reports.Table(name, anew=False) as table:
                table.add(outcome)
            self.assertEqual([row["told"] for row in self.rows("a.csv")], ["why", "why"])

    def test_leftovers(self) -> None:
        """What a killed run left of a file that was under way goes, on whatever host; nothing else does."""
        to = str(self.room / "out")
        job = Job(self.room / "in/0/0.qasm", self.room / "out/0/0.qasm")
        with manifest.opened(to, Settings(), STAMP) as kept:
            row = kept.name(job)
        # as a run leaves it that is killed here
        with closing(sqlite3.connect(Path(to, manifest.NAME), isolation_level=None)) as data:
            data.execute("INSERT INTO under_way VALUES (?)", (row,))
        left = [self.write(f"out/0/.0.qasm.{host}.77.new", "a") for host in ("here", "there.example.org")]
        others = [self.write(f"out/0/{name}", "a") for name in (".9.qasm.here.77.new", ".0.qasm.new", "0.qasm.new")]
        self.batch()
        self.assertEqual([it.exists() for it in left], [False, False])
        self.assertEqual([it.exists() for it in others], [True, True, True])

    def test_one_run_at_a_time(self) -> None:
        with manifest.opened(str(self.room / "out"), Settings(), STAMP):
            ran = self.batch()
        self.assertEqual((ran.returncode, ran.stdout), (70, ""))
        self.assertEqual(ran.stderr, f"zxopt batch: another run writes to {os.path.realpath(self.room)}/out\n")

    def test_a_manifest_that_cannot_be_read(self) -> None:
        file = self.write(f"out/{manifest.NAME}", "no database " * 100)
        ran = self.batch()
        self.assertEqual((ran.returncode, ran.stdout), (70, ""))
        self.assertIn("remove it, and all files are done again", ran.stderr)
        file.unlink()
        with closing(sqlite3.connect(file)) as data:
            data.execute("PRAGMA user_version = 99")
        ran = self.batch()
        self.assertEqual(ran.returncode, 1)
        self.assertIn("another version", ran.stderr)

    def test_size(self) -> None:
        """At most 200 bytes a file, though one in ten is refused."""
        to, count = self.room / "many", 2_000
        bad = ":17:9: reset, if, opaque, ^ or a function such as sin stands (fault 6 Unsupported): reset q[0];"
        with manifest.opened(str(to), Settings(), STAMP) as kept:
            for at in range(count):
                job = Job(Path(f"/data/{at}.qasm"), to / f"folder_{at % 7}/circuit_{at:06d}.qasm")
                if at % 10:
                    outcome = Outcome(job, "written", 1.0, (300, 200), (4000, 3000), read=f"{at:064x}", length=70_000)
                else:
                    outcome = Outcome(job, "refused", 1.0, told=f"{job.source}{bad}", read=f"{at:064x}")
                kept.begin(job)
                kept.end(outcome)
        self.assertEqual([it.name for it in to.iterdir()], [manifest.NAME])
        self.assertLess((to / manifest.NAME).stat().st_size / count, 200)


if __name__ == "__main__":
    unittest.main()
