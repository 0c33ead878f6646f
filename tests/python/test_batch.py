"""Tests of many files at once, as functions and as a command."""
from __future__ import annotations

import csv
import os
import re
import shutil
import time
import unittest
from pathlib import Path

from support import EXAMPLES, HEAD, InRoom, absolute_program, example

import zxopt
from zxopt.batch import Job, Settings, optimise_file, optimise_files, plan
from zxopt.spelling import by_cx

BAD = HEAD + "qreg q[1];\n  reset q[0];\n"


class Planned(InRoom):
    def setUp(self) -> None:
        super().setUp()
        for name in ("a/x.qasm", "b/x.qasm", "b/c/y.qasm", "b/notes.txt"):
            self.write(name, example("two_t.qasm"))

    def targets(self, *files: str) -> list:
        jobs = plan([str(self.room / file) for file in files], str(self.room / "out"))
        return [str(job.target.relative_to(self.room / "out")) for job in jobs]

    def test_files_of_one_folder(self) -> None:
        self.assertEqual(self.targets("a/x.qasm"), ["x.qasm"])
        self.assertEqual(self.targets("b/x.qasm", "b/notes.txt"), ["x.qasm", "notes.txt"])

    def test_one_name_in_two_folders(self) -> None:
        self.assertEqual(self.targets("a/x.qasm", "b/x.qasm"), ["a/x.qasm", "b/x.qasm"])

    def test_one_file_twice(self) -> None:
        self.assertEqual(self.targets("a/x.qasm", "b/../a/x.qasm"), ["x.qasm"])

    def test_a_named_folder(self) -> None:
        """Targets stand below it, whichever files it has; also where one of them is named besides."""
        self.write("d/e/z.qasm", "")
        self.assertEqual(self.targets("d"), ["e/z.qasm"])
        self.assertEqual(self.targets("d", "d/e/z.qasm"), ["e/z.qasm"])
        self.assertEqual(self.targets("d", "d/e"), ["e/z.qasm"])
        self.assertEqual(self.targets("d", "b/notes.txt"), ["d/e/z.qasm", "b/notes.txt"])

    def test_folders(self) -> None:
        self.assertEqual(self.targets("b"), ["c/y.qasm", "x.qasm"])
        self.assertEqual(self.targets("."), ["a/x.qasm", "b/c/y.qasm", "b/x.qasm"])
        self.write("out/a/x.qasm", "")
        self.assertEqual(self.targets("."), ["a/x.qasm", "b/c/y.qasm", "b/x.qasm"])

    def test_nothing_to_read(self) -> None:
        (self.room / "empty").mkdir()
        with self.assertRaises(ValueError):
            self.targets("empty")
        with self.assertRaises(FileNotFoundError):
            self.targets("a/x.qasm", "missing.qasm")

    def test_read_files_stay(self) -> None:
        for to in ("a", "b/../a"):
            with self.assertRaises(ValueError):
                plan([str(self.room / "a/x.qasm")], str(self.room / to))
        os.symlink(self.room / "a", self.room / "link")
        with self.assertRaises(ValueError):
            plan([str(self.room / "a/x.qasm")], str(self.room / "link"))
        (self.room / "out").mkdir()
        os.symlink(self.room / "b", self.room / "out" / "b")
        with self.assertRaises(ValueError):
            plan([str(self.room / "a"), str(self.room / "b")], str(self.room / "out"))


class Optimised(InRoom):
    def job(self, text: str, name: str = "read.qasm") -> Job:
        return Job(self.write(name, text), self.room / "out" / name)

    def test_written(self) -> None:
        job = self.job(example("tof_3.qasm"))
        outcome = optimise_file(job, Settings(check=True))
        self.assertEqual((outcome.state, outcome.t, outcome.two_qubit[0]), ("written", (21, 15), 18))
        self.assertLessEqual(outcome.two_qubit[1], 13)
        self.assertEqual((outcome.check, outcome.best, outcome.told), ("same", True, ""))
        self.assertEqual(job.target.read_text(), zxopt.optimise(example("tof_3.qasm")))
        self.assertTrue(outcome.is_good)
        self.assertEqual(os.listdir(job.target.parent), ["read.qasm"])

    def test_refused(self) -> None:
        outcome = optimise_file(self.job(BAD))
        self.assertEqual((outcome.state, outcome.t, outcome.is_good), ("refused", None, False))
        self.assertTrue(outcome.told.startswith(f"{self.room}/read.qasm:4:3: reset, if, opaque"))
        self.assertFalse((self.room / "out").exists())

    def test_failed(self) -> None:
        job = self.job(example("two_t.qasm"))
        for script, told in (("kill -KILL $$", "SIGKILL"), ("exit 5", "no memory"), ("exit 3", "status 3")):
            outcome = optimise_file(job, Settings(program=self.stand_in(script)))
            self.assertEqual(outcome.state, "failed")
            self.assertIn(told, outcome.told)
        outcome = optimise_file(Job(self.room / "missing", self.room / "out"))
        self.assertEqual(outcome.state, "failed")
        outcome = optimise_file(Job(job.source, job.source / "below a file"))
        self.assertEqual(outcome.state, "failed")

    def test_limit_of_time(self) -> None:
        """The best circuit takes too long here, and one alone doesn't; then both do."""
        real = absolute_program()["ZXOPT"]
        slow = self.stand_in(f'case " $* " in *" --best "*) exec sleep 60 ;; esac; exec "{real}" "$@"')
        outcome = optimise_file(self.job(example("tof_3.qasm")), Settings(seconds=4, program=slow, check=True))
        self.assertEqual((outcome.state, outcome.best, outcome.check), ("written", False, "same"))
        self.assertEqual(outcome.two_qubit, (18, 18))
        # NOT with four controls: `opt` would write 52 gates on two qubits, and as many T
        for parts, told in ((False, "teleport in 1 window"), (True, "1 part by teleport in windows, for its time")):
            outcome = optimise_file(self.job(example("barenco_tof_4.qasm")), Settings(seconds=9, program=slow, parts=parts))
            self.assertEqual((outcome.t, outcome.two_qubit, outcome.best), ((56, 28), (48, 48), False))
            self.assertIn(told, outcome.told)
        began = time.monotonic()
        outcome = optimise_file(self.job(HEAD), Settings(seconds=0.3, program=self.stand_in("exec sleep 60")))
        self.assertEqual(outcome.state, "failed")
        self.assertIn("took longer", outcome.told)
        self.assertLess(time.monotonic() - began, 45)

    def test_what_is_left_is_counted(self) -> None:
        """Where even `teleport` takes too long, gates stay, and their number and place are told."""
        real = absolute_program()["ZXOPT"]
        slow = self.stand_in(f'case " $* " in *" --best "*|*teleport*) exec sleep 60 ;; esac; exec "{real}" "$@"')
        job = self.job(example("barenco_tof_4.qasm"))
        for parts in (False, True):
            outcome = optimise_file(job, Settings(seconds=4, program=slow, parts=parts))
            self.assertEqual((outcome.t, outcome.two_qubit, outcome.best), ((56, 56), (48, 48), False))
            self.assertRegex(outcome.told, "1 window left as read, the first at line [0-9]+: [0-9]+ gates from here on")
            self.assertTrue(zxopt.same(job.source, job.target))

    def test_teleport(self) -> None:
        """The published T, and all gates on two qubits."""
        for parts in (False, True):
            outcome = optimise_file(self.job(example("barenco_tof_4.qasm")), Settings(teleport=True, parts=parts))
            self.assertEqual((outcome.t, outcome.two_qubit), ((56, 28), (48, 48)))
        measured = HEAD + "qreg q[1]; creg c[2]; t q[0]; t q[0]; measure q[0] -> c[1];"
        outcome = optimise_file(self.job(measured), Settings(teleport=True, check=True))
        self.assertEqual((outcome.t, outcome.gates, outcome.check), ((2, 0), (2, 1), "same"))
        done = self.command("batch", "read.qasm", "--to", "out", "--teleport", "--jobs", "1")
        self.assertIn("T 2 -> 0", done.stdout)

    def test_check_that_fails(self) -> None:
        real = absolute_program()["ZXOPT"]
        for answer, check in (("echo 'not shown 3'; exit 6", "not shown"), ("kill -KILL $$", "not checked")):
            odd = self.stand_in(f'[ "$1" != same ] || {{ cat >/dev/null; {answer}; }}; exec "{real}" "$@"')
            outcome = optimise_file(self.job(HEAD), Settings(program=odd, check=True))
            self.assertEqual((outcome.state, outcome.check, outcome.is_good), ("written", check, False))

    def test_check_of_a_large_result(self) -> None:
        """What is written has more calls than may be read, and is checked by U and CX."""
        many = HEAD + "qreg q[50];\n" + "".join(f"cz q[{i % 50}],q[{(i + 9) % 50}];\n" for i in range(112_000))
        large = self.stand_in(
            f"""if [ "$1" = same ]; then exec "{absolute_program()["ZXOPT"]}" "$@"; fi
            cat >/dev/null; cat {self.write("many", many)}; c='gates 0 odd 0 two-qubit 0 h 0 phase 0 cz 0 cx 0 not 0'
            echo "// read $c"; echo "// written $c"; echo '// scalar root2 0 turn 0'"""
        )
        with self.assertRaises(zxopt.Refused):
            zxopt.optimise(many)
        outcome = optimise_file(self.job(by_cx(many)), Settings(program=large, check=True))
        self.assertEqual((outcome.told, outcome.check), ("", "same"))

    def test_spelled(self) -> None:
        text = HEAD + "qreg q[1];\nt q[0];\ns q[0];\n"
        job = self.job(text)
        for spelled, expected in (("only-t", "s q[0];\nt q[0];\n"), ("by-cx", "U(0,0,3*pi/4) q[0];\n")):
            outcome = optimise_file(job, Settings(spelled=spelled, check=True))
            self.assertEqual(outcome.check, "same")
            self.assertEqual(job.target.read_text(), HEAD + "qreg q[1];\n" + expected)

    def test_prepared(self) -> None:
        job = self.job("OPENQASM 2.0;\nqreg Q[1];\nt Q[0];\nt Q[0];\n")
        self.assertEqual(optimise_file(job).state, "refused")
        outcome = optimise_file(job, Settings(prepare=True, check=True))
        self.assertEqual((outcome.state, outcome.t, outcome.check), ("written", (2, 0), "same"))
        self.assertRegex(outcome.told, "[1-9] changes? by prepare")
        self.assertEqual(job.target.read_text(), HEAD + "qreg q[1];\ns q[0];\n")

    def test_in_parts(self) -> None:
        text = HEAD + "qreg a[1];\ncreg b[1];\nt a[0];\nt a[0];\nmeasure a[0] -> b[0];\nreset a[0];\nt a[0];\nt a[0];\n"
        job = self.job(text)
        self.assertEqual(optimise_file(job).state, "refused")
        outcome = optimise_file(job, Settings(parts=True))
        self.assertEqual((outcome.state, outcome.t, outcome.is_good), ("written", (4, 0), True))
        self.assertEqual(
            job.target.read_text(),
            HEAD + "qreg a[1];\ncreg b[1];\ns a[0];\nmeasure a[0] -> b[0];\nreset a[0];\ns a[0];\n",
        )
        self.assertEqual(optimise_file(job, Settings(parts=True, check=True)).check, "not checked")

    def test_rounded_angles(self) -> None:
        """They are told wherever they stay, and taken where a distance is given."""
        job = self.job(HEAD + "qreg q[1]; rz(0.7853981633974483) q[0]; rz(0.7853981633974483) q[0];")
        told = "2 angles lie within 1e-9 of a multiple of pi/8: --within 1e-9 takes them for that"
        for settings, state, t in (
            (Settings(), "refused", None),
            (Settings(prepare=True), "refused", None),
            (Settings(parts=True), "written", (0, 0)),
            (Settings(parts=True, prepare=True), "written", (0, 0)),
        ):
            outcome = optimise_file(job, settings)
            self.assertEqual((outcome.state, outcome.t, outcome.told.count(told)), (state, t, 1), outcome.told)
        outcome = optimise_file(job, Settings(within=1e-9, check=True))
        self.assertEqual((outcome.state, outcome.t, outcome.check), ("written", (2, 0), "same"))
        self.assertIn("angles moved by at most", outcome.told)
        self.assertNotIn("lie within", outcome.told)

    def test_numbers_out_of_range(self) -> None:
        for wrong in ({"seconds": 0}, {"seconds": float("nan")}, {"within": -1e-9}, {"within": 1}, {"within": float("nan")}):
            with self.subTest(wrong=wrong), self.assertRaises(ValueError):
                Settings(**wrong)
        for processes in (0, -1):
            with self.assertRaises(ValueError):
                list(optimise_files([self.job(HEAD)], processes=processes))

    def test_measured(self) -> None:
        """Counts by hand: two T on one qubit are S, so no T is left on any path."""
        job = self.job(HEAD + "qreg q[2]; t q[0]; cx q[0],q[1]; t q[0]; h q[1];")
        self.assertIsNone(optimise_file(job).measured)
        read, written = optimise_file(job, Settings(measured=True)).measured
        self.assertEqual((read.t_depth, read.depth, read.t_count, read.gates), (2, 3, 2, 4))
        self.assertEqual((written.t_depth, written.t_count, written.qubits), (0, 0, 2))

    def test_check_that_differs(self) -> None:
        real = absolute_program()["ZXOPT"]
        odd = self.stand_in(f'[ "$1" != same ] || {{ cat >/dev/null; echo widths 1 2; exit 6; }}; exec "{real}" "$@"')
        outcome = optimise_file(self.job(HEAD), Settings(program=odd, check=True))
        self.assertEqual((outcome.check, outcome.told, outcome.is_good), ("differs", "widths 1 2", False))

    def test_side_by_side_and_in_order(self) -> None:
        jobs = [self.job(f"{HEAD}qreg q[{i + 1}]; t q; t q;", f"{i}.qasm") for i in range(12)]
        outcomes = list(optimise_files(jobs, Settings(best=False), processes=4))
        self.assertEqual([outcome.job for outcome in outcomes], jobs)
        self.assertEqual([outcome.t for outcome in outcomes], [(2 * i + 2, 0) for i in range(12)])

    def test_as_they_end(self) -> None:
        """The first file ends last, when the others have ended."""
        real, ended = absolute_program()["ZXOPT"], self.room / "ended"
        wait = f'[[ $text != *"q[1];"* ]] || until [ -e "{ended}" ]; do sleep 0.02; done'
        slow = self.stand_in(f'text=$(cat); {wait}; exec "{real}" "$@" <<<"$text"')
        jobs = [self.job(f"{HEAD}qreg q[{i + 1}]; t q; t q;", f"{i}.qasm") for i in range(4)]
        found = []
        for outcome in optimise_files(jobs, Settings(best=False, program=slow), processes=2, ordered=False):
            found.append(outcome.job)
            if len(found) == 3:
                ended.touch()
        self.assertEqual(sorted(found[:3], key=jobs.index), jobs[1:])
        self.assertEqual(found[3:], jobs[:1])

    def test_broken_off(self) -> None:
        jobs = [self.job(HEAD, f"{i}.qasm") for i in range(200)]
        slow = self.stand_in("sleep 0.2; exit 5")
        outcomes = optimise_files(jobs, Settings(program=slow), processes=2)
        began = time.monotonic()
        next(outcomes)
        outcomes.close()
        self.assertLess(time.monotonic() - began, 15)


class Command(InRoom):
    def setUp(self) -> None:
        super().setUp()
        for name in ("tof_3", "two_t", "refused"):
            shutil.copy(EXAMPLES / f"{name}.qasm", self.room)
        self.write("more/two_t.qasm", example("tof_4.qasm"))

    def test_a_folder_with_a_refused_file(self) -> None:
        ran = self.command("batch", ".", "--to", "out", "--check", "--csv", "out.csv", "--jobs", "2")
        self.assertEqual(ran.returncode, 1)
        room = os.path.realpath(self.room)
        made = {name: zxopt.counts(example(f"{name}.qasm")).written.two_qubit for name in ("tof_3", "tof_4")}
        self.assertLess(made["tof_3"], 18)
        self.assertLess(made["tof_4"], 30)
        *lines, last = [re.sub(r"\d+\.\d\d s", "0 s", line) for line in ran.stdout.splitlines()]
        # in the order in which files end
        self.assertEqual(
            sorted(lines),
            [
                f"{room}/more/two_t.qasm: T 35 -> 23, two-qubit 30 -> {made['tof_4']}, 0 s, same",
                f"{room}/tof_3.qasm: T 21 -> 15, two-qubit 18 -> {made['tof_3']}, 0 s, same",
                f"{room}/two_t.qasm: T 2 -> 0, two-qubit 0 -> 0, 0 s, same",
            ],
        )
        self.assertEqual(
            last,
            f"4 files: 3 written, 1 refused, 0 failed; T 58 -> 38, two-qubit 48 -> {sum(made.values())}; "
            "3 same, 0 not shown, 0 not checked; 0 s",
        )
        self.assertTrue(ran.stderr.startswith(f"{room}/refused.qasm:5:1: reset, if, opaque, "))
        self.assertEqual(len(ran.stderr.splitlines()), 1)
        self.assertEqual((self.room / "out/more/two_t.qasm").read_text(), zxopt.optimise(example("tof_4.qasm")))
        self.table()

    def table(self) -> None:
        with open(self.room / "out.csv", newline="", encoding="utf-8") as file:
            rows = {Path(row["file"]).relative_to(os.path.realpath(self.room)): row for row in csv.DictReader(file)}
        self.assertEqual(len(rows), 4)
        tof = rows[Path("tof_3.qasm")]
        self.assertEqual((tof["t_before"], tof["t_after"], tof["check"]), ("21", "15", "same"))
        self.assertLess(int(tof["two_qubit_after"]), 18)
        self.assertEqual((tof["qubits"], tof["t_depth_before"], tof["other_angles_after"]), ("5", "11", "0"))
        self.assertLess(0, int(tof["t_depth_after"]))
        bad = rows[Path("refused.qasm")]
        self.assertEqual([bad[it] for it in ("state", "t_before", "written", "qubits")], ["refused", "", "", ""])
        self.assertIn("refused.qasm:5:1: ", bad["told"])

    def test_all_good(self) -> None:
        ran = self.command("batch", "tof_3.qasm", "--to", "out", "--no-best")
        self.assertEqual((ran.returncode, ran.stderr), (0, ""))
        self.assertIn("T 21 -> 15, two-qubit 18 -> 18", ran.stdout)
        self.assertIn("1 file: 1 written, 0 refused, 0 failed;", ran.stdout)

    def test_within(self) -> None:
        self.write("rounded.qasm", HEAD + "qreg q[1]; rz(0.7853981633974483) q[0]; rz(0.7853981633974483) q[0];")
        ran = self.command("batch", "rounded.qasm", "--to", "out")
        self.assertEqual((ran.returncode, "--within 1e-9 takes them for that" in ran.stderr), (1, True))
        ran = self.command("batch", "rounded.qasm", "--to", "out", "--within", "1e-9")
        self.assertEqual((ran.returncode, (self.room / "out/rounded.qasm").read_text()), (0, HEAD + "qreg q[1];\ns q[0];\n"))

    def test_wrong_words(self) -> None:
        for words in (["two_t.qasm"], ["--to", "out"], ["two_t.qasm", "--to", "out", "--jobs", "0"]):
            self.assertEqual(self.command("batch", *words).returncode, 2)
        self.assertEqual(self.command("batch", "two_t.qasm", "--to", ".").returncode, 1)
        self.assertEqual(self.command("batch", "two_t.qasm", "--to", "out", "--parts", "--only-t").returncode, 2)
        self.assertEqual(self.command("batch", "missing.qasm", "--to", "out").returncode, 70)

    def test_no_program(self) -> None:
        ran = self.command("batch", ".", "--to", "out", env={"ZXOPT": "/nowhere/zxopt"})
        self.assertEqual((ran.returncode, ran.stdout), (70, ""))
        self.assertIn("/nowhere/zxopt", ran.stderr)


if __name__ == "__main__":
    unittest.main()
