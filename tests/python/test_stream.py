"""Tests of `zxopt.stream`: drawn texts in small windows, channels, slices, states, and what ends a run."""
from __future__ import annotations

import gzip
import json
import os
import random
import resource
import signal
import subprocess
import sys
import time
import unittest
from concurrent.futures import Executor, Future, ThreadPoolExecutor
from pathlib import Path
from typing import Any, Callable, Optional
from unittest import mock

sys.path.insert(0, str(Path(__file__).parent))
import simulator
from support import HEAD, PYTHON, InRoom, absolute_program, with_default_signals
from test_parts import Drawn

import zxopt
from zxopt import stream, windows, workers
from zxopt.parts import CannotCut
from zxopt.schedule import Limits
from zxopt.stream import Totals, optimise_stream


class Here(Executor):
    """Does what is submitted at once, and calls `before` with its number, from 1."""

    def __init__(self, before: Callable[[int], None] = lambda number: None) -> None:
        self.before = before
        self.count = 0

    def submit(self, fn: Any, /, *args: Any, **more: Any) -> "Future[Any]":
        self.count += 1
        self.before(self.count)
        out: Future[Any] = Future()
        out.set_result(fn(*args, **more))
        return out


def drawn_text(seed: int) -> str:
    """Registers, own gates, comments, ends of lines of both kinds, and for one in three measurements between gates."""
    draw = random.Random(seed)
    count = draw.randint(2, 12)
    own = "gate foo x,y { cx x,y; t y; cx x,y; } // own; gate\n"
    late = "gate bar x,y { foo x,y; h x; }"
    out = [HEAD, f"qreg a[{count}];", f"\nqreg b[{count}];\ncreg c[40];\n", own]
    qubits = [f"{name}[{at}]" for name in "ab" for at in range(count)]
    bits = draw.sample(range(40), 40)
    is_measured, has_bar, with_measures = False, False, draw.random() < 1 / 3
    for _ in range(draw.randint(5, 150)):
        if with_measures and draw.random() < 0.06 and len(qubits) > 3:
            is_measured = True
            out.append(f"measure {qubits.pop(draw.randrange(len(qubits)))} -> c[{bits.pop()}];")
            continue
        kind = draw.choice("h t s tdg cz cx ccx foo swap u1(pi/4) rz(3*pi/8) t_all cx_all comment barrier bar".split())
        one, two, three = draw.sample(qubits, 3)
        if is_measured and kind in ("t_all", "cx_all", "barrier"):
            kind = "t"
        if kind == "bar" and not has_bar:
            has_bar = True
            out.append(late)
            continue
        wide = {"t_all": "t a;", "cx_all": "cx a,b;", "comment": "// h a[0]; x b;\n", "barrier": "barrier a,b;"}
        if kind in wide:
            out.append(wide[kind])
        elif kind in ("cz", "cx", "foo", "swap", "bar"):
            out.append(f"{kind} {one},{two};")
        else:
            out.append(f"ccx {one},  {two},\n{three};" if kind == "ccx" else f"{kind} {one};")
        out.append(draw.choice(["\n", " ", "\r\n"]))
    return "".join(out)


class InFiles(InRoom):
    """Tests of streams from a file to a file."""

    def streamed(self, text: str, limits: Optional[Limits] = None, **more: Any) -> tuple[str, Totals]:
        """What is written for a text, without processes, in chunks of a drawn size."""
        source, target = str(self.room / "read.qasm"), str(self.room / "written.qasm")
        Path(source).write_bytes(text.encode())
        more.setdefault("executor", Here())
        # nothing here is about what reaches a disk
        with mock.patch("os.fsync"), mock.patch("zxopt.stream.limits", (lambda gates: limits) if limits else stream.limits):
            totals = optimise_stream(source, target, **more)
        self.assertFalse(os.path.exists(f"{target}.state"))
        return Path(target).read_text(encoding="utf-8"), totals


class Maps(InFiles):
    """What is written has the map of what is read."""

    def test_drawn_texts(self) -> None:
        counts = {"plain": 0, "teleport": 0, "best": 0}
        for seed in range(290):
            draw = random.Random(-seed)
            text = drawn_text(seed)
            mode = "best" if seed % 30 == 7 else draw.choice(["plain", "teleport"])
            gates = 40 if mode == "best" else draw.choice([3, 10, 40])
            limits = Limits(gates, draw.choice([3, 5, 24]), 1_000_000, draw.choice([20, 100]), draw.choice([2, 50]))
            with self.subTest(seed=seed), mock.patch("zxopt.stream.CHUNK", draw.choice([7, 100, 1 << 18])):
                written, totals = self.streamed(text, limits, mode=mode)
                self.assertTrue(zxopt.same(text, written), f"{text}\n{written}")
                self.assertLessEqual(totals.written.odd, totals.read.odd)
                self.assertEqual(totals.left, 0)
                if mode == "teleport":
                    self.assertEqual(totals.written.two_qubit, totals.read.two_qubit)
                    counted = zxopt.counts(text, False).read
                    self.assertEqual((totals.read.odd, totals.read.two_qubit), (counted.odd, counted.two_qubit))
                    self.assertEqual(totals.written.odd, zxopt.counts(written, False).read.odd)
            counts[mode] += 1
        self.assertGreater(min(counts.values()), 5)

    def test_drawn_channels(self) -> None:
        """Texts with `if`, `reset`, measurements and other angles, by a simulation."""
        for seed in range(3000, 3080):
            draw = random.Random(seed)
            text = Drawn(seed).text()
            limits = Limits(draw.choice([3, 5, 10]), draw.choice([3, 4, 24]), 1_000_000, draw.choice([5, 30]), draw.choice([2, 5, 50]))
            with self.subTest(seed=seed):
                mode = draw.choice(["plain", "teleport"])
                written, _ = self.streamed(text, limits, mode=mode, keep_barriers=seed % 5 == 0)
                self.assertTrue(simulator.is_same(text, written, seed=seed), f"{text}\n{written}")


class Texts(InFiles):
    """What a text may have."""

    def test_forms(self) -> None:
        """Statements that aren't one a line; the same gates in plain form beside each."""
        plain = "qreg q[3];\n{};\ncx q[0],q[1];\nt q[1];\ncx q[0],q[1];\nt q[1];\nh q[2];\n"
        plain = plain.format("t q[1]")
        for text in (
            plain.rstrip("\n"),
            plain.replace("\n", "\r\n"),
            plain.replace("\n", ""),
            plain.replace("t q[1];", "t // h q[1]; x q[0];\n q [ 1 ];//"[:-2] + "// ;}{\n"),
            plain.replace(",", " ,\n\t").replace("qreg", "// a;\n// {\nqreg"),
            plain + "// the end; x q[0];",
            plain.replace("qreg q[3];", "qreg q[3];gate own a,b{cx a,b;t b;cx a,b;}").replace("cx q[0],q[1];\nt q[1];\ncx q[0],q[1];", "own q[0],q[1];"),
            plain.replace("t q[1];\ncx", "t q[1];gate late a {t a;}\ncx", 1).replace("t q[1];\nh", "late q[1];\nh"),
            plain.replace("h q[2];", "qreg more[2];t more;t more;h q[2];"),
            plain.replace("q[", "x["),
            "\ufeff" + HEAD + plain,
        ):
            whole = text if text.startswith("\ufeff") else HEAD + text
            for chunk in (3, 5, 1 << 18):
                with self.subTest(text=text, chunk=chunk), mock.patch("zxopt.stream.CHUNK", chunk):
                    written, totals = self.streamed(whole, gates=100)
                    self.assertEqual((totals.windows, totals.read.two_qubit, totals.left), (1, 2, 0))
                    self.assertTrue(simulator.is_same(whole.lstrip("\ufeff"), written), written)

    def test_a_line_of_20_megabytes(self) -> None:
        gates = "x q[0];x q[1];" * 10
        text = HEAD + "qreg q[2];" + gates * (20_000_000 // len(gates))
        with mock.patch("zxopt.workers.work", lambda task, program: workers.Result(b"", 0, windows.NO_GATES, windows.NO_GATES, "")):
            _, totals = self.streamed(text, gates=100_000)
        self.assertEqual(totals.windows, -(-20_000_000 // len(gates) * 20 // 100_000))
        comment = HEAD + "qreg q[2]; t q[0]; // " + "x q[0]; {" * 2_000_000 + "\nt q[0];"
        written, totals = self.streamed(comment)
        self.assertEqual((totals.read.odd, totals.written.odd, totals.read.gates), (2, 0, 2))
        with self.assertRaisesRegex(CannotCut, "line 4: .* 16 MB"):
            self.streamed(HEAD + "\nqreg q[2]; " + "t " * 9_000_000)

    def test_what_is_refused(self) -> None:
        for rest, line, said in (
            ("qreg q[1];\nh q[2];", 4, "no place 2"),
            ("qreg q[2];\nh q[0]; h q[0]\n;\ncx q[0],q[0];", 6, "twice"),
            ("qreg q[1];\nh q[0]", 4, "no end"),
            ("qreg q[1];\nh q[0]; }\nh q[0];", 4, "no statement"),
            ("qreg q[1];\nh q[0]; } h {;\nh q[0];", 4, "brace"),
            ("qreg q[1];\ngate a b { x b; }\n{;", 5, "no end"),
            ("qreg q[1];\ngate a b {\nh b;\n", 4, "no end"),
            ("qreg q[1];\nqreg q[1];", 4, "second time"),
            ("qreg q[1];\nh q[0];\ngate h a { x a; }", 5, "renames"),
            ("qreg q[1];\nswap q[0],q[0];", 4, "twice"),
            ("qreg q[2];\nswap q[0],q[1];\n\ngate swap a,b { cx a,b; }", 6, "applied before"),
            ("qreg q[2];\nlate q[0];\ngate late a { x a; }", 5, "applied before"),
            ("gate a b { c b; }\nqreg q[1];\ngate a b { h b; }\nh q[0];", 5, "second time"),
            ("qreg q[1];\nfoo bar baz;", 4, ""),
        ):
            for chunk in (3, 1 << 18):
                with self.subTest(rest=rest, chunk=chunk), mock.patch("zxopt.stream.CHUNK", chunk):
                    with self.assertRaises(CannotCut) as caught:
                        self.streamed(HEAD + rest)
                    self.assertEqual(os.listdir(self.room), ["read.qasm"])
                    self.assertEqual(caught.exception.line, line)
                    self.assertIn(said, str(caught.exception))
        with self.assertRaises(CannotCut):
            self.streamed("qreg q[1]; h q[0];")

    def test_names_of_gates_and_registers(self) -> None:
        """Registers that are named as gates are renamed where they stand, also where statements stay."""
        text = HEAD + "qreg x[2]; creg p[1]; t x[0]; cx x[0],x[1]; rx(0.1) x[1]; measure x[1] -> p[0]; if(p==1) h x[0]; t x[0];"
        written, _ = self.streamed(text)
        for line in ("qreg x_reg[2];", "creg p_reg[1];", "rx(0.1) x_reg[1];", "measure x_reg[1] -> p_reg[0];", "if(p_reg==1) h x_reg[0];"):
            self.assertIn(f"{line}\n", written)
        self.assertTrue(simulator.is_same(text.replace("x[", "y[").replace("p[", "c[").replace("p==", "c=="), written.replace("x_reg", "y").replace("p_reg", "c")))

    def test_diagonal_stays_let_diagonal_gates_pass(self) -> None:
        written, totals = self.streamed(HEAD + "qreg q[2]; t q[0]; rz(0.1) q[0]; cx q[0],q[1]; t q[0];")
        self.assertEqual((totals.windows, totals.read.odd, totals.written.odd), (1, 2, 0))

    def test_what_is_known_changes_nothing(self) -> None:
        """Neither what the reader remembers nor who is faster changes what is written."""
        for seed in range(8):
            text = Drawn(seed + 4000).text() if seed % 2 else drawn_text(seed + 4000)
            limits = Limits(5, 5, 1_000_000, 20, 3)
            written, totals = self.streamed(text, limits)
            with mock.patch("zxopt.reading.KNOWN", 1), mock.patch("zxopt.stream.CHUNK", 50):
                self.assertEqual(self.streamed(text, limits, every=0), (written, totals))
            delay = random.Random(seed)
            work = workers.work
            with ThreadPoolExecutor(4) as pool, mock.patch(
                "zxopt.workers.work", lambda task, program: (time.sleep(delay.random() / 100), work(task, program))[1]
            ):
                self.assertEqual(self.streamed(text, limits, executor=pool, jobs=4), (written, totals))

    def test_gz(self) -> None:
        text = drawn_text(1)
        written, totals = self.streamed(text, gates=10)
        packed, target = str(self.room / "a.qasm.gz"), str(self.room / "b.qasm.gz")
        Path(packed).write_bytes(gzip.compress(text.encode()))
        self.assertEqual(optimise_stream(packed, target, gates=10, executor=Here()), totals)
        self.assertEqual(gzip.decompress(Path(target).read_bytes()).decode(), written)
        self.assertGreaterEqual(Path(target).read_bytes().count(b"\x1f\x8b"), totals.windows)
        with self.assertRaisesRegex(ValueError, "no slices"):
            optimise_stream(packed, target, begin=0, end=5, executor=Here())


class Faults(InFiles):
    """What goes wrong with windows: they stay as they were read, and are told and counted."""

    text = HEAD + "qreg q[2];\n" + "t q[0];\ncx q[0],q[1];\nt q[0];\nswap q[0],q[1];\n" * 6

    def failing(self, failure: Callable[[str, int], Optional[BaseException]]) -> tuple[str, Totals, list[str]]:
        made, modes = windows.made, []

        def one(text: str, mode: str, *more: Any) -> windows.Written:
            modes.append(mode)
            wrong = failure(mode, len(modes))
            if wrong:
                raise wrong
            return made(text, mode, *more)

        with mock.patch("zxopt.windows.made", one):
            return (*self.streamed(self.text, gates=8, mode="plain"), modes)

    def test_time(self) -> None:
        """Where `opt` takes too long, `teleport` is taken: each gate on two qubits stays (a swap is three)."""
        written, totals, modes = self.failing(lambda mode, number: TimeoutError("so long") if mode == "plain" else None)
        self.assertEqual(modes, ["plain", "teleport"] * 3)
        self.assertEqual((totals.read.two_qubit, totals.written.two_qubit, totals.left), (24, 24, 0))
        self.assertTrue(zxopt.same(self.text, written))

    def test_left(self) -> None:
        for wrong in (TimeoutError("so long"), MemoryError("no room"), OSError("zxopt was ended by the signal SIGKILL")):
            written, totals, _ = self.failing(lambda mode, number: wrong if number in (2, 3) else None)
            said = str(wrong)
            # two lines of the head and one of the register stand before the first window
            first = written.splitlines().index("swap q[0],q[1];") - 2
            told = [(it.window, it.why) for it in totals.left_windows]
            self.assertEqual(told, [(2, said)] if isinstance(wrong, TimeoutError) else [(2, said), (3, said)])
            self.assertEqual(totals.left_windows[0].first, first)
            lines = written.splitlines()[totals.left_windows[0].first - 1 : totals.left_windows[0].last]
            self.assertEqual(lines, ["t q[0];", "cx q[0],q[1];", "t q[0];", "swap q[0],q[1];"] * 2)
            self.assertEqual((totals.read.odd, totals.read.two_qubit), (12, 24))
            self.assertTrue(zxopt.same(self.text, written))

    def test_what_the_program_refuses_stays(self) -> None:
        with mock.patch("zxopt.shapes.Shapes.calls_of", return_value=1):
            text = HEAD + "gate own a { t a; t a; }\nqreg q[2];\nh q[0]; t q[0]; rx(0.1) q[1]; t q[0]; own q[1]; t q[1];"
            written, totals = self.streamed(text)
        self.assertEqual((totals.left, totals.read.odd, totals.written.odd), (0, 5, 1))
        self.assertIn("rx(0.1) q[1];", written)
        self.assertTrue(simulator.is_same(text, written))

    def test_a_program_that_is_missing(self) -> None:
        with self.assertRaises(OSError):
            self.streamed(self.text, program="/no/such/program")


class Slices(InFiles):
    """Slices by bytes."""

    def slices(self, text: str, borders: list[int]) -> str:
        out = ""
        for begin, end in zip([0, *borders], [*borders, None]):
            out += self.streamed(text, gates=10, begin=begin, end=end)[0]
        return out

    def test_each_statement_once(self) -> None:
        """For all borders, what stays has each statement once, in order."""
        statements = [f"rx(0.1{at}) q[{at % 3}];" for at in range(8)]
        ends = ["\n", " ", " // c; /\n", "\r\n", "\n\n", "// d;\n// e;\n", "", "\n"]
        rest = "// a; b\n" + "".join(f"{it}{end}" for it, end in zip(statements, ends))
        text = HEAD + "gate own a { h a; x a; }\nqreg q[3];\n" + rest
        for border in range(len(text) + 2):
            with self.subTest(border=border):
                written = self.slices(text, [border])
                found = [it for it in written.splitlines() if it.startswith("rx")]
                self.assertEqual(sorted(found), sorted(statements))
                for qubit in range(3):
                    self.assertEqual([it for it in found if f"q[{qubit}]" in it], statements[qubit::3])

    def test_drawn_texts(self) -> None:
        for seed in range(200, 206):
            text = drawn_text(seed).replace("gate bar x,y { foo x,y; h x; }", "").replace("bar ", "foo ")
            draw = random.Random(seed)
            written = self.slices(text, sorted(draw.sample(range(len(text)), 3)))
            with self.subTest(seed=seed):
                self.assertTrue(zxopt.same(text, written), f"{text}\n{written}")

    def test_a_byte_order_mark(self) -> None:
        rest = "t q[0];\nrx(0.1) q[0];\nt q[0];\n"
        written = self.slices("\ufeff" + HEAD + "qreg q[1];\n" + rest, [len(HEAD) + 16])
        self.assertEqual(written, HEAD + "qreg q[1];\n" + rest)

    def test_late_declarations_are_refused(self) -> None:
        for late in ("qreg r[1];", "gate foo a { h a; }"):
            text = HEAD + f"qreg q[1];\nh q[0];\nh q[0];\n{late}\nh q[0];\n"
            self.streamed(text)
            with self.subTest(late=late), self.assertRaisesRegex(CannotCut, "before the first gate|has no end"):
                self.slices(text, [len(HEAD) + 20])

    def test_standard_input_has_none(self) -> None:
        with self.assertRaises(ValueError):
            optimise_stream("-", str(self.room / "a"), begin=1, executor=Here())


class Stop(BaseException):
    """Ends a run as nothing else does."""


class States(InFiles):
    """A run that was ended goes on, and ends in the bytes of an undisturbed one."""

    def stopped(self, number: int) -> Callable[[int], None]:
        def at(count: int) -> None:
            if count == number:
                raise Stop

        return at

    def test_going_on_at_each_window(self) -> None:
        for seed, packed in ((5000, ""), (5001, ".gz"), (5002, "")):
            text = Drawn(seed).text() if seed % 2 else drawn_text(seed)
            limits, target = Limits(3, 5, 1_000_000, 20, 3), str(self.room / f"to.qasm{packed}")
            written, totals = self.streamed(text, limits)
            self.assertGreater(totals.windows, 3)
            source = str(self.room / "read.qasm")
            more: dict[str, Any] = {"every": 0, "mode": "teleport"}
            with mock.patch("zxopt.stream.limits", lambda gates: limits), mock.patch("zxopt.stream.CHUNK", 40), mock.patch("os.fsync"):
                for _ in range(2 * totals.windows + 20):
                    try:
                        found = optimise_stream(source, target, executor=Here(self.stopped(2)), **more)
                        break
                    except Stop:
                        self.assertTrue(os.path.exists(f"{target}.state"))
                        # what a killed run may leave behind the state
                        with open(target, "ab") as file:
                            file.write(b"rest")
                else:
                    # a chunk closes two windows: go on without an end
                    found = optimise_stream(source, target, executor=Here(), **more)
            data = Path(target).read_bytes()
            with self.subTest(seed=seed):
                self.assertEqual((gzip.decompress(data) if packed else data).decode(), written)
                self.assertEqual(found, totals)
                self.assertFalse(os.path.exists(f"{target}.state"))

    def test_other_runs_are_refused(self) -> None:
        source, target = self.write("a.qasm", drawn_text(1)), str(self.room / "to")
        with self.assertRaises(Stop):
            optimise_stream(str(source), target, gates=10, executor=Here(self.stopped(2)))
        state = Path(f"{target}.state").read_bytes()
        other = self.write("b.qasm", drawn_text(2))
        for name, more, said in (
            (source, {"gates": 11}, "other settings"),
            (source, {"gates": 10, "mode": "plain"}, "other settings"),
            (source, {"gates": 10, "begin": 0}, "other settings"),
            (other, {"gates": 10}, "another text"),
            (source, {"gates": 10, "program": self.stand_in(f"exec '{absolute_program()['ZXOPT']}' \"$@\"")}, "another program"),
        ):
            with self.subTest(said=said, more=more), self.assertRaisesRegex(ValueError, said):
                optimise_stream(str(name), target, executor=Here(), **more)  # type: ignore[arg-type]
            self.assertEqual(Path(f"{target}.state").read_bytes(), state)
        Path(target).write_bytes(b"")
        with self.assertRaisesRegex(ValueError, "shorter"):
            optimise_stream(str(source), target, gates=10, executor=Here())
        optimise_stream(str(source), target, gates=11, executor=Here(), anew=True)
        self.assertTrue(zxopt.same(drawn_text(1), Path(target).read_text()))

    def test_standard_input(self) -> None:
        text = drawn_text(3)
        done = self.command("stream", "-", "--to", "to", "--counts", "--jobs", "1", text=text)
        self.assertEqual(done.returncode, 0, done.stderr)
        self.assertEqual(json.loads(done.stdout)["read"]["odd"], zxopt.counts(text, False).read.odd)
        self.assertTrue(zxopt.same(text, (self.room / "to").read_text()))
        Path(self.room / "to.state").write_text(json.dumps({"format": 1, "what": {}}) + "\n")
        self.assertEqual(self.command("stream", "-", "--to", "to", text=text).returncode, 1)


class Processes(InRoom):
    """Runs that end by force. Nothing of them lives on."""

    script = (
        "import os, sys\nfrom zxopt import stream\nfrom zxopt.schedule import Limits\nos.fsync = lambda number: None\n"
        "stream.CHUNK = 300\nstream.limits = lambda gates: Limits(gates, 24, 1_000_000, 400, 50)\n"
        "sys.exit(stream.main(sys.argv[1:]))\n"
    )

    def setUp(self) -> None:
        super().setUp()
        self.mark = f"mark{os.getpid()}x{id(self)}"
        self.env = {**os.environ, "PYTHONPATH": str(PYTHON), **absolute_program(), "ZXOPT_TEST": self.mark}

    def begin(self, *words: str, **more: Any) -> "subprocess.Popen[str]":
        command = [sys.executable, "-c", self.script, *words]
        more.setdefault("preexec_fn", with_default_signals)
        return subprocess.Popen(
            command, cwd=self.room, env=self.env, text=True, stdout=subprocess.PIPE, stderr=subprocess.PIPE, **more
        )

    def living(self) -> list[str]:
        """The processes that this test began, and those that they began."""
        out = []
        for name in filter(str.isdigit, os.listdir("/proc")):
            try:
                if self.mark.encode() in Path("/proc", name, "environ").read_bytes():
                    out.append(name)
            except OSError:
                pass
        return out

    def assert_all_end(self) -> None:
        """Within 30 seconds, since a busy machine takes its time; what would live on sleeps for twice as long."""
        last = time.monotonic() + 30
        while self.living() and time.monotonic() < last:
            time.sleep(0.05)
        self.assertEqual(self.living(), [])

    def text(self) -> str:
        draw = random.Random(6)
        lines = [f"{draw.choice(['h', 't', 's'])} q[{draw.randrange(40)}];" for _ in range(2000)]
        lines += ["cx q[{}],q[{}];".format(*draw.sample(range(40), 2)) for _ in range(2000)]
        draw.shuffle(lines)
        for at in range(0, 4000, 400):
            lines[at] = f"measure q[{draw.randrange(40)}] -> c[{at // 400}];"
        return HEAD + "qreg q[40];\ncreg c[10];\n" + "\n".join(lines)

    def finished(self, *words: str) -> bytes:
        """What an undisturbed run writes."""
        run = self.begin(*words, "--to", "whole")
        out, said = run.communicate(timeout=120)
        self.assertEqual(run.returncode, 0, said)
        return (self.room / "whole").read_bytes()

    @unittest.skipUnless(os.path.isdir("/proc/self"), "processes are looked up in /proc")
    def test_killed_at_ten_places(self) -> None:
        self.write("a.qasm", self.text())
        words = ["a.qasm", "--gates", "60", "--jobs", "2", "--every", "0"]
        whole = self.finished(*words)
        target, kills = self.room / "to", 0
        for place in range(10):
            run = self.begin(*words, "--to", "to")
            while run.poll() is None and (not target.exists() or target.stat().st_size <= place * len(whole) // 11):
                time.sleep(0.002)
            run.kill()
            run.communicate()
            kills += run.returncode == -signal.SIGKILL
            self.assert_all_end()
        self.assertGreaterEqual(kills, 8)
        run = self.begin(*words, "--to", "to")
        self.assertEqual((run.communicate()[1][-300:] and run.returncode), 0)
        self.assertEqual(target.read_bytes(), whole)
        self.assertEqual(sorted(it.name for it in self.room.iterdir()), ["a.qasm", "to", "whole"])

    def test_a_disk_that_fills_up(self) -> None:
        self.write("a.qasm", self.text())
        words = ["a.qasm", "--gates", "60", "--jobs", "1", "--every", "0"]
        whole = self.finished(*words)

        def small() -> None:
            resource.setrlimit(resource.RLIMIT_FSIZE, (len(whole) // 2, resource.RLIM_INFINITY))

        run = self.begin(*words, "--to", "to", preexec_fn=small)
        said = run.communicate()[1]
        self.assertEqual(run.returncode, 70, said)
        self.assertIn("File too large", said)
        run = self.begin(*words, "--to", "to")
        run.communicate()
        self.assertEqual((self.room / "to").read_bytes(), whole)

    @unittest.skipUnless(os.path.isdir("/proc/self"), "processes are looked up in /proc")
    def test_signals(self) -> None:
        self.write("a.qasm", self.text())
        program = self.env["ZXOPT"]
        self.env["ZXOPT"] = self.stand_in(f'[ "$1" = teleport ] && {{ touch "{self.room}/begun.$$"; sleep 60; }}; exec "{program}" "$@"')
        for number, status in ((signal.SIGTERM, 143), (signal.SIGINT, 130), (signal.SIGKILL, -signal.SIGKILL)):
            with self.subTest(number=number):
                run = self.begin("a.qasm", "--to", "to", "--jobs", "2")
                while not list(self.room.glob("begun.*")):
                    self.assertIsNone(run.poll())
                    time.sleep(0.02)
                refused = self.begin("a.qasm", "--to", "to", "--jobs", "1")
                self.assertIn("another run writes to", refused.communicate()[1])
                self.assertEqual(refused.returncode, 70)
                self.assertGreater(len(self.living()), 2)
                run.send_signal(number)
                run.communicate(timeout=30)
                self.assertEqual(run.returncode, status)
                self.assert_all_end()
                for it in self.room.glob("begun.*"):
                    it.unlink()


if __name__ == "__main__":
    unittest.main()
