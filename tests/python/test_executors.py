"""Tests of tasks that executors do: how many they get, which worker may, and workers that end."""
from __future__ import annotations

import os
import random
import re
import signal
import threading
import unittest
from collections import Counter
from concurrent.futures import Executor, Future, ProcessPoolExecutor, ThreadPoolExecutor
from contextlib import suppress
from pathlib import Path
from typing import Any, Callable, List, Sequence

from support import HEAD, InRoom, absolute_program, example
from test_signals import is_running, waited

import zxopt
from zxopt import executors
from zxopt.batch import Job, Settings, optimise_files
from zxopt.parts import optimise_parts
from zxopt.stream import optimise_stream


# What a program does that is killed with its worker, or a while later.
ENDS_WORKER = "kill -KILL $PPID; exec sleep 600"


class Counting(Executor):
    """An executor of threads that knows how many tasks it had at a time."""

    def __init__(self) -> None:
        self.threads = ThreadPoolExecutor(8)
        self.lock = threading.Lock()
        self.now = self.most = self.all = 0

    def submit(self, fn: Callable[..., Any], /, *args: Any, **more: Any) -> "Future[Any]":
        with self.lock:
            self.now, self.all = self.now + 1, self.all + 1
            self.most = max(self.most, self.now)
        future = self.threads.submit(fn, *args, **more)
        future.add_done_callback(self.ended)
        return future

    def ended(self, future: "Future[Any]") -> None:
        with self.lock:
            self.now -= 1


class Gone(Executor):
    """An executor whose tasks are cancelled, or that takes none."""

    def __init__(self, takes: bool) -> None:
        self.takes = takes

    def submit(self, fn: Callable[..., Any], /, *args: Any, **more: Any) -> "Future[Any]":
        if not self.takes:
            raise RuntimeError("no more")
        future: Future[Any] = Future()
        future.cancel()
        future.set_running_or_notify_cancel()
        return future


class KilledWorker(Exception):
    """What Dask raises for a task whose workers ended too often."""


class Killing(Executor):
    """An executor some of whose tasks end their workers: those with a word of `always`, and once each of `once`."""

    def __init__(self, always: Sequence[str], once: Sequence[str]) -> None:
        self.always, self.once = always, list(once)
        self.asked: Counter[str] = Counter()

    def submit(self, fn: Callable[..., Any], /, *args: Any, **more: Any) -> "Future[Any]":
        future: Future[Any] = Future()
        said = str(args)
        self.asked.update(re.findall(r"\d+\.qasm", said)[:1])
        if any(it in said for it in [*self.always, *self.once]):
            self.once = [it for it in self.once if it not in said]
            future.set_exception(KilledWorker())
        else:
            future.set_result(fn(*args, **more))
        return future


def with_other_program(program: str) -> None:
    """Begins a worker that finds another program."""
    os.environ["ZXOPT"] = program


class InTexts(InRoom):
    """Texts in windows of eight gates: the second one has seven qubits, and all others two."""

    def setUp(self) -> None:
        super().setUp()
        draw = random.Random(3)
        lines = []
        for first, last in ((0, 1), (2, 8), (9, 10), (11, 12), (13, 14), (15, 16)):
            lines += [f"cx q[{at}],q[{at + 1}];" for at in range(first, last)]
            lines += [f"t q[{draw.randint(first, last)}];" for _ in range(8 - last + first)]
        self.text = f"{HEAD}qreg q[17];\n" + "\n".join(lines) + "\n"
        self.source = self.write("read.qasm", self.text)
        names = [f"{at}.qasm" for at in range(9)]
        for at, name in enumerate(names):
            self.write(f"in/{name}", f"{HEAD}qreg q[{at + 1}]; t q; t q;")
        self.jobs = [Job(self.room / "in" / name, self.room / "out" / name) for name in names]

    def streamed(self, **more: Any) -> str:
        optimise_stream(str(self.source), str(self.room / "to"), gates=8, **more)
        return (self.room / "to").read_text()

    def doing(self, wanted: str, action: str = ENDS_WORKER, is_once: bool = False) -> str:
        """A program that does something where a text has these words, always or the first time alone."""
        real = absolute_program()["ZXOPT"]
        first = f' && mkdir "{self.room}/once" 2>/dev/null' if is_once else ""
        act = f'if [[ $text = *"{wanted}"* ]]{first}; then echo $$ >>"{self.room}/ends"; {action}; fi'
        self.addCleanup(self.end_programs)
        return self.stand_in(f'text=$(cat); {act}; exec "{real}" "$@" <<<"$text"', "doing")

    def programs(self) -> List[int]:
        """The numbers of the programs that did so."""
        file = self.room / "ends"
        return [int(it) for it in file.read_text().split()] if file.exists() else []

    def end_programs(self) -> None:
        for number in self.programs():
            with suppress(ProcessLookupError):
                os.kill(number, signal.SIGKILL)

    def ends(self) -> int:
        """How many workers were ended. None of the programs that they ran lives on."""
        self.assertTrue(waited(lambda: not any(is_running(it) for it in self.programs())))
        return len(self.programs())


class Given(InTexts):
    """Executors that are given."""

    def test_the_same_bytes_and_never_more_than_ahead(self) -> None:
        alone = self.streamed()
        for ahead in (1, 3):
            counting = Counting()
            self.assertEqual(self.streamed(executor=counting, ahead=ahead), alone)
            self.assertEqual((counting.most, counting.all), (ahead, 6))
            counting = Counting()
            outcomes = list(optimise_files(self.jobs, Settings(best=False), executor=counting, ahead=ahead))
            self.assertEqual([it.job for it in outcomes], self.jobs)
            self.assertEqual((counting.most, counting.all), (ahead, 9))
            for it in self.jobs:
                self.assertEqual(it.target.read_text(), zxopt.optimise(it.source, False))
            counting = Counting()
            found = optimise_parts(self.text, gates=8, teleport=True, executor=counting, ahead=ahead)
            self.assertEqual(found, optimise_parts(self.text, gates=8, teleport=True))
            self.assertLessEqual(counting.most, ahead)
            self.assertGreater(counting.all, 4)
        for wrong in (0, -1):
            with self.assertRaises(ValueError):
                self.streamed(executor=Counting(), ahead=wrong)
            with self.assertRaises(ValueError):
                list(optimise_files(self.jobs, executor=Counting(), ahead=wrong))
            with self.assertRaises(ValueError):
                optimise_parts(self.text, executor=Counting(), ahead=wrong)

    def test_another_program_is_refused(self) -> None:
        other = self.stand_in(f'exec "{absolute_program()["ZXOPT"]}" "$@"')
        said = "the worker [0-9]+ on .* has version .* with the program .*stand_in of the sum .* install the same wheel"
        with ProcessPoolExecutor(1, initializer=with_other_program, initargs=(other,)) as pool:
            for call in (
                lambda: self.streamed(executor=pool),
                lambda: list(optimise_files(self.jobs, executor=pool)),
                lambda: optimise_parts(example("tof_3.qasm"), executor=pool),
            ):
                with self.assertRaisesRegex(executors.OtherVersion, said):
                    call()
            # one that is named is the one that workers take
            named = Settings(program=absolute_program()["ZXOPT"])
            self.assertTrue(all(it.is_good for it in optimise_files(self.jobs[:2], named, executor=pool)))
        with self.assertRaisesRegex(executors.OtherVersion, "has version .* where 0.1 and "):
            executors.work(executors.Stamp("0.1", zxopt.version().sha256, None), print)

    def test_the_program_is_looked_up_once(self) -> None:
        executors._own.cache_clear()
        stamp = executors.Stamp.of(None, False)
        self.assertEqual([executors.work(stamp, lambda it, program: it, at) for at in range(5)], list(range(5)))
        self.assertEqual(executors._own.cache_info().misses, 1)

    def test_executors_that_are_gone(self) -> None:
        for takes, said in ((True, "gave up its tasks"), (False, "takes no more tasks: no more")):
            for call in (
                lambda: self.streamed(executor=Gone(takes), anew=True),
                lambda: list(optimise_files(self.jobs, executor=Gone(takes))),
                lambda: optimise_parts(self.text, executor=Gone(takes)),
            ):
                with self.assertRaisesRegex(OSError, said):
                    call()

    def test_workers_of_a_given_pool(self) -> None:
        """It can't be replaced, so the run ends, and another one does the rest."""
        program = self.doing("qreg q[7];", is_once=True)
        with ProcessPoolExecutor(2) as pool, self.assertRaisesRegex(OSError, "the executor's workers ended"):
            self.streamed(executor=pool, program=program)
        self.assertEqual(self.streamed(program=program), self.streamed())


class Ended(InTexts):
    """Workers of this machine that end."""

    def test_nothing_is_lost(self) -> None:
        alone = self.streamed()
        self.assertEqual(self.streamed(jobs=2, program=self.doing("qreg q[7];", is_once=True)), alone)
        self.assertEqual(self.ends(), 1)

    def test_large_windows(self) -> None:
        """Windows that are larger than a pipe wait for workers when one of them is ended."""
        lines = "".join(f"t q[{at % 9}];\ncx q[{at % 9}],q[{(at + 1) % 9}];\n" for at in range(30_000))
        self.write("large.qasm", f"{HEAD}qreg q[9];\n{lines}")
        words = ["stream", "large.qasm", "--gates", "6000", "--plain", "--to"]
        self.assertEqual(self.command(*words, "alone").returncode, 0)
        ran = self.command(*words, "to", "--jobs", "2", env={"ZXOPT": self.doing("cx q[7],q[8];", is_once=True)})
        self.assertEqual((ran.returncode, ran.stderr), (0, ""))
        self.assertEqual((self.room / "to").read_bytes(), (self.room / "alone").read_bytes())
        self.assertEqual(self.ends(), 1)

    def test_a_window_that_ends_its_worker(self) -> None:
        """The third time it stays as it was read, and is told; what was under way beside it is done."""
        program, to = self.doing("qreg q[7];"), str(self.room / "to")
        totals = optimise_stream(str(self.source), to, gates=8, jobs=2, program=program)
        self.assertEqual(self.ends(), 3)
        (left,) = totals.left_windows
        self.assertEqual((left.window, left.why), (2, "its worker ended 3 times"))
        lines = (self.room / "to").read_text().splitlines()[left.first - 1 : left.last]
        self.assertEqual(lines, self.text.splitlines()[11:19])
        self.assertEqual((totals.windows, totals.left), (6, 1))
        self.assertTrue(zxopt.same(self.text, self.room / "to"))

    def test_files(self) -> None:
        """As Dask tells of them: one that ends its worker again when it is alone failed, and all others are done."""
        killing = Killing(["3.qasm"], ["5.qasm", "6.qasm"])
        outcomes = list(optimise_files(self.jobs, Settings(best=False), executor=killing, ahead=4))
        failed = [(it.job, it.told) for it in outcomes if not it.is_good]
        self.assertEqual(failed, [(self.jobs[3], f"{self.jobs[3].source}: its worker ended 3 times")])
        self.assertEqual((killing.asked["3.qasm"], killing.asked["5.qasm"], killing.asked["4.qasm"]), (2, 2, 1))
        self.assertEqual([it.job for it in outcomes], self.jobs)

    def test_parts(self) -> None:
        text = self.text.replace("cx q[2],q[3];", "rx(0.1) q[0]; cx q[2],q[3];")
        found = optimise_parts(text, gates=8, teleport=True, executor=Killing(["qreg q[7];"], []))
        self.assertEqual([(it.gates, it.why) for it in found.late], [(8, "its worker ended 3 times")])
        self.assertTrue(zxopt.same(self.text, found.text.replace("rx(0.1) q[0];\n", "")))


class Words(InTexts):
    """Executors on the command line."""

    def test_a_function(self) -> None:
        module = "from concurrent.futures import ThreadPoolExecutor\ndef two():\n    return ThreadPoolExecutor(2)\n"
        self.write("mine.py", module)
        ran = self.command("batch", "in", "--to", "out", "--no-best", "--executor", "mine:two", "--ahead", "3")
        self.assertEqual((ran.returncode, ran.stderr), (0, ""))
        self.assertIn("9 written", ran.stdout)
        alone = self.streamed()
        ran = self.command("stream", "read.qasm", "--to", "to", "--gates", "8", "--executor", "mine:two")
        self.assertEqual((ran.returncode, (self.room / "to").read_text()), (0, alone))

    def test_what_cannot_be_had(self) -> None:
        for words, status, said in (
            (["--executor", "mine"], 2, "isn't MODULE:FUNCTION"),
            (["--executor", "no.such_module:it"], 70, "no.such_module:it: No module named 'no'"),
            (["--executor", "os:no_such"], 70, "no_such"),
            (["--executor", "os:getpid"], 70, "is no concurrent.futures.Executor"),
            (["--executor", "os:getpid", "--dask", "tcp://127.0.0.1:1"], 2, "not allowed with"),
            (["--ahead", "0"], 2, "isn't above 0"),
        ):
            for command in (["batch", "in"], ["stream", "read.qasm"]):
                with self.subTest(words=words, command=command):
                    ran = self.command(*command, "--to", "out", *words)
                    self.assertEqual(ran.returncode, status, ran.stderr)
                    self.assertIn(said, ran.stderr)
        self.assertFalse(Path(self.room, "out").exists())


if __name__ == "__main__":
    unittest.main()
