"""Tests of the calls of the shared library: their answers are the program's, and where the program is run instead."""
from __future__ import annotations

import multiprocessing
import os
import shutil
import subprocess
import sys
import time
import unittest
from concurrent.futures import ThreadPoolExecutor
from typing import Callable, List, Optional, Tuple
from unittest import mock

from support import EXAMPLES, HEAD, PYTHON, TOP, InRoom, absolute_program, example

sys.path[:0] = [str(TOP), str(TOP / "tools/plain")]

import zxopt  # noqa: E402
from benchmarks.drawn import Kind, random_circuit  # noqa: E402
from drawing import PARTING_LINE, Draw  # noqa: E402
from zxopt import calls, processes, program  # noqa: E402
from zxopt.batch import Job, optimise_file  # noqa: E402

LIBRARY = TOP / "dist/libzxopt.so.1"
TWO_T = HEAD + "qreg q[1];\ns q[0];\n"
ON_CIRCUITS = (["opt"], ["opt", "--best"], ["opt", "--scalar", "--report"], ["teleport"], ["same"])
ON_FILES = {".qasm": ON_CIRCUITS, ".zxg": (["reduce"], ["flow"]), ".zxd": (["graph"], ["compile"])}
# A call takes at most this part of the time of a process.
FRACTION = 0.2


def told(words: List[str], text: bytes, **given: str) -> Tuple[str, object]:
    """What `run` answers, or what it raises."""
    try:
        return "answer", zxopt.run(words, text, **given)
    except zxopt.Refused as refused:
        return "refused", (*refused.args, str(refused))


class Calls(unittest.TestCase):
    """Tests in which the library is called where it may be, and programs that are run are counted."""

    def setUp(self) -> None:
        self.real = absolute_program()["ZXOPT"]
        self.programs = 0
        before = program.communicate

        def counting(command: List[str], data: bytes, timeout: Optional[float] = None) -> Tuple[bytes, bytes, int]:
            self.programs += len(command) > 1  # without words it is only tried whether it is loaded
            return before(command, data, timeout)

        for patch in (
            mock.patch.dict(os.environ, {"ZXOPT": "", "ZXOPT_LIBRARY": str(LIBRARY)}),
            mock.patch.object(program, "communicate", counting),
        ):
            patch.start()
            self.addCleanup(patch.stop)

    def runs(self, count: int, work: Callable[[], object]) -> None:
        """Some work runs so many programs."""
        before = self.programs
        work()
        self.assertEqual(self.programs - before, count)


class Answers(Calls):
    def compare(self, words: List[str], text: bytes) -> None:
        with self.subTest(words=words, text=text[:200]):
            self.assertEqual(told(words, text), told(words, text, program=self.real))

    def test_examples(self) -> None:
        for file in EXAMPLES.iterdir():
            for words in ON_FILES.get(file.suffix, ()):
                self.compare(words, file.read_bytes())

    def test_drawn_texts(self) -> None:
        """Circuits, pairs, graphs and diagrams, and each of them damaged."""
        draw = Draw(76)
        for _ in range(40):
            kinds = [(["opt"], draw.circuit()), (["teleport"], draw.circuit())]
            kinds += [(["same"], draw.circuit(10) + PARTING_LINE + draw.circuit(10)), (["flow"], draw.graph())]
            kinds += [(["reduce"], draw.graph()), (["compile"], draw.diagram())]
            for words, text in kinds:
                self.compare(words, text.encode())
                self.compare(words, draw.damaged(text.encode()))

    def test_faults_without_a_place(self) -> None:
        not_square = b"zxd 2\nspider 0 Z 0\ninput 0 plain\nend\n"
        for words, text in ((["opt"], b"qreg q[1];"), (["same"], b"x"), (["compile"], not_square)):
            self.compare(words, text)
            kind, refused = told(words, text)
            self.assertEqual((kind, refused[2]), ("refused", None))  # type: ignore[index]

    def test_each_function(self) -> None:
        """All that a library answers, without a program."""

        def work() -> None:
            text = example("two_t.qasm")
            self.assertEqual(zxopt.optimise(text), TWO_T)
            self.assertEqual(zxopt.optimise_counted(text, False).scalar, zxopt.Scalar(2, 0))
            self.assertEqual(zxopt.teleport(text), TWO_T)
            self.assertTrue(zxopt.same(text, TWO_T))
            self.assertEqual(zxopt.compile(example("diagram.zxd")), HEAD + "qreg q[1];\nt q[0];\n")
            self.assertTrue(zxopt.flow(zxopt.reduce(example("path.zxg"))))
            self.assertTrue(zxopt.graph(example("diagram.zxd")).startswith("zxg 2\n"))

        self.runs(0, work)

    def test_more_room_than_was_thought(self) -> None:
        """Many gates of one short line each are written for it."""
        text = HEAD + "gate g a { " + "h a; t a; " * 300 + "}\nqreg q[8];\ng q;\n"
        written = zxopt.teleport(text)
        self.assertGreater(len(written), 2 * len(text) + 4096)
        self.assertEqual(written, zxopt.teleport(text, program=self.real))

    def test_no_memory(self) -> None:
        with mock.patch.object(calls.Library, "answer", lambda *_: calls.Answer(5, b"", 0, 0)):
            with self.assertRaises(MemoryError):
                zxopt.optimise(TWO_T)


class WhereTheProgramRuns(Calls):
    def test_what_is_given(self) -> None:
        self.runs(0, lambda: zxopt.optimise(TWO_T))
        self.runs(1, lambda: zxopt.optimise(TWO_T, timeout=60))
        self.runs(1, lambda: zxopt.optimise(TWO_T, program=self.real))
        with mock.patch.dict(os.environ, {"ZXOPT": self.real}):
            self.runs(1, lambda: zxopt.optimise(TWO_T))

    def test_long_texts(self) -> None:
        """More than 64 KiB go to the program, which Ctrl-C ends."""
        text = TWO_T + "//" + " " * (65536 - len(TWO_T) - 3) + "\n"
        self.assertEqual(len(text), 65536)
        self.runs(0, lambda: zxopt.optimise(text))
        self.runs(1, lambda: zxopt.optimise(text + "\n"))
        self.runs(1, lambda: zxopt.optimise(text + "\n", best=False))

    def test_commands(self) -> None:
        """What signals have to end is a program."""
        with processes.ending_children():
            self.runs(1, lambda: zxopt.optimise(TWO_T))
        self.runs(0, lambda: zxopt.optimise(TWO_T))

    def test_words_without_a_call(self) -> None:
        self.runs(1, lambda: zxopt.run(["gen", "7", "3", "50"], b""))
        for words in (["opt", "--best", "--best"], ["teleport", "--best"], []):
            with self.assertRaises(OSError) as caught:
                zxopt.run(words, TWO_T)
            self.assertIn("usage", str(caught.exception))

    def test_no_library(self) -> None:
        with mock.patch.dict(os.environ, {"ZXOPT_LIBRARY": ""}):
            self.runs(1, lambda: zxopt.optimise(TWO_T, False))


class Batch(Calls, InRoom):
    def setUp(self) -> None:
        Calls.setUp(self)
        InRoom.setUp(self)

    def test_batch(self) -> None:
        job = Job(EXAMPLES / "two_t.qasm", self.room / "out.qasm")
        self.runs(1, lambda: self.assertEqual(optimise_file(job).state, "written"))


class Finding(InRoom):
    """Which library is taken, in a clone that has only what a test puts there."""

    def setUp(self) -> None:
        super().setUp()
        self.real = absolute_program()["ZXOPT"]
        for patch in (
            mock.patch.object(program, "__file__", str(self.room / "clone/python/zxopt/program.py")),
            mock.patch.object(program.resources, "files", lambda _: self.room / "installed"),
            mock.patch.dict(os.environ, {"ZXOPT": ""}),
        ):
            patch.start()
            self.addCleanup(patch.stop)
        self.addCleanup(program._own_library.cache_clear)
        os.environ.pop("ZXOPT_LIBRARY", None)

    def put(self, name: str) -> None:
        (self.room / name).parent.mkdir(parents=True, exist_ok=True)
        shutil.copy(LIBRARY, self.room / name)

    def found(self) -> str:
        program._own_library.cache_clear()
        library = program.find_library()
        return os.path.relpath(library.file, self.room) if library else ""

    def test_order(self) -> None:
        self.put("installed/lib/libzxopt.so.1")
        self.assertEqual(self.found(), "installed/lib/libzxopt.so.1")
        self.put("clone/dist/libzxopt.so.1")
        self.assertEqual(self.found(), "installed/lib/libzxopt.so.1")  # no clone of the repository
        self.write("clone/crates.txt", "")
        self.assertEqual(self.found(), "clone/dist/libzxopt.so.1")
        self.put("named.so")
        os.environ["ZXOPT_LIBRARY"] = str(self.room / "named.so")
        self.assertEqual(self.found(), "named.so")
        os.environ["ZXOPT"] = "a-program"
        self.assertEqual(self.found(), "")
        os.environ.update(ZXOPT="", ZXOPT_LIBRARY="")
        self.assertEqual(self.found(), "")

    def test_clone_that_was_built(self) -> None:
        """Its program may be of other sources, and runs. A program that was taken from dist is of the library's."""
        self.put("clone/dist/libzxopt.so.1")
        self.write("clone/crates.txt", "")
        self.write("clone/out/zxopt", "")
        self.assertEqual(self.found(), "")
        self.write("clone/out/zxopt.taken", "")
        self.assertEqual(self.found(), "clone/dist/libzxopt.so.1")

    def test_that_are_none(self) -> None:
        """Another version, another library and no library: passed over, but told where they are named."""
        self.write("clone/crates.txt", "")
        self.put("installed/lib/libzxopt.so.1")
        self.write("clone/dist/libzxopt.so.1", "no library")
        self.assertEqual(self.found(), "installed/lib/libzxopt.so.1")
        for name in (str(self.room / "clone/dist/libzxopt.so.1"), "/nowhere/libzxopt.so.1", "libm.so.6"):
            os.environ["ZXOPT_LIBRARY"] = name
            with self.subTest(name=name), self.assertRaises(OSError):
                zxopt.optimise(TWO_T)
        with mock.patch.object(calls, "VERSION_NUMBER", 10001):
            self.put("newer.so")
            os.environ["ZXOPT_LIBRARY"] = str(self.room / "newer.so")
            with self.assertRaises(OSError) as caught:
                zxopt.optimise(TWO_T)
        self.assertIn("newer.so is of version 10000, and this package is of 10001", str(caught.exception))

    def test_without_ctypes(self) -> None:
        """A Python that can't call libraries runs the program."""
        self.write("clone/crates.txt", "")
        self.put("clone/dist/libzxopt.so.1")
        program._library.cache_clear()
        with mock.patch.dict(sys.modules, {"zxopt.calls": None}):
            self.assertEqual(self.found(), "")
        self.assertEqual(self.found(), "clone/dist/libzxopt.so.1")

    def test_of_the_system(self) -> None:
        """The loader finds it, here by a folder that is named to it."""
        self.put("system/libzxopt.so.1")
        shutil.copytree(PYTHON / "zxopt", self.room / "package/zxopt", ignore=shutil.ignore_patterns("__pycache__"))
        folders = {"PYTHONPATH": str(self.room / "package"), "LD_LIBRARY_PATH": str(self.room / "system")}
        source = f"import zxopt; print(zxopt.optimise({TWO_T!r}, False), end='')"
        ran = subprocess.run(
            [sys.executable, "-c", source], env={"PATH": "/nowhere", **folders}, capture_output=True, text=True
        )
        self.assertEqual((ran.stdout, ran.stderr), (TWO_T, ""))

    def test_version(self) -> None:
        os.environ["ZXOPT_LIBRARY"] = str(LIBRARY)
        with mock.patch.object(program, "__file__", str(PYTHON / "zxopt/program.py")):
            self.assertEqual(zxopt.version().library, str(LIBRARY))
            self.assertTrue(str(zxopt.version()).endswith(f"\nlibrary {LIBRARY}"))
        self.assertTrue(str(zxopt.version(self.real)).endswith("\nlibrary none"))


def optimised(name: str) -> str:
    """What becomes of an example; at the top of the module, so that other processes find it."""
    return zxopt.optimise(example(name), False)


class SideBySide(Calls):
    NAMES = ["two_t.qasm", "across_cx.qasm", "tof_3.qasm", "nothing_left.qasm"] * 8

    def test_threads(self) -> None:
        """Eight threads at once."""
        alone = {name: optimised(name) for name in set(self.NAMES)}

        def work() -> None:
            with ThreadPoolExecutor(8) as pool:
                self.assertEqual(list(pool.map(optimised, self.NAMES)), [alone[name] for name in self.NAMES])

        self.runs(0, work)

    @unittest.skipUnless(hasattr(os, "fork"), "there is no fork")
    def test_fork(self) -> None:
        """Processes that are forked off while threads call, once the library is loaded."""
        alone = [optimised(name) for name in self.NAMES]
        with ThreadPoolExecutor(4) as threads:
            meanwhile = [threads.submit(optimised, name) for name in self.NAMES * 4]
            with multiprocessing.get_context("fork").Pool(2) as pool:
                self.assertEqual(pool.map(optimised, self.NAMES), alone)
            self.assertEqual([it.result() for it in meanwhile], alone * 4)


def least_time(work: Callable[[], str]) -> Tuple[float, str]:
    """The least of three times that some work takes, since others use the processor too, and what it answers."""
    least = float("inf")
    for _ in range(3):
        began = time.perf_counter()
        answer = work()
        least = min(least, time.perf_counter() - began)
    return least, answer


class Times(Calls):
    def test_against_processes(self) -> None:
        """A thousand circuits of 20 gates, each in turn by calls and by processes."""
        by_calls = by_processes = 0.0
        for seed in range(1000):
            text = random_circuit(Kind.RANDOM, 2 + seed % 5, 20, seed).text()
            one, written = least_time(lambda: zxopt.optimise(text, False))
            other, wanted = least_time(lambda: zxopt.optimise(text, False, program=self.real))
            self.assertEqual(written, wanted)
            by_calls += one
            by_processes += other
        print(f"1,000 circuits of 20 gates: {by_calls * 1e3:.0f} ms by calls, {by_processes * 1e3:.0f} ms by processes")
        self.assertLessEqual(by_calls, FRACTION * by_processes)


if __name__ == "__main__":
    unittest.main()
