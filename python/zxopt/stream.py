"""Optimises a text of any size in constant memory, window by window: `python3 -m zxopt stream READ --to WRITTEN`.

Windows are made by `schedule` and optimised side by side; what is written stands in the order in which they were
closed. A state beside WRITTEN is replaced from time to time, so that a run that was killed, or whose disk was full, goes
on and ends in the bytes of an undisturbed one, time limits aside. Slices of a text, by bytes, can be optimised in
runs of their own; what they write, in their order, is one text.

This stands outside of the proved program. What is proved is about each window's text that the program reads and writes;
that the text was cut and put together rightly is tested, not proved.
"""
from __future__ import annotations

import argparse
import json
import os
import sys
import time
from collections import deque
from concurrent.futures import Executor
from dataclasses import asdict
from typing import Any, Callable, NamedTuple, Optional, Sequence, Union

from . import arguments, executors, slices, windows, workers
from .circuit import CannotCut
from .executors import Dispatcher, Stamp
from .processes import processors
from .program import Program
from .reading import Reader
from .schedule import Limits, Node, Window, bundles
from .states import State, Target
from .totals import LeftWindow, Totals

__all__ = ["LeftWindow", "Totals", "main", "optimise_stream"]

# Bytes that are read at a time.
CHUNK = 1 << 18
# Bytes that wait behind windows that are under way.
WAITING = 16 << 20
# Qubits and registers of bits of operations that stay and wait behind open windows.
PLACES = 50_000


def optimise_stream(
    source: str,
    target: str,
    *,
    mode: str = "teleport",
    gates: int = 10_000,
    jobs: int = 1,
    begin: Optional[int] = None,
    end: Optional[int] = None,
    keep_barriers: bool = False,
    timeout: Optional[float] = None,
    anew: bool = False,
    every: float = 10.0,
    program: Optional[Program] = None,
    executor: Optional[Executor] = None,
    ahead: Optional[int] = None,
    progress: Optional[Callable[[Totals], None]] = None,
) -> Totals:
    """Optimises the text of the file `source`, or of standard input for `-`, into the file `target`.

    mode: one of `zxopt.windows.MODES`. gates: how many a window has at most. jobs: how many windows are optimised at a
    time, by processes of this machine. executor: another one, as in `zxopt.batch.optimise_files`, which gets bytes and
    words. ahead: how many windows are handed out at most, and how many wait for those before them; else two more than
    twice the jobs. begin, end: the slice of bytes that is optimised: from the first end of a statement behind the end
    of the line of `begin` on, up to that of `end`; the first slice writes the head, the others don't. timeout: a time
    limit for a window, in seconds; if it takes longer, `teleport` has as many again, and else it stays as it was read.
    anew: begins where it would go on. every: seconds between states. progress: is called when a state is taken.

    The two files are gz files where their names end with `.gz`; equality is then of the unpacked text.

    Raises CannotCut, a ValueError, where the text isn't one that the program would take but for single statements, or a
    name clashes: `zxopt.prepare` helps with many of these; then `target` is removed. ValueError where a state beside `target` is of another
    source, program or setting, a slice is asked of standard input or a gz file, or `target` is no file; BlockingIOError
    where another run writes `target`. MemoryError and OSError are those of `zxopt.program.run` and of files; the state
    stays then, as it does where the process ends in any other way.
    """
    if mode not in windows.MODES:
        raise ValueError(f"{mode} is none of {', '.join(windows.MODES)}")
    if jobs < 1 or gates < 1 or (ahead is not None and ahead < 1):
        raise ValueError("the numbers of jobs, of gates and of windows ahead are above 0")
    stamp = Stamp.of(program, executor is None)
    if source != "-" and os.path.exists(target) and os.path.samefile(source, target):
        raise ValueError(f"{target} is the file that is read")
    settings = {"mode": mode, "gates": gates, "from": begin, "until": end, "barriers": keep_barriers}
    with slices.opened(source, begin, end) as text:
        what = {"settings": settings, "source": text.identity, "program": [stamp.sha256, stamp.package]}
        with Target(target, what, anew, text.is_read_once) as to:
            with executors.dispatcher(executor, jobs, ahead or 2 * jobs + 2) as tasks:
                make = workers.Task("", "", (), mode, timeout, to.is_packed)
                run = _Run(text, to, tasks, stamp, make, gates, keep_barriers)
                run.every, run.progress = every, progress
                try:
                    return run.done()
                except CannotCut:
                    to.drop()
                    raise


def limits(gates: int) -> Limits:
    """The limits of windows of so many gates."""
    return Limits(gates, windows.GREATEST_QUBITS, windows.GREATEST_CALLS, max(400_000, 20 * gates), PLACES)


class _Lines:
    """Lines that are written in turn, between windows."""

    def __init__(self) -> None:
        self.lines: list[str] = []


class _Window(NamedTuple):
    """A window that was closed, and who optimises it."""

    window: workers.Task
    task: executors.Task


class _Saved(NamedTuple):
    """A state that was taken, and how many entries have to be written before it is kept."""

    entries: int
    bytes: int
    reader: str


class _Run:
    def __init__(
        self,
        text: slices.Source,
        to: Target,
        tasks: Dispatcher,
        stamp: Stamp,
        make: workers.Task,
        gates: int,
        barriers: bool,
    ) -> None:
        self.text, self.to, self.tasks, self.stamp, self.make = text, to, tasks, stamp, make
        self.limits = limits(gates)
        self.reader = Reader(self.limits, self.emit, self.say, self.check, barriers)
        self.totals = Totals()
        self.every = 10.0
        self.progress: Optional[Callable[[Totals], None]] = None
        # what isn't written yet, in order; how many entries were made and written; bytes of lines that wait
        self.under: deque[Union[_Lines, _Window]] = deque()
        self.made = self.written = self.waiting = 0
        self.saved: Optional[_Saved] = None
        self.is_silent = False

    def done(self) -> Totals:
        """The whole run."""
        state = self.to.state
        if state is None:
            self.begin()
        else:
            self.totals = Totals.of(state.totals)
            self.reader.restore(json.loads(state.reader))
            self.text.go_to(self.totals.bytes)
        last = time.monotonic()
        for chunk in self.text.chunks(CHUNK):
            self.reader.feed(chunk.decode("latin-1"))
            self.totals.bytes += len(chunk)
            if self.saved is None and time.monotonic() - last >= self.every:
                last = time.monotonic()
                self.save()
                if self.progress:
                    self.progress(self.totals)
        self.reader.end()
        self.settle(0)
        self.to.end()
        return self.totals

    def begin(self) -> None:
        """Writes the head, or reads it without writing it where this isn't the first slice."""
        self.is_silent = not self.text.is_first
        self.say(windows.HEAD)
        if self.text.head is not None:
            self.reader.feed(self.text.head.decode("latin-1"))
            self.reader.end_head()
        self.is_silent = False
        self.save()

    # -- what the reader gives ----------------------------------------------------------------------------------------

    def check(self, circuit: Any) -> None:
        windows.check_head(circuit, None, self.stamp.program)

    def emit(self, nodes: list[Node[str]]) -> None:
        """Takes what was closed."""
        for it in bundles(nodes, self.limits):
            if isinstance(it, Window):
                own = tuple(self.reader.circuit.shapes.own)
                window = self.make._replace(lines="".join(it.gates), declarations=self.reader.declarations, own=own)
                self.settle(self.tasks.ahead - 1)
                task = self.tasks.submit(executors.work, self.stamp, workers.work, window)
                self.under.append(_Window(window, task))
                self.made += 1
            else:
                self.say(it.what)
                self.settle(self.tasks.ahead)

    def say(self, lines: str) -> None:
        """Takes lines that are written in turn."""
        if self.is_silent:
            return
        if not self.under:
            self.write_lines(lines)
            return
        last = self.under[-1]
        # what a state doesn't count is written behind it
        if not isinstance(last, _Lines) or (self.saved is not None and self.saved.entries == self.made):
            last = _Lines()
            self.under.append(last)
            self.made += 1
        last.lines.append(lines)
        self.waiting += len(lines)

    # -- what is written ----------------------------------------------------------------------------------------------

    def settle(self, most: int) -> None:
        """Writes what is done, in order, and waits while more than so much is under way."""
        under = self.under
        self.tasks.poll()
        while under:
            first = under[0]
            if isinstance(first, _Lines):
                lines = "".join(first.lines)
                self.write_lines(lines)
                self.waiting -= len(lines)
            elif len(under) > most or self.waiting > WAITING or first.task.is_done:
                result = self.result(first)
                self.to.write(result.written)
                self.totals.add(result)
            else:
                return
            under.popleft()
            self.written += 1
            self.keep()

    def result(self, window: _Window) -> workers.Result:
        """Waits for what becomes of a window."""
        try:
            result: workers.Result = self.tasks.finish(window.task)
        except executors.WorkerEnded as ended:
            return workers.left(window.window, str(ended), self.stamp.program)
        return result

    def write_lines(self, lines: str) -> None:
        data = lines.encode("latin-1")
        self.to.write_plain(data)
        self.totals.lines += data.count(b"\n")

    def save(self) -> None:
        """Takes a state, as it is now, and keeps it when all that was closed before it is written."""
        if self.text.is_read_once:
            return
        self.saved = _Saved(self.made, self.totals.bytes, json.dumps(self.reader.state()))
        self.keep()

    def keep(self) -> None:
        """Replaces the state by the one that was taken, if its time has come."""
        saved = self.saved
        if saved is None or self.written < saved.entries:
            return
        told = {**asdict(self.totals), "bytes": saved.bytes}
        self.to.keep(State(told, saved.reader))
        self.saved = None


# -- the command ------------------------------------------------------------------------------------------------------


def main(argv: Sequence[str]) -> int:
    """The command `stream` with these words, and its exit status: 1 where a text, a state or words are refused, 5 where
    memory ran out, 70 where a file or the program can't be read, written or run."""
    from .__main__ import main as run_command

    return run_command(["stream", *argv])


def command_parser(command: str) -> argparse.ArgumentParser:
    """The words of the command `stream`."""
    parser = arguments.parser(
        command,
        "Optimises a text of OpenQASM 2.0 of any size in constant memory, window by window. A run that was interrupted "
        "goes on when it is called again.",
        "Slices whose bytes meet write texts that are one when they are joined in their order.",
    )
    add = parser.add_argument
    add("file", metavar="READ", help="the text, a gz file by its name's end; - for standard input, which can't go on")
    add("--to", required=True, metavar="WRITTEN", help="the file that is written, packed where its name ends with .gz")
    mode = parser.add_mutually_exclusive_group()
    for name, told in (
        ("teleport", "change phases alone, so that all other gates stay, as is done unless one of these is given"),
        ("best", "take the best of several circuits: ten to twenty-five times the time, for fewer gates on two qubits"),
        ("plain", "make one circuit: least time, and many more gates on two qubits"),
    ):
        mode.add_argument(f"--{name}", dest="mode", action="store_const", const=name, help=told)
    parser.set_defaults(mode="teleport")
    arguments.takes_executor(arguments.takes_jobs(parser, "windows"), "windows")
    arguments.takes_seconds(parser, "a time limit for a window; then teleport takes it, with the same limit")
    add("--gates", type=arguments.positive_int, default=10_000, metavar="N", help="gates of a window at most; else 10000")
    add("--barriers", action="store_true", help="keep barriers, and let no gate cross one")
    add("--from", dest="begin", type=_byte, metavar="BYTE", help="begin a slice behind the line of this byte")
    add("--until", dest="end", type=_byte, metavar="BYTE", help="end it behind the line of this one")
    add("--anew", action="store_true", help="begin, where a run would go on")
    add("--counts", action="store_true", help="tell the counts at the end as JSON")
    add("--every", type=float, default=10.0, metavar="N", help="seconds between states, which are told; else 10")
    return parser


def _byte(word: str) -> int:
    """A number of bytes, for argparse."""
    number = int(word)
    if number < 0:
        raise argparse.ArgumentTypeError(f"{word} is below 0")
    return number


def command(asked: argparse.Namespace) -> int:
    """The command `stream`; answers the exit status 0."""
    began = time.monotonic()
    size = None if asked.file == "-" else os.path.getsize(asked.file)
    first: list[int] = []

    def progress(totals: Totals) -> None:
        first.append(totals.read.gates)
        rate = (totals.read.gates - first[0]) / max(1e-3, time.monotonic() - began)
        of = "" if size is None or asked.file.endswith(".gz") else f" of {size / 1e6:.1f}"
        print(f"{totals.bytes / 1e6:.1f}{of} MB, {_told(totals)}, {rate:.0f} gates a second", file=sys.stderr, flush=True)

    with executors.asked_for(asked) as executor:
        totals = optimise_stream(
            asked.file,
            asked.to,
            mode=asked.mode,
            gates=asked.gates,
            jobs=asked.jobs or processors(),
            begin=asked.begin,
            end=asked.end,
            keep_barriers=asked.barriers,
            timeout=asked.seconds,
            anew=asked.anew,
            every=asked.every,
            executor=executor,
            ahead=asked.ahead if executor else None,
            progress=progress,
        )
    _tell(totals, asked, time.monotonic() - began)
    return 0


def _tell(totals: Totals, asked: argparse.Namespace, seconds: float) -> None:
    """Tells what was done, and what was left."""
    for it in totals.left_windows:
        where = f"window {it.window}, lines {it.first} to {it.last} of {asked.to}"
        print(f"zxopt stream: {where}: left as it was read: {it.why}", file=sys.stderr)
    if asked.counts:
        told = {**asdict(totals), "left_windows": [it._asdict() for it in totals.left_windows]}
        print(json.dumps({**told, "seconds": round(seconds, 2)}, indent=4))
    else:
        print(f"{_told(totals)}; {seconds:.2f} s")


def _told(totals: Totals) -> str:
    read, written = totals.read, totals.written
    left = f", {totals.left} windows left as they were read" if totals.left else ""
    return (
        f"{totals.windows} windows{left}, T {read.odd} -> {written.odd}, two-qubit {read.two_qubit} -> "
        f"{written.two_qubit}, gates {read.gates} -> {written.gates}"
    )
