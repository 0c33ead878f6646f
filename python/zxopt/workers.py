"""What becomes of a window of `stream`, in whatever process: bytes and words in, bytes and counts out.

`processes` makes processes of this machine for it. None of them, and no program that they run, outlives the process
that made them, however it ends: each waits for a pipe that this process alone holds open.
"""
from __future__ import annotations

import gzip
import multiprocessing
import os
import re
import signal
import threading
from concurrent.futures import Executor, ProcessPoolExecutor
from contextlib import contextmanager, suppress
from multiprocessing.connection import Connection
from types import FrameType
from typing import Iterator, NamedTuple, Optional

from . import windows
from .circuit import CannotCut
from .commands import GateCounts
from .faults import Refused
from .program import Program

__all__ = ["Processes", "Result", "Task", "left", "processes", "work"]

_LOCAL = re.compile(r"q\[(\d+)\]")
_DECLARING = ("gate ", "opaque ", "qreg ", "creg ")


class Task(NamedTuple):
    """A window: lines of gates with the names that were read, declarations of gates and their names, a mode of
    `zxopt.windows`, a time limit, and whether what is written is to be packed as a member of a gz file."""

    lines: str
    declarations: str
    own: tuple[str, ...]
    mode: str
    timeout: Optional[float]
    is_packed: bool


class Result(NamedTuple):
    """What is written for a window, the number of its lines, counts before and after, and why it was left as it was
    read, if something went wrong."""

    written: bytes
    lines: int
    read: GateCounts
    after: GateCounts
    why: str


def work(task: Task, program: Optional[Program] = None) -> Result:
    """Optimises a window by the program. Where its circuit isn't better, or it took too long even by `teleport`, or its
    memory ran out, the window stays as it was read; what the program refuses stays within it.

    OSError is that of `zxopt.program.run`, but for a program that was killed, as it is where memory is short.
    """
    window = _Window(task, program)
    done, why = window.made()
    if done is None:
        return window.left(why)
    back = list(window.names)
    placed = {line: _LOCAL.sub(lambda it: back[int(it[1])], line) for line in set(done.lines)}
    data = "".join([f"{placed[it]}\n" for it in done.lines]).encode("latin-1")
    return Result(_packed(data, task), len(done.lines), done.read or window.counted(), done.written, why)


def left(task: Task, why: str, program: Optional[Program] = None) -> Result:
    """A window as it was read, and why it stays so."""
    return _Window(task, program).left(why)


def _packed(data: bytes, task: Task) -> bytes:
    return gzip.compress(data, 6, mtime=0) if task.is_packed and data else data


class _Window:
    """A window on `q`."""

    def __init__(self, task: Task, program: Optional[Program]) -> None:
        self.task, self.program = task, program
        lines = task.lines.split("\n")[:-1]
        # the qubits by the names that were read
        self.names: dict[str, str] = {}
        local = dict.fromkeys(lines, "")
        for line in local:
            shape, _, places = line[:-1].rpartition(" ")
            named = [self.names.setdefault(it, f"q[{len(self.names)}]") for it in places.split(",")]
            local[line] = f"{shape} {','.join(named)};"
        self.lines = [local[it] for it in lines]
        body = "\n".join([f"qreg q[{len(self.names)}];", *self.lines, ""])
        self.text = f"{windows.HEAD}{task.declarations}{body}"

    def left(self, why: str) -> Result:
        """The window as it was read."""
        counts = self.counted()
        return Result(_packed(self.task.lines.encode("latin-1"), self.task), len(self.lines), counts, counts, why)

    def counted(self) -> GateCounts:
        """The counts of what was read."""
        return windows.counted(self.lines, self.task.declarations, self.task.own, self.program)

    def made(self) -> tuple[Optional[windows.Written], str]:
        """What is written, or none where the window is left as it is; and why, if something went wrong."""
        modes = [self.task.mode, *(["teleport"] if self.task.mode != "teleport" else [])]
        why = ""
        for mode in modes:
            try:
                return self.made_by(mode), ""
            except TimeoutError as late:
                why = str(late)
            except (MemoryError, CannotCut) as failed:
                return None, str(failed) or "no memory"
            except OSError as failed:
                if "SIGKILL" not in str(failed):
                    raise
                return None, str(failed)
        return None, why

    def made_by(self, mode: str) -> Optional[windows.Written]:
        try:
            done = windows.made(self.text, mode, self.task.timeout, self.program)
        except Refused:
            return self.in_parts(mode)
        read = done.read or self.counted()
        return done._replace(read=read) if windows.is_better(read, done.written) else None

    def in_parts(self, mode: str) -> windows.Written:
        """What is written where the program refuses a gate that it was expected to read: this gate stays."""
        from .parts import optimise_parts

        made = optimise_parts(
            self.text, best=mode == "best", teleport=mode == "teleport", timeout=self.task.timeout, program=self.program
        )
        lines = [it for it in made.text.splitlines()[2:] if not it.startswith(_DECLARING)]
        return windows.Written(lines, made.counts.read, made.counts.written)


class Processes:
    """So many processes of this machine, behind an executor that can be replaced by a fresh one."""

    def __init__(self, jobs: int) -> None:
        self.jobs = jobs
        self.context = multiprocessing.get_context()
        self.start()

    def start(self) -> None:
        """Takes an executor, whose workers wait for one pipe, and tell their numbers through another one."""
        self.guard, self.guarding = self.context.Pipe(duplex=False)
        self.numbers, self.telling = self.context.Pipe(duplex=False)
        pipes = self.guard, self.guarding, self.telling
        self.executor: Executor = ProcessPoolExecutor(self.jobs, self.context, _begin, pipes)

    def renew(self) -> None:
        """Ends all workers, and takes fresh ones."""
        self.kill()
        self.start()

    def kill(self) -> None:
        """Ends all workers and the programs that they run, also those of workers that ended before."""
        self.guarding.close()
        while self.numbers.poll():
            with suppress(ProcessLookupError):
                os.killpg(int(self.numbers.recv_bytes()), signal.SIGKILL)
        # many versions of Python have an executor wait for ever until workers that ended read what it writes to them
        queue = getattr(self.executor, "_call_queue", None)
        if queue is not None:
            with suppress(OSError), open(os.devnull, "rb") as nothing:
                os.dup2(nothing.fileno(), queue._reader.fileno(), inheritable=False)
        self.close()

    def close(self) -> None:
        """Waits until the workers ended."""
        self.executor.shutdown()
        for pipe in (self.guarding, self.guard, self.numbers, self.telling):
            pipe.close()


@contextmanager
def processes(jobs: int) -> Iterator[Processes]:
    """So many processes for `work`. They end behind the block, and at once where it is left by an exception."""
    made = Processes(jobs)
    try:
        yield made
    except BaseException:
        made.kill()
        raise
    made.close()


def _begin(guard: Connection, guarding: Connection, telling: Connection) -> None:
    """Begins a worker: a group of its own with the programs that it runs, which ends with the process that made it."""
    guarding.close()
    os.setpgid(0, 0)
    telling.send_bytes(str(os.getpid()).encode())
    for number in (signal.SIGTERM, signal.SIGINT, signal.SIGHUP):
        signal.signal(number, _end_group)
    threading.Thread(target=_end_with, args=(guard,), daemon=True).start()


def _end_with(guard: Connection) -> None:
    try:
        guard.recv_bytes()
    except (EOFError, OSError):
        pass
    os.killpg(0, signal.SIGKILL)


def _end_group(number: int, frame: Optional[FrameType]) -> None:
    """The handler of signals: ends the worker and the programs that it runs."""
    os.killpg(0, signal.SIGKILL)
