"""Runs programs such that none outlives the command that called it.

`communicate` is safe from several threads. `ending_children` is for commands: while it holds, SIGTERM, SIGINT and
SIGHUP end all programs that are running, and no new one begins. A program of yours that calls the package's functions
has its own handlers of signals, and these don't change them.
"""
from __future__ import annotations

import os
import signal
import subprocess
import threading
from contextlib import contextmanager
from types import FrameType
from typing import Iterator, Optional, Sequence, Set, Tuple

__all__ = ["CALLED", "Stopped", "communicate", "ending_children", "ends_children", "processors"]

# This variable tells a process that it was started as the program, for which none of this package has to be taken.
CALLED = "ZXOPT_CALLED"

# Seconds from which on a time limit is none: the system can't wait so long at once.
_FOR_EVER = 1e6


class Stopped(KeyboardInterrupt):
    """A signal ends the command."""

    def __init__(self, number: int) -> None:
        super().__init__(number)
        self.number = number

    def __str__(self) -> str:
        return f"ended by {signal.Signals(self.number).name}"


class _Children:
    """The programs that run now, which signal has come, whether signals end programs, and whether the main thread is
    just starting one."""

    def __init__(self) -> None:
        self.are_ended = False
        self.running: Set["subprocess.Popen[bytes]"] = set()
        self.stopped = 0
        self.is_starting = False

    def check(self) -> None:
        if self.stopped:
            raise Stopped(self.stopped)

    def start(self, command: Sequence[str]) -> "subprocess.Popen[bytes]":
        """Starts a program. Raises Stopped, and leaves no program, where a signal has come."""
        self.check()
        is_main = threading.current_thread() is threading.main_thread()
        self.is_starting = self.is_starting or is_main
        pipe = subprocess.PIPE
        try:
            around = {**os.environ, CALLED: "1"}
            process = subprocess.Popen(command, stdin=pipe, stdout=pipe, stderr=pipe, env=around)
            self.running.add(process)
        finally:
            self.is_starting = self.is_starting and not is_main
        if self.stopped:
            process.kill()
        return process

    def stop(self, number: int, frame: Optional[FrameType]) -> None:
        """The handler of signals: ends all programs, and the first time the command, too."""
        is_first = not self.stopped
        self.stopped = self.stopped or number
        for process in list(self.running):
            process.kill()
        if is_first and not self.is_starting:
            raise Stopped(number)


_CHILDREN = _Children()


def communicate(command: Sequence[str], data: bytes, timeout: Optional[float] = None) -> Tuple[bytes, bytes, int]:
    """Runs a program with these bytes as its standard input, and answers its output, its errors and its exit status.

    Raises subprocess.TimeoutExpired where it took longer than so many seconds, and ends it then, as for each other
    exception. Raises ValueError where the seconds aren't above 0.
    """
    if timeout is not None and not timeout > 0:
        raise ValueError(f"a time limit of {timeout} seconds isn't above 0")
    with _CHILDREN.start(command) as process:
        try:
            _CHILDREN.check()
            out, err = process.communicate(data, None if timeout is None or timeout > _FOR_EVER else timeout)
        except BaseException:
            process.kill()
            raise
        finally:
            _CHILDREN.running.discard(process)
    _CHILDREN.check()
    return out, err, process.returncode


@contextmanager
def ending_children() -> Iterator[None]:
    """While this holds, signals end the programs that run, and raise Stopped in the main thread.

    Signals that are ignored stay so, as those of a command that `nohup` called.
    """
    before, _CHILDREN.are_ended = {}, True
    if threading.current_thread() is threading.main_thread():
        for number in (signal.SIGINT, signal.SIGTERM, signal.SIGHUP):
            if signal.getsignal(number) is not signal.SIG_IGN:
                before[number] = signal.signal(number, _CHILDREN.stop)
    try:
        yield
    finally:
        for number, handler in before.items():
            signal.signal(number, handler)
        _CHILDREN.stopped, _CHILDREN.are_ended = 0, False


def ends_children() -> bool:
    """Whether signals end all that runs, as those of a command do: within `ending_children`."""
    return _CHILDREN.are_ended


def processors() -> int:
    """How many processors this process may use."""
    try:
        return len(os.sched_getaffinity(0))
    except AttributeError:
        return os.cpu_count() or 1
