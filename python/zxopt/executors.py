"""Hands tasks to an executor of `concurrent.futures`: processes of this machine, Dask, MPI or another one.

Never more than a given number of tasks are handed out. A task whose worker ended is done again, by itself, so that it
is known which one ends its worker; the third time it is given up. Each task carries the version of the package and the
SHA-256 of the program that it needs, and a worker that has others refuses it.
"""
from __future__ import annotations

import argparse
import os
import platform
from collections import deque
from concurrent.futures import BrokenExecutor, CancelledError, Executor, Future
from contextlib import contextmanager
from functools import lru_cache
from importlib import import_module
from queue import SimpleQueue
from typing import Any, Callable, Iterator, NamedTuple, Optional, Protocol

from .identity import Version, version
from .program import Program

__all__ = [
    "Dispatcher", "Lent", "OtherVersion", "Remote", "Stamp", "Task", "WorkerEnded", "asked_for", "called", "dispatcher",
    "work",
]

# How often a task may end its worker.
MOST_ENDS = 3
_NO_WORKERS = "the executor's workers ended, and it takes no more tasks"
# Seconds that Dask's client waits for the scheduler, at the begin and at the end.
PATIENCE = 10


class OtherVersion(OSError):
    """A worker has another version of the package or another program."""


class WorkerEnded(OSError):
    """The worker of a task ended under it, as often as that may be."""

    def __init__(self) -> None:
        super().__init__(f"its worker ended {MOST_ENDS} times")


class Stamp(NamedTuple):
    """What a worker has to have: the package's version and the SHA-256 of the program; and the program's file, or none
    where the worker looks for it itself."""

    package: str
    sha256: str
    program: Optional[str]

    @classmethod
    def of(cls, program: Optional[Program], is_here: bool) -> "Stamp":
        """That of a program. Workers that aren't processes of this machine look for it themselves unless it is named.
        Raises OSError where there is none."""
        found = version(program)
        named = None if program is None else os.fspath(program)
        return cls(found.package, found.sha256, found.program if is_here else named)


def work(stamp: Stamp, function: Callable[..., Any], *arguments: Any) -> Any:
    """In a worker: calls a function with these arguments and with the program, `program=`. Raises OtherVersion where it
    isn't the one that is asked for."""
    own = _own(stamp.program, os.getpid())
    if (own.package, own.sha256) != (stamp.package, stamp.sha256):
        raise OtherVersion(
            f"the worker {os.getpid()} on {platform.node()} has version {own.package} with the program {own.program} "
            f"of the sum {own.sha256[:16]}.., where {stamp.package} and {stamp.sha256[:16]}.. are asked for: "
            "install the same wheel there"
        )
    return function(*arguments, program=own.program)


@lru_cache(maxsize=16)
def _own(program: Optional[str], process: int) -> Version:
    """The version that this process has; one that is forked off looks for itself."""
    return version(program)


class Pool(Protocol):
    """An executor, and how it is replaced by a fresh one whose workers haven't ended."""

    executor: Executor

    def renew(self) -> None: ...


class Lent:
    """An executor that belongs to someone else, so that it can't be replaced."""

    def __init__(self, executor: Executor) -> None:
        self.executor = executor

    def renew(self) -> None:
        raise OSError(_NO_WORKERS)


class Task:
    """A call that is handed to an executor."""

    def __init__(self, function: Callable[..., Any], arguments: tuple[Any, ...]) -> None:
        self.words: tuple[Any, ...] = (function, *arguments)
        self.is_done = False
        # how often its worker ended
        self.ends = 0
        self._result: Any = None
        self._failure: Optional[BaseException] = None

    def settle(self, result: Any, failure: Optional[BaseException] = None) -> None:
        self.is_done = True
        self.words = ()
        self._result, self._failure = result, failure

    def result(self) -> Any:
        """What the call answered, or raised: WorkerEnded where its worker ended too often."""
        if self._failure is not None:
            raise self._failure
        return self._result


class Dispatcher:
    """Hands tasks to an executor, at most `ahead` at a time."""

    def __init__(self, pool: Pool, ahead: int) -> None:
        self.pool, self.ahead = pool, ahead
        self.out: dict[Future[Any], Task] = {}
        self.ended: SimpleQueue[Future[Any]] = SimpleQueue()
        self.waiting: deque[Task] = deque()
        # tasks under way when a worker ended: each goes alone now
        self.suspects: deque[Task] = deque()

    def submit(self, function: Callable[..., Any], *arguments: Any) -> Task:
        """A task that calls this function, in its turn."""
        task = Task(function, arguments)
        self.waiting.append(task)
        self.hand_out()
        return task

    def finish(self, task: Task) -> Any:
        """Waits for a task, and answers its result."""
        while not task.is_done:
            self.take()
        return task.result()

    def poll(self) -> None:
        """Takes note of all tasks that are done."""
        while not self.ended.empty():
            self.take()

    def next_done(self) -> Task:
        """Waits for some task that is under way or waits, and answers it."""
        while True:
            task = self.take()
            if task is not None:
                return task

    def take(self) -> Optional[Task]:
        """Waits for a future, and answers its task if that is done now."""
        future = self.ended.get()
        task = self.out.pop(future, None)
        if task is None:
            # it is of a pool that was replaced
            return None
        failure = _failure(future)
        ends = _ends(failure)
        if ends:
            self.suspect(task, ends, isinstance(failure, BrokenExecutor))
        else:
            task.settle(None if failure else future.result(), failure)
        self.hand_out()
        return task if task.is_done else None

    def hand_out(self) -> None:
        """Hands out what may be."""
        while self.suspects or self.waiting:
            is_careful = bool(self.suspects) or any(it.ends for it in self.out.values())
            if len(self.out) >= (1 if is_careful else self.ahead):
                return
            task = (self.suspects or self.waiting).popleft()
            try:
                future = called(self.pool.executor, *task.words)
            except BrokenExecutor:
                (self.suspects if task.ends else self.waiting).appendleft(task)
                self.replace_pool()
                continue
            self.out[future] = task
            future.add_done_callback(self.ended.put)

    def suspect(self, task: Task, ends: int, is_broken: bool) -> None:
        """Takes note that a task's worker ended, and maybe all workers of the pool."""
        was_alone = task.ends > 0
        task.ends += ends
        if was_alone and task.ends >= MOST_ENDS:
            task.settle(None, WorkerEnded())
        else:
            self.suspects.append(task)
        if is_broken:
            self.replace_pool()

    def replace_pool(self) -> None:
        """Takes a fresh pool in place of one whose workers ended, and its tasks back."""
        for future, task in list(self.out.items()):
            if not future.done() or _ends(_failure(future)):
                del self.out[future]
                task.ends += 1
                self.suspects.append(task)
        self.pool.renew()


@contextmanager
def dispatcher(executor: Optional[Executor], jobs: int, ahead: int) -> Iterator[Dispatcher]:
    """A dispatcher on an executor, or else on so many processes of this machine."""
    if executor is not None:
        yield Dispatcher(Lent(executor), ahead)
        return
    from .workers import processes

    with processes(jobs) as pool:
        yield Dispatcher(pool, ahead)


def called(executor: Executor, function: Callable[..., Any], *arguments: Any) -> "Future[Any]":
    """Submits a call; OSError where the executor takes none any more."""
    try:
        return executor.submit(function, *arguments)
    except (OSError, ValueError, MemoryError, BrokenExecutor):
        raise
    except Exception as why:
        raise OSError(f"the executor takes no more tasks: {why}") from why


class Remote:
    """Calls functions by an executor, from several threads, each of which waits for its own answer."""

    def __init__(self, executor: Executor, program: Optional[Program]) -> None:
        self.executor = executor
        self.stamp = Stamp.of(program, False)

    def call(self, function: Callable[..., Any], *arguments: Any) -> Any:
        """What a function answers, or raises: WorkerEnded where its workers ended too often."""
        future = called(self.executor, work, self.stamp, function, *arguments)
        failure = _failure(future)
        if isinstance(failure, BrokenExecutor):
            raise OSError(_NO_WORKERS) from failure
        if _ends(failure):
            raise WorkerEnded from failure
        if failure is not None:
            raise failure
        return future.result()


def _failure(future: "Future[Any]") -> Optional[BaseException]:
    """Waits for a future, and answers what it raises, as who waits for a task is to see it."""
    try:
        failure = future.exception()
    except CancelledError as gone:
        failure = gone
    if type(failure).__name__ == "CancelledError":
        return OSError("the executor gave up its tasks: its scheduler or its workers are gone")
    if isinstance(failure, ImportError):
        return OSError(f"a worker lacks what it needs: {failure}")
    return failure


def _ends(failure: Optional[BaseException]) -> int:
    """How many workers ended under a task, by what its future raises."""
    if isinstance(failure, BrokenExecutor):
        return 1
    # what Dask raises where the scheduler gave a task up, by its name, so that Dask needn't be imported
    return MOST_ENDS if type(failure).__name__ == "KilledWorker" else 0


# -- on the command line ----------------------------------------------------------------------------------------------


@contextmanager
def asked_for(asked: argparse.Namespace) -> Iterator[Optional[Executor]]:
    """The executor that a command's words name, if they do. Raises OSError where it can't be had."""
    if asked.dask:
        with _dask(asked.dask) as executor:
            yield executor
    elif asked.executor:
        module, _, function = asked.executor.partition(":")
        try:
            made = getattr(import_module(module), function)()
        except (ImportError, AttributeError) as none:
            raise OSError(f"--executor {asked.executor}: {none}") from None
        if not isinstance(made, Executor):
            raise OSError(f"--executor {asked.executor}: what it answers is no concurrent.futures.Executor")
        with made as executor:
            yield executor
    else:
        yield None


@contextmanager
def _dask(address: str) -> Iterator[Executor]:
    """An executor on the workers of a scheduler of Dask."""
    try:
        client_class = import_module("distributed").Client
    except ImportError as none:
        raise OSError(f"--dask needs the package distributed: {none}") from None
    client = client_class(address, timeout=PATIENCE)
    try:
        yield _DaskExecutor(client)
    finally:
        client.close(timeout=PATIENCE)


class _DaskExecutor(Executor):
    """Tasks of a client of Dask. The executor that a client makes itself takes a result for an exception where the
    worker ends just behind it."""

    def __init__(self, client: Any) -> None:
        self.client = client

    def submit(self, fn: Callable[..., Any], /, *args: Any, **kwargs: Any) -> "Future[Any]":
        future: Future[Any] = Future()
        task = self.client.submit(fn, *args, pure=False, **kwargs)
        self.client.loop.add_callback(self._answer, task, future)
        return future

    async def _answer(self, task: Any, future: "Future[Any]") -> None:
        """Waits for a task in the client's own thread, which ends with the client."""
        try:
            future.set_result(await self.client.gather(task, asynchronous=True))
        except BaseException as why:
            future.set_exception(why)
