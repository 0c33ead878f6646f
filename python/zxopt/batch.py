"""Optimises many files on all processors: `python3 -m zxopt batch FILES.. --to FOLDER`.

A line for each file tells its T gates (odd phases: T, its square roots and their like) and its gates on two qubits,
before and after, and the seconds that it took; a text that is refused is told with its place on standard error, and
the others go on. The table of `--csv` also has what `zxopt.measures` counts of both texts. Lines and rows come in the
order in which files end. A run that was interrupted goes on when it is called again (see `manifest`).
"""
from __future__ import annotations

import argparse
import os
import sys
import time
from concurrent.futures import Executor, ThreadPoolExecutor
from contextlib import ExitStack, contextmanager
from dataclasses import replace
from typing import Dict, Iterable, Iterator, Optional, Sequence, Tuple

from . import arguments, executors, manifest, reports
from .executors import Dispatcher, Lent, Stamp, Task
from .files import Job, Outcome, Settings, optimise_file, optimise_file_by
from .plans import jobs_of, plan
from .processes import processors

__all__ = ["Job", "Outcome", "Settings", "main", "optimise_file", "optimise_files", "plan"]


def optimise_files(
    jobs: Iterable[Job],
    settings: Settings = Settings(),
    processes: int = 1,
    *,
    executor: Optional[Executor] = None,
    ahead: Optional[int] = None,
    ordered: bool = True,
) -> Iterator[Outcome]:
    """Optimises files, so many of them at a time, and answers what became of each as soon as that is known: in their
    order, or in that in which they end unless `ordered`. A text that is refused doesn't keep the others from going on.

    executor: an executor of `concurrent.futures` that does it, where files have the same names; it gets `ahead` files
    at most, else as many as `processes`. Its workers need the package and the program of this process. Each looks for
    the program itself unless `settings` name it, and OSError is raised where a worker has another one.
    """
    most = processes if executor is None or ahead is None else ahead
    if processes < 1 or most < 1:
        raise ValueError(f"{min(processes, most)} files at a time: the number isn't above 0")
    with _calling(executor, settings, processes, most) as calls:
        ended = calls.outcomes(jobs)
        yield from _in_order(ended) if ordered else (outcome for _, outcome in ended)


class _Calls:
    """Files as tasks of a dispatcher, with a stamp unless they are threads of this process."""

    def __init__(self, tasks: Dispatcher, settings: Settings, stamp: Optional[Stamp]) -> None:
        self.tasks, self.settings, self.stamp = tasks, settings, stamp

    def outcomes(self, jobs: Iterable[Job]) -> Iterator[Tuple[int, Outcome]]:
        """The numbers of files, from 0, with what became of them, in the order in which they end."""
        under_way: Dict[Task, Tuple[int, Job]] = {}
        for number, job in enumerate(jobs):
            while len(under_way) >= self.tasks.ahead:
                yield self.next_ended(under_way)
            under_way[self.submit(job)] = number, job
        while under_way:
            yield self.next_ended(under_way)

    def submit(self, job: Job) -> Task:
        if self.stamp is None:
            return self.tasks.submit(optimise_file, job, self.settings)
        return self.tasks.submit(executors.work, self.stamp, optimise_file_by, job, self.settings)

    def next_ended(self, under_way: Dict[Task, Tuple[int, Job]]) -> Tuple[int, Outcome]:
        task = self.tasks.next_done()
        number, job = under_way.pop(task)
        try:
            return number, task.result()
        except executors.WorkerEnded as ended:
            return number, Outcome(job, "failed", 0.0, told=f"{job.source}: {ended}")


@contextmanager
def _calling(executor: Optional[Executor], settings: Settings, processes: int, ahead: int) -> Iterator[_Calls]:
    """An executor, or threads of this process."""
    if executor is not None:
        yield _Calls(Dispatcher(Lent(executor), ahead), settings, Stamp.of(settings.program, False))
        return
    threads = ThreadPoolExecutor(processes)
    try:
        yield _Calls(Dispatcher(Lent(threads), ahead), settings, None)
    finally:
        threads.shutdown(cancel_futures=True)


def _in_order(ended: Iterator[Tuple[int, Outcome]]) -> Iterator[Outcome]:
    """Outcomes by their numbers."""
    waiting: Dict[int, Outcome] = {}
    turn = 0
    for number, outcome in ended:
        waiting[number] = outcome
        while turn in waiting:
            yield waiting.pop(turn)
            turn += 1


# -- the command ------------------------------------------------------------------------------------------------------


def main(argv: Sequence[str]) -> int:
    """The command `batch` with these words, and its exit status: 1 where a file was refused or failed, or a check
    didn't say `same`."""
    from .__main__ import main as run_command

    return run_command(["batch", *argv])


def command_parser(command: str) -> argparse.ArgumentParser:
    """The words of the command `batch`."""
    parser = arguments.parser(
        command,
        "Optimises many files of OpenQASM 2.0 on all processors, with a line for each: T gates (odd phases) and gates "
        "on two qubits before and after, and seconds. A run that was interrupted goes on when it is called again.",
        "Each file is written below FOLDER as it stands below the deepest folder that all named files and folders "
        "share. The exit status is 1 where a file was refused or failed, or a check didn't say that it is the same.",
    )
    add = parser.add_argument
    add("files", nargs="+", metavar="FILE", help="a file, or a folder of files *.qasm, also in folders below it")
    add("--to", required=True, metavar="FOLDER", help="where the files are written, and what was done is kept")
    arguments.takes_jobs(arguments.takes_best(parser, True), "files")
    arguments.takes_executor(parser, "files")
    arguments.takes_seconds(
        parser,
        "a time limit for each: where the best circuit takes longer, teleport takes it in windows, each with this limit",
    )
    arguments.takes_within(parser)
    add("--teleport", action="store_true", help="change phases alone, so that all other gates stay")
    add("--check", action="store_true", help="ask of each file whether it is the same; a yes is always right")
    add("--csv", metavar="FILE", help="add the files to a table, too")
    add("--anew", action="store_true", help="do all files and the table again, where a run would go on")
    add("--prepare", action="store_true", help="put each text into the program's form first, exactly")
    told = "optimise in parts what the program refuses as a whole; names are kept"
    arguments.spellings(parser).add_argument("--parts", action="store_true", help=told)
    return parser


def command(asked: argparse.Namespace) -> int:
    """The command `batch`; answers 0, or 1 where a file isn't good."""
    began = time.monotonic()
    settings = _settings(asked)
    to = os.path.abspath(asked.to)
    jobs = jobs_of(asked.files, to)
    with ExitStack() as within:
        executor = within.enter_context(executors.asked_for(asked))
        stamp = Stamp.of(None, executor is None)
        settings = replace(settings, program=stamp.program)
        table = within.enter_context(reports.Table(asked.csv, asked.anew)) if asked.csv else None
        done = within.enter_context(manifest.opened(to, settings, stamp, asked.anew))
        most = asked.jobs or processors()
        calls = within.enter_context(_calling(executor, settings, most, asked.ahead if executor else most))
        run = _Run(calls, done, table)
        run.all(jobs)
    if run.sums.before and table is not None and table.is_new:
        print(f"{asked.csv} is new: it lacks the {run.sums.before} files that were done before", file=sys.stderr)
    print(run.sums.told(time.monotonic() - began, settings.check))
    return 0 if run.sums.is_good else 1


class _Run:
    """A run of the command."""

    def __init__(self, calls: _Calls, done: manifest.Manifest, table: Optional[reports.Table]) -> None:
        self.calls, self.done, self.table = calls, done, table
        self.sums = reports.Sums()

    def all(self, jobs: Iterator[Job]) -> None:
        """Optimises all files that weren't done before. A row is kept before the manifest tells that the file was done,
        so that none is lost."""
        for _, outcome in self.calls.outcomes(self.left(jobs)):
            self.sums.add(outcome)
            if self.table is not None:
                self.table.add(outcome)
            self.done.end(outcome)
            reports.tell(outcome)

    def left(self, jobs: Iterator[Job]) -> Iterator[Job]:
        """The files that weren't done before."""
        for job in jobs:
            done = self.done.done(job)
            if done is None:
                self.done.begin(job)
                yield job
            elif not self.sums.add_before(done):
                reports.tell_again(job, done)


def _settings(asked: argparse.Namespace) -> Settings:
    return Settings(
        best=asked.best,
        seconds=asked.seconds,
        check=asked.check,
        prepare=asked.prepare,
        parts=asked.parts,
        spelled=asked.spelled,
        within=asked.within,
        measured=asked.csv is not None,
        teleport=asked.teleport,
    )
