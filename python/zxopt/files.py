"""Optimises a file, as `batch` does many: what is read, what is written, and what became of it.

This module stands outside of what is proved of the program, which it runs once for each file, or more often where a
check is asked for or a time limit was met.
"""
from __future__ import annotations

import hashlib
import time
from dataclasses import dataclass, replace
from pathlib import Path
from typing import List, Optional, Tuple

from . import cli, spelling, windows
from .commands import Comparison, Counts, counts, optimise_counted, same
from .counting import Measures, measures
from .faults import Refused
from .parts import Parts, optimise_parts, teleport_in_windows
from .prepare import GREATEST_WITHIN, prepare
from .program import Program, find_program
from .rounded import told as told_of_rounded

__all__ = ["Job", "Outcome", "Settings", "optimise_file", "optimise_file_by", "plural"]

_TOO_MANY_GATES = 19
_NO_SIXTEENTHS = 17
_SPELLERS = {"only-t": spelling.only_t, "by-cx": spelling.by_cx}


@dataclass(frozen=True)
class Job:
    """A file that is read, and the file that is written for it."""

    source: Path
    target: Path


@dataclass(frozen=True)
class Settings:
    """How files are optimised.

    best: takes the best of several circuits. teleport: changes phases alone, and goes before `best`. seconds: how long
    one call of the program may take; where one of these takes longer, `teleport` takes the file in windows of 10,000
    gates, each with as many seconds again; what takes longer then stays as it was read. check: asks `same` of each
    result. prepare: each text goes through `zxopt.prepare` first, and what is checked is the text that this writes.
    parts: it is optimised by `zxopt.parts`, where a part that takes longer than `seconds` goes the same way; `same`
    can't be asked of a text that the program refuses as a whole. spelled: `only-t` or `by-cx`, a spelling of what is
    written. program: the program; None for that of `find_program`. It is always run, and the library never called.
    within: a distance in radians; angles that lie so close to a multiple of pi/8 are taken for it by `zxopt.prepare`,
    through which each text goes then. measured: counts both texts by `zxopt.measures`.
    """

    best: bool = True
    seconds: Optional[float] = None
    check: bool = False
    prepare: bool = False
    parts: bool = False
    spelled: Optional[str] = None
    program: Optional[Program] = None
    within: Optional[float] = None
    measured: bool = False
    teleport: bool = False

    def __post_init__(self) -> None:
        """Raises ValueError where a number is out of its range, since no text is to blame for that."""
        if self.seconds is not None and not self.seconds > 0:
            raise ValueError(f"a time limit of {self.seconds} seconds isn't above 0")
        if self.within is not None and not 0 <= self.within <= GREATEST_WITHIN:
            raise ValueError(f"a distance of angles is from 0 to {GREATEST_WITHIN} radians")


@dataclass(frozen=True)
class Outcome:
    """What became of a file.

    state: `written`, `refused` (the text is) or `failed` (the program or the files are to blame); then nothing is
    written, and `told` has the reason.
    t, two_qubit, gates: counts before and after, or None where nothing is written.
    seconds: how long it took, with the check.
    best: whether the best of several circuits was taken, and not given up for its time.
    check: `same`, `not shown`, `differs`, `not checked`, or nothing where it wasn't asked for.
    measured: the counts of both texts, or None where they weren't asked for, or can't be counted.
    told: why nothing is written or a result wasn't checked, and how many changes and parts were made.
    read: the SHA-256 of what was read, or nothing where that couldn't be. length: the bytes of what is written.
    """

    job: Job
    state: str
    seconds: float
    t: Optional[Tuple[int, int]] = None
    two_qubit: Optional[Tuple[int, int]] = None
    gates: Optional[Tuple[int, int]] = None
    best: bool = True
    check: str = ""
    told: str = ""
    measured: Optional[Tuple[Measures, Measures]] = None
    read: str = ""
    length: int = 0

    @property
    def is_good(self) -> bool:
        """Whether the file was written, and shown to be the same where that was asked for."""
        return self.state == "written" and self.check in ("", "same")


@dataclass(frozen=True)
class _Written:
    """A text that was made of another, with counts before and after, and what else is told of it."""

    text: str
    t: Tuple[int, int]
    two_qubit: Tuple[int, int]
    gates: Optional[Tuple[int, int]] = None
    told: str = ""


def optimise_file(job: Job, settings: Settings = Settings()) -> Outcome:
    """Optimises a file, and answers what became of it, also where that is nothing."""
    began, read = time.monotonic(), ""
    try:
        settings = replace(settings, program=settings.program or find_program())
        data = job.source.read_bytes()
        read = hashlib.sha256(data).hexdigest()
        text, changed, rounded = _prepared(data, settings)
        written, best = _optimised(text, settings)
        job.target.parent.mkdir(parents=True, exist_ok=True)
        length = cli.write_file(job.target, written.text)
        check, unchecked = _checked(text, written.text, settings) if settings.check else ("", "")
        seconds = time.monotonic() - began
        measured = _measured(text, written.text) if settings.measured else None
    except ValueError as refused:
        return Outcome(job, "refused", time.monotonic() - began, told=_refusal(job, refused), read=read)
    except (MemoryError, OSError) as failed:
        return Outcome(job, "failed", time.monotonic() - began, told=f"{job.source}: {failed}", read=read)
    told = "; ".join(filter(None, (changed, written.told, rounded, unchecked)))
    counts = written.t, written.two_qubit, written.gates
    return Outcome(job, "written", seconds, *counts, best, check, told, measured, read, length)


def optimise_file_by(job: Job, settings: Settings, program: Program) -> Outcome:
    """The same by another program than that of the settings, for `zxopt.executors.work`."""
    return optimise_file(job, replace(settings, program=program))


def plural(number: int, one: str, many: str) -> str:
    """A number of things."""
    return f"{number} {one if number == 1 else many}"


def _prepared(data: bytes, settings: Settings) -> Tuple[bytes, str, str]:
    """A text as the program is to read it, and what is told of its changes, and of rounded angles that stay."""
    if not settings.prepare and settings.within is None:
        return data, "", ""
    done = prepare(data, within=settings.within)
    changed = plural(len(done.changes), "change", "changes") + " by prepare"
    if done.greatest_move:
        changed += f", angles moved by at most {done.greatest_move:.3g} radians"
    # what is optimised in parts tells of its angles itself
    rounded = told_of_rounded(done.rounded) if done.rounded and not settings.parts else ""
    return done.text.encode("utf-8", "replace"), changed, rounded


def _refusal(job: Job, refused: ValueError) -> str:
    """What is told of a text that is refused: its place, and of rounded angles, for which it may be."""
    told = cli.placed(job.source, refused)
    if not isinstance(refused, Refused) or refused.number != _NO_SIXTEENTHS:
        return told
    try:
        rounded = prepare(job.source).rounded
    except (ValueError, OSError):
        return told
    return f"{told}; {told_of_rounded(rounded)}" if rounded else told


def _measured(read: bytes, written: str) -> Optional[Tuple[Measures, Measures]]:
    """What is counted of both texts, where that can be done."""
    try:
        return measures(read), measures(written)
    except ValueError:
        return None


def _optimised(text: bytes, settings: Settings) -> Tuple[_Written, bool]:
    """What is made of a text, and whether the best of several circuits was taken."""
    if settings.parts:
        return _in_parts(text, settings)
    try:
        return (_teleported if settings.teleport else _as_a_whole)(text, settings), settings.best
    except TimeoutError:
        if not (settings.best or settings.teleport):
            raise
    return _in_windows(text, settings), False


def _as_a_whole(text: bytes, settings: Settings) -> _Written:
    made = optimise_counted(text, settings.best, timeout=settings.seconds, program=settings.program)
    return _counted(made.text, made.counts, settings)


def _teleported(text: bytes, settings: Settings) -> _Written:
    read = counts(text, False, timeout=settings.seconds, program=settings.program).read
    made = windows.made(text, "teleport", settings.seconds, settings.program)
    return _counted(made.text, Counts(read, made.written), settings)


def _counted(text: str, made: Counts, settings: Settings) -> _Written:
    read, written = made.read, made.written
    spelled = _SPELLERS[settings.spelled](text) if settings.spelled else text
    return _Written(
        spelled, (read.odd, written.odd), (read.two_qubit, written.two_qubit), (read.gates, written.gates)
    )


def _in_windows(text: bytes, settings: Settings) -> _Written:
    """What is written where a circuit takes too long as a whole."""
    made = teleport_in_windows(text, timeout=settings.seconds, program=settings.program)
    if made.late and settings.spelled:
        raise TimeoutError(f"gates that took too long have no other spelling: {made.late[0]}")
    written = _counted(made.text, made.counts, settings)
    return replace(written, told="; ".join([f"teleport in {plural(made.parts, 'window', 'windows')}", *_left(made)]))


def _in_parts(text: bytes, settings: Settings) -> Tuple[_Written, bool]:
    made = optimise_parts(
        text, best=settings.best, teleport=settings.teleport, timeout=settings.seconds, program=settings.program
    )
    told = [f"{plural(made.parts, 'part', 'parts')}, {plural(made.kept, 'statement stays', 'statements stay')}"]
    if made.rescued:
        told.append(f"{plural(made.rescued, 'part', 'parts')} by teleport in windows, for its time")
    if made.rounded:
        told.append(told_of_rounded(made.rounded))
    t, two_qubit = (made.before.t, made.after.t), (made.before.two_qubit, made.after.two_qubit)
    is_best = settings.best and not settings.teleport and not made.rescued
    return _Written(made.text, t, two_qubit, told="; ".join([*told, *_left(made)])), is_best


def _left(made: Parts) -> List[str]:
    """What is told of gates that were left as they were read: how many windows, and the first of them."""
    if not made.late:
        return []
    return [f"{plural(len(made.late), 'window', 'windows')} left as read, the first at {made.late[0]}"]


def _checked(read: bytes, written: str, settings: Settings) -> Tuple[str, str]:
    """What `same` says of both texts, and in which way they differ, or why it couldn't be asked."""
    try:
        found = _compared(read, written, settings)
    except (ValueError, MemoryError, OSError) as why:
        return "not checked", str(why)
    if found.kind in ("widths", "measures"):
        return "differs", str(found)
    return found.kind, ""


def _compared(read: bytes, written: str, settings: Settings) -> Comparison:
    try:
        return same(read, written, timeout=settings.seconds, program=settings.program)
    except Refused as refused:
        # what is written isn't bound to the limit of calls, but is within it by other names
        if refused.number != _TOO_MANY_GATES or refused.which != 2:
            raise
        return same(read, spelling.by_cx(written), timeout=settings.seconds, program=settings.program)
