"""Optimises what the program `zxopt` can of an OpenQASM 2 text, and leaves the rest as it is: `python3 -m zxopt parts`.

A text may have what the program refuses: `if`, `reset`, gates behind measurements, gates with angles finer than pi/8
or with any others, opaque gates and gates that aren't declared. These statements stay. What lies between them is
brought together into parts, each of which is a circuit of the program's language and goes through `zxopt opt`. A part
takes as much as one run of the program does: a million calls, 16 MiB, 1,024 qubits; where a text has more, parts follow
its qubits, and not its order. Registers, names and the order of what stays on a qubit remain; comments and, unless they
are asked for, barriers go.

Why this is sound. Operations exchange their places only where they commute (see `schedule`): where they share no
qubit and no bit, or are diagonal on each qubit that they share. So the text in its new order has the channel of the
text that was read. In it each part stands by itself, as a circuit of gates alone, and is replaced by one with the
same linear map up to a nonzero scalar, which the program promises by proof. No part stands under a condition, nor
within a gate that is controlled by another, so its scalar is one of the whole state, whatever was measured before: no
measurement shows it, and the probabilities and the states of all outcomes stay what they were.

This stands outside of the proved program: what is proved is about each text that the program reads and writes, the
parts; that they were cut and put together rightly is tested, not proved.
"""
from __future__ import annotations

import argparse
import re
import sys
from concurrent.futures import Executor, ThreadPoolExecutor
from dataclasses import dataclass
from typing import Callable, Iterable, NamedTuple, Optional, Sequence, Union

from . import arguments, cli, commands, executors, windows
from .circuit import CannotCut, Circuit
from .commands import GateCounts
from .faults import Refused
from .prepare import prepare
from .processes import processors
from .program import Program
from .qasm import squeezed
from .rounded import rounded_angles, told
from .schedule import Cutter, Limits, Node, Operation, Window, bundles
from .sources import decoded
from .texts import Text

__all__ = ["CannotCut", "Counts", "Left", "Parts", "main", "optimise_parts", "teleport_in_windows"]

# The gates of a window where a part took too long: some tenths of a second of `teleport`.
RESCUE_GATES = 10_000
# A single one of these gates is left alone.
_SINGLE = frozenset(("id", "x", "y", "z", "h", "s", "sdg", "t", "tdg", "cx", "cz"))
_PLACE = re.compile(r"q\[(\d+)\]")
_NAME = re.compile(r"[^\W\d]\w*")


class Counts(NamedTuple):
    """The numbers of T gates and other odd phases, and of gates on two qubits, in all parts together."""

    t: int
    two_qubit: int


class Left(NamedTuple):
    """Gates that were left as they were read, since the program took too long or ended its workers: how many, from
    which line of the text that was read on, and why."""

    line: int
    gates: int
    why: str

    def __str__(self) -> str:
        return f"line {self.line}: {self.gates} gates from here on are left as they were read: {self.why}"


@dataclass(frozen=True)
class Parts:
    """The text that is written, the number of its parts, of statements that stay, and of parts that were left as they
    were read since the program's circuit wasn't better or took too long; what the parts count before and after, and the
    same in full; how many parts took too long and went through `teleport` in windows, and which gates were left as they
    were read since even that took too long; and how many angles lie within 1e-9 of a multiple of pi/8 and stay, since
    they aren't one."""

    text: str
    parts: int
    kept: int
    left: int
    before: Counts
    after: Counts
    counts: commands.Counts
    rescued: int = 0
    late: tuple[Left, ...] = ()
    rounded: int = 0


class _Piece(NamedTuple):
    """A part as the program reads it: its text, its head's lines, the numbers of its qubits, its operations."""

    text: str
    lines: int
    qubits: list[int]
    operations: list[Operation]


class _Done(NamedTuple):
    """A part as it is written: lines that name qubits by `q[..]`, or none where it stays as it was read; its counts;
    what of it took too long, and whether it went through `teleport` in windows."""

    lines: Optional[list[str]]
    before: GateCounts
    after: GateCounts
    late: tuple[Left, ...] = ()
    is_rescued: bool = False


def optimise_parts(
    text: Text,
    *,
    best: bool = True,
    teleport: bool = False,
    gates: Optional[int] = None,
    jobs: int = 1,
    keep_barriers: bool = False,
    timeout: Optional[float] = None,
    program: Optional[Program] = None,
    executor: Optional[Executor] = None,
    ahead: Optional[int] = None,
    progress: Optional[Callable[[int, int], None]] = None,
) -> Parts:
    """Optimises a text part by part.

    `best` takes `opt --best`; `teleport`, which goes before it, changes phases alone. `gates` is how many gates a part
    may have; else as many as one run of the program takes. `jobs` parts run side by side. With `keep_barriers` barriers
    stay, and gates don't cross them. `timeout`, in seconds, is that of each run of the program: of a part that takes
    longer, windows of 10,000 gates go through `teleport`, each with as many seconds, and what takes longer then is left
    as it was read. With `executor`, as in `zxopt.batch.optimise_files`, its workers run the program on parts; it gets
    `ahead` of them at most, else as many as `jobs`. `progress` is called with the number of parts that are done, and
    that of all, by one thread at a time.

    Raises CannotCut where the text isn't one that the program would take but for single statements: `zxopt.prepare`
    helps with many of these. MemoryError and OSError are those of `zxopt.program.run`; ValueError where `jobs`, `ahead`
    or `timeout` isn't above 0.
    """
    at_a_time = jobs if executor is None or ahead is None else ahead
    if jobs < 1 or at_a_time < 1:
        raise ValueError(f"{min(jobs, at_a_time)} parts at a time: the number isn't above 0")
    mode = "teleport" if teleport else "best" if best else "plain"
    cutting = _Cutting(decoded(text, []), mode, at_a_time, keep_barriers, gates)
    cutting.timeout, cutting.program, cutting.progress = timeout, program, progress
    if executor is not None:
        cutting.remote = executors.Remote(executor, program)
    return cutting.done()


def teleport_in_windows(text: Text, *, timeout: Optional[float] = None, program: Optional[Program] = None) -> Parts:
    """What is written in place of a circuit that takes too long as a whole: phases change, within windows of 10,000
    gates, and no gate on two qubits is added. Registers are `q` and `c`, as the program writes them.

    `timeout` and exceptions are as in `optimise_parts`.
    """
    cutting = _Cutting(decoded(text, []), "teleport", 1, False, RESCUE_GATES)
    cutting.timeout, cutting.program, cutting.is_flat = timeout, program, True
    return cutting.done()


class _Cutting:
    def __init__(self, text: str, mode: str, jobs: int, keep_barriers: bool, gates: Optional[int]) -> None:
        self.circuit = Circuit(text, keep_barriers)
        self.mode = mode
        self.limits = Limits(weight=windows.GREATEST_CALLS, qubits=windows.GREATEST_QUBITS)
        if gates is not None:
            self.limits = self.limits._replace(gates=gates)
        self.jobs = jobs
        self.is_flat = False
        self.timeout: Optional[float] = None
        self.program: Optional[Program] = None
        self.progress: Optional[Callable[[int, int], None]] = None
        self.remote: Optional[executors.Remote] = None
        self.results: dict[str, _Done] = {}

    def done(self) -> Parts:
        windows.check_head(self.circuit, self.timeout, self.program)
        while True:
            found = self.cut(self.circuit.operations(), self.limits)
            if self.work([it for it in found if isinstance(it, _Piece)]):
                return self.written(found)

    # -- parts --------------------------------------------------------------------------------------------------------

    def cut(self, operations: Sequence[Operation], limits: Limits) -> list[Union[_Piece, Operation]]:
        """The parts, and what stays, in an order in which they may be done."""
        out: list[Union[_Piece, Operation]] = []

        def emit(nodes: list[Node[int]]) -> None:
            for it in bundles(nodes, limits):
                if isinstance(it, Window):
                    out.append(self.piece([operations[at] for at in sorted(it.gates)]))
                else:
                    out.append(operations[it.what])

        cutter: Cutter[int] = Cutter(limits, emit)
        cutter.add_qubits(len(self.circuit.qubits))
        for at, it in enumerate(operations):
            if it.calls:
                size = len(it.text) + 9 * len(it.qubits) + 2
                cutter.add_gate(at, it.qubits, it.diagonal, windows.weight(it.calls, size))
            else:
                cutter.add_stay(at, it.qubits, it.diagonal, it.reads, it.writes)
        cutter.end()
        return out

    def piece(self, operations: list[Operation]) -> _Piece:
        qubits = sorted({qubit for it in operations for qubit in it.qubits})
        number = {qubit: f"q[{at}]" for at, qubit in enumerate(qubits)}
        head = [f"{it}\n" for it in self.needed({_NAME.findall(it.text)[0] for it in operations})]
        lines = [f"{it.text} {','.join([number[qubit] for qubit in it.qubits])};\n" for it in operations]
        text = f"{windows.HEAD}{''.join(head)}qreg q[{len(qubits)}];\n{''.join(lines)}"
        return _Piece(text, 3 + len(head), qubits, operations)

    def needed(self, wanted: set[str]) -> list[str]:
        """The declarations that gates need, in the order of the text."""
        shapes, left, found = self.circuit.shapes, list(wanted), set()
        while left:
            name = left.pop()
            if name in shapes.own and name not in found:
                found.add(name)
                gate = shapes.gates.get(name)
                left.extend([it.name for it in gate.body] if gate else _NAME.findall(shapes.own[name]))
        return [text for name, text in self.circuit.declarations if name in found] if found else []

    def work(self, pieces: list[_Piece]) -> bool:
        """Lets the program optimise the parts; whether it refused none, so that nothing has to be cut anew."""
        new = {it.text: it for it in pieces if it.text not in self.results}
        left = [it for it in new.values() if not self.is_single(it)]
        count, fine = len(pieces) - len(left), True
        with ThreadPoolExecutor(max_workers=max(1, self.jobs)) as pool:
            try:
                for piece, answer in zip(left, pool.map(self.optimise, left)):
                    count += 1
                    if self.progress:
                        self.progress(count, len(pieces))
                    if isinstance(answer, Refused):
                        self.refuse(piece, answer)
                        fine = False
                    else:
                        self.results[piece.text] = answer
            except BaseException:
                pool.shutdown(wait=False)
                raise
        return fine

    def is_single(self, piece: _Piece) -> bool:
        """Whether a part is one gate that nothing betters; it is settled then."""
        name = piece.operations[0].text
        if len(piece.operations) > 1 or name not in _SINGLE or name not in self.circuit.shapes.standard:
            return False
        counts = self.counted(piece)
        self.results[piece.text] = _Done(None, counts, counts)
        return True

    def counted(self, piece: _Piece) -> GateCounts:
        """The counts of a part as it was read."""
        lines = piece.text.splitlines()
        return windows.counted(
            lines[piece.lines :], "".join(f"{it}\n" for it in lines[2 : piece.lines - 1]), self.circuit.shapes.own, self.program
        )

    def optimise(self, piece: _Piece) -> Union[_Done, Refused]:
        try:
            return self.asked(piece, self.mode)
        except Refused as refused:
            return refused
        except TimeoutError as late:
            is_small = self.mode == "teleport" and len(piece.operations) <= RESCUE_GATES
            return self.left(piece, late) if is_small else self.rescued(piece)
        except executors.WorkerEnded as ended:
            return self.left(piece, ended)

    def asked(self, piece: _Piece, mode: str) -> _Done:
        """What the program makes of a part in a mode."""
        done = self.made(piece.text, mode)
        before = self.counted(piece) if done.read is None else done.read
        if windows.is_better(before, done.written):
            return _Done(done.lines, before, done.written)
        return _Done(None, before, before)

    def made(self, text: str, mode: str) -> windows.Written:
        if self.remote is None:
            return windows.made(text, mode, self.timeout, self.program)
        done: windows.Written = self.remote.call(windows.made, text, mode, self.timeout)
        return done

    def left(self, piece: _Piece, reason: OSError) -> _Done:
        """A part that took too long, or ended its workers, as it was read."""
        counts = self.counted(piece)
        why = Left(piece.operations[0].line, len(piece.operations), str(reason) or "it took too long")
        return _Done(None, counts, counts, (why,))

    def rescued(self, piece: _Piece) -> _Done:
        """A part that took too long, by `teleport` in windows."""
        place = {qubit: f"q[{at}]" for at, qubit in enumerate(piece.qubits)}
        lines: list[str] = []
        late: list[Left] = []
        before = after = windows.NO_GATES
        for it in self.cut(piece.operations, self.limits._replace(gates=min(RESCUE_GATES, self.limits.gates))):
            assert isinstance(it, _Piece), "a part has gates alone"
            try:
                done = self.asked(it, "teleport")
            except (TimeoutError, executors.WorkerEnded) as again:
                done = self.left(it, again)
            before, after = windows.added(before, done.before), windows.added(after, done.after)
            late += done.late
            lines += _placed(it, done, place)
        return _Done(lines, before, after, tuple(late), True)

    def refuse(self, piece: _Piece, refused: Refused) -> None:
        """Notes that a statement of a part stays, since the program refuses it."""
        at = (refused.line or 0) - 1 - piece.lines
        if not 0 <= at < len(piece.operations):
            raise CannotCut(f"{refused.sentence} (fault {refused.number})", piece.operations[0].line)
        it = piece.operations[at]
        if refused.number not in windows.STAYS:
            raise CannotCut(f"{refused.sentence} (fault {refused.number})", it.line)
        self.circuit.shapes.refuse(it.text)

    # -- writing ------------------------------------------------------------------------------------------------------

    def written(self, found: Sequence[Union[_Piece, Operation]]) -> Parts:
        """The whole text, and its counts."""
        lines: list[str] = []
        before = after = windows.NO_GATES
        late: list[Left] = []
        left = parts = rescued = 0
        place = {at: f"q[{at}]" if self.is_flat else name for at, name in enumerate(self.circuit.qubits)}
        for it in found:
            if isinstance(it, Operation):
                lines += self.flat_measures(it) if self.is_flat else [it.text]
                continue
            done = self.results[it.text]
            lines += _placed(it, done, place)
            parts += 1
            left += done.lines is None
            late += done.late
            rescued += done.is_rescued
            before, after = windows.added(before, done.before), windows.added(after, done.after)
        used = {name for text in set(lines) for name in _NAME.findall(text)}
        text = windows.HEAD + "".join(f"{it}\n" for it in [*self.needed(used), *self.registers(), *lines])
        small, smaller = (Counts(it.odd, it.two_qubit) for it in (before, after))
        rounded = rounded_angles([*self.circuit.declared, *self.circuit.statements])
        counts = commands.Counts(before, after)
        return Parts(text, parts, len(found) - parts, left, small, smaller, counts, rescued, tuple(late), rounded)

    def registers(self) -> Iterable[str]:
        """The declarations of registers, or those of `q` and `c`."""
        if not self.is_flat:
            return [squeezed(it.text) for it in self.circuit.registers]
        bits = sum(size for _, size in self.circuit.bits.values())
        return [f"qreg q[{len(self.circuit.qubits)}];", *([f"creg c[{bits}];"] if bits else [])]

    def flat_measures(self, it: Operation) -> list[str]:
        """A measurement as measurements of single qubits of `q` into bits of `c`."""
        if not it.text.startswith("measure"):
            raise CannotCut("a statement stays that the program doesn't take", it.line)
        begins, count = {}, 0
        for number, size in self.circuit.bits.values():
            begins[number], count = count, count + size
        return [f"measure q[{qubit}] -> c[{begins[number] + bit}];" for qubit, (number, bit) in zip(it.qubits, it.writes)]


def _placed(piece: _Piece, done: _Done, place: dict[int, str]) -> list[str]:
    """The lines of a part, or of a window of it, with the names of its qubits."""
    named = [place[at] for at in piece.qubits]
    if done.lines is None:
        return [f"{it.text} {','.join([place[at] for at in it.qubits])};" for it in piece.operations]
    return [_PLACE.sub(lambda it: named[int(it[1])], line) for line in done.lines]


def command_parser(command: str) -> argparse.ArgumentParser:
    """The words of the command `parts`."""
    about = (__doc__ or "").split("\n\n")[0].partition(": `")[0] + "."
    parser = arguments.writes_one(arguments.parser(command, about))
    arguments.takes_jobs(arguments.takes_best(parser, True), "parts")
    arguments.takes_seconds(parser, "a time limit for each part; then teleport takes it in windows, each with this limit")
    arguments.takes_within(parser)
    add = parser.add_argument
    add("--teleport", action="store_true", help="change phases alone, so that all other gates stay")
    add("--gates", type=arguments.positive_int, metavar="N", help="gates of a part at most; else what one run takes")
    add("--barriers", action="store_true", help="keep barriers, and let no gate cross one")
    return parser


def command(asked: argparse.Namespace) -> int:
    """The command `parts`: reads a file or standard input, writes standard output or a file, tells counts on standard
    error. Answers the exit status 0."""
    is_terminal = sys.stderr.isatty()

    def progress(done: int, count: int) -> None:
        print(f"\rparts: {done} of {count}", end="", file=sys.stderr, flush=True)

    text: Text = cli.read_text(asked.file)
    if asked.within is not None:
        text = prepare(text, within=asked.within).text
    found = optimise_parts(
        text,
        best=asked.best,
        teleport=asked.teleport,
        gates=asked.gates,
        jobs=asked.jobs or processors(),
        keep_barriers=asked.barriers,
        timeout=asked.seconds,
        progress=progress if is_terminal else None,
    )
    cli.write_text(found.text, asked.to)
    print(
        f"{chr(13) if is_terminal else ''}parts: {found.parts} parts, {found.kept} statements stay; "
        f"T {found.before.t} before, {found.after.t} after; "
        f"gates on two qubits {found.before.two_qubit} before, {found.after.two_qubit} after",
        file=sys.stderr,
    )
    if found.rescued:
        print(f"parts: {found.rescued} took too long, and went through teleport in windows", file=sys.stderr)
    for it in found.late:
        print(f"parts: {it}", file=sys.stderr)
    if found.rounded:
        print(f"parts: {told(found.rounded)}", file=sys.stderr)
    return 0


def main(argv: Sequence[str]) -> int:
    """The command `parts` with these words, and its exit status: 1 where the text can't be cut, 5 where memory ran out,
    70 where a file or the program can't be read or run."""
    from zxopt.__main__ import main as run_command

    return run_command(["parts", *argv])
