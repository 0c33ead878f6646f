"""The program's commands as functions on circuits.

A circuit is a text (str or bytes), the path of a file, or a circuit of Qiskit, PyZX or pytket, which goes through
`zxopt.prepare` (see `zxopt.texts`). Each function runs the program once, or calls its library in this process where
`zxopt.program.run` says so. Where it says nothing else, it raises Refused where a text is refused, MemoryError where
the program's memory ran out, TimeoutError where it took longer than `timeout` seconds, TypeError where a circuit is
none of these, and OSError where a file couldn't be read, or the program couldn't be run or ended in any other way
(TimeoutError is an OSError, so catch it first). `program` is the program to run; None stands for that of
`find_program`.
"""
from __future__ import annotations

import cmath
from dataclasses import dataclass
from typing import Optional, Tuple, Union, overload

from .faults import NoFlow, Refused
from .program import Program, run
from .texts import AnyCircuit, Circuit, Text, answer, as_bytes

__all__ = [
    "Comparison",
    "Counts",
    "FlowCheck",
    "FlowFails",
    "GateCounts",
    "Optimised",
    "Scalar",
    "compile",
    "compile_diagram",
    "counts",
    "flow",
    "graph",
    "optimise",
    "optimise_counted",
    "optimize",
    "reduce",
    "same",
    "teleport",
]

_PARTING_LINE = b"//// second\n"


@dataclass(frozen=True)
class GateCounts:
    """How many gates a circuit has, lowered to the kinds that the program writes: a `cz` that is read counts as two H
    and a CX, a `swap` as three CX, a Toffoli as seven phases, six CX and two H.

    odd: phases that are no whole quarter turn: T gates, their square roots and their odd multiples. Without such
    roots this is the T-count.
    two_qubit: cz and cx together. x: NOT gates. phase: those of odd phase too.
    """

    gates: int
    odd: int
    two_qubit: int
    h: int
    phase: int
    cz: int
    cx: int
    x: int


@dataclass(frozen=True)
class Counts:
    """What was read, and what was written of it."""

    read: GateCounts
    written: GateCounts


@dataclass(frozen=True)
class Scalar:
    """The scalar r^root2 * z^turn, with r the root of two and z = exp(i*pi/8), a sixteenth turn.

    It is what the linear map of the text that was read is times that of the text that is written, where the map of a
    text is the product of the matrices of its built-in gates, that of U(theta,phi,lambda) taken
    2*exp(i*(theta+phi+lambda)/2) times.
    """

    root2: int
    turn: int

    def __complex__(self) -> complex:
        """The number. OverflowError where it is too large for a float."""
        return float(2.0 ** (self.root2 / 2)) * cmath.exp(1j * cmath.pi * self.turn / 8)


@dataclass(frozen=True)
class Optimised:
    """What `opt` writes for a text, with the counts of both circuits and the scalar between their maps."""

    text: str
    counts: Counts
    scalar: Scalar


@dataclass(frozen=True)
class Comparison:
    """What `same` says of two circuits; it is true where that is `same`, and only there.

    kind: `same`; `not shown`, where it wasn't shown and they may be the same or differ; `widths`, where they have
    different numbers of qubits, or `measures`, where they measure differently: in these two they differ for sure.
    widths: both numbers of qubits, of the kind `widths` alone.
    left: how many gates of both are left that didn't cancel, of the kind `not shown` alone.
    """

    kind: str
    widths: Optional[Tuple[int, int]] = None
    left: Optional[int] = None

    def __bool__(self) -> bool:
        return self.kind == "same"

    def __str__(self) -> str:
        """The program's own words: `same`, `not shown K`, `widths N M` or `measures differ`."""
        if self.widths is not None:
            return f"widths {self.widths[0]} {self.widths[1]}"
        if self.left is not None:
            return f"not shown {self.left}"
        return "measures differ" if self.kind == "measures" else self.kind


@dataclass(frozen=True)
class FlowCheck:
    """Whether the table of a graph file is a flow; it is true where it is one.

    vertex, condition: else the first vertex of the table's order at which a condition fails, and which: `input`,
    `order`, `odd`, or that of the vertex's plane, `XY`, `XZ` or `YZ`.
    """

    vertex: Optional[int] = None
    condition: Optional[str] = None

    def __bool__(self) -> bool:
        return self.vertex is None

    def __str__(self) -> str:
        """The program's own words: `flow`, or `fails VERTEX CONDITION`."""
        return "flow" if self else f"fails {self.vertex} {self.condition}"


class FlowFails(ValueError):
    """The table of a graph file is no flow, so its graph isn't reduced; `check` tells why."""

    def __init__(self, check: FlowCheck) -> None:
        super().__init__(check)
        self.check = check

    def __str__(self) -> str:
        return f"the table is no flow: the condition {self.check.condition} fails at the vertex {self.check.vertex}"


@overload
def optimise(
    circuit: Text,
    best: bool = True,
    *,
    report: bool = False,
    scalar: bool = False,
    timeout: Optional[float] = None,
    program: Optional[Program] = None,
) -> str: ...


@overload
def optimise(
    circuit: AnyCircuit, best: bool = True, *, timeout: Optional[float] = None, program: Optional[Program] = None
) -> AnyCircuit: ...


def optimise(
    circuit: Union[Text, AnyCircuit],
    best: bool = True,
    *,
    report: bool = False,
    scalar: bool = False,
    timeout: Optional[float] = None,
    program: Optional[Program] = None,
) -> Union[str, AnyCircuit]:
    """A circuit with the same linear map, up to a nonzero scalar, and the same measurements behind it, with no more odd
    phases (T gates, their square roots and their like). It is a text, or of the kind of the object that was given, with
    the registers, names and bits that this kind has.

    best: takes the best of several circuits, so gates on two qubits don't become more in practice; without it one
    alone is made, which is faster.
    report: adds two comment lines with the counts of gates read and written; to a text alone.
    scalar: adds a last one with the scalar between both maps; to a text alone.
    """
    return answer(_optimised(circuit, best, report, scalar, timeout, program), circuit)


optimize = optimise


def optimise_counted(
    circuit: Circuit, best: bool = True, *, timeout: Optional[float] = None, program: Optional[Program] = None
) -> Optimised:
    """The text that `optimise` makes of a circuit, with the counts of gates and the scalar beside it."""
    whole = _optimised(circuit, best, True, True, timeout, program)
    body, read, written, times, _ = _last_lines(whole, 4)
    return Optimised(body + "\n", Counts(_counts_in(read), _counts_in(written)), _scalar_in(times))


def counts(
    circuit: Circuit, best: bool = True, *, timeout: Optional[float] = None, program: Optional[Program] = None
) -> Counts:
    """The counts of the gates of a circuit, and of what `optimise` makes of it."""
    _, read, written, _ = _last_lines(_optimised(circuit, best, True, False, timeout, program), 3)
    return Counts(_counts_in(read), _counts_in(written))


@overload
def teleport(circuit: Text, *, timeout: Optional[float] = None, program: Optional[Program] = None) -> str: ...


@overload
def teleport(
    circuit: AnyCircuit, *, timeout: Optional[float] = None, program: Optional[Program] = None
) -> AnyCircuit: ...


def teleport(
    circuit: Union[Text, AnyCircuit], *, timeout: Optional[float] = None, program: Optional[Program] = None
) -> Union[str, AnyCircuit]:
    """The same circuit, lowered, with other phases alone: phases that belong together stand at the first of their
    gates, all other gates stay in their order, and there isn't one gate more. The answer is of the kind that
    `optimise` has."""
    return answer(run(["teleport"], circuit, timeout=timeout, program=program)[0], circuit)


def same(
    one: Circuit, other: Circuit, *, timeout: Optional[float] = None, program: Optional[Program] = None
) -> Comparison:
    """Whether the program shows that two circuits have one linear map, up to a nonzero scalar, and the same
    measurements behind it. The answer is true for a yes alone, which is always right; its `kind` tells if a no is sure.

    Raises ValueError where a text has a line `//// second`, which parts the two texts in what the program reads. A
    refusal tells which of both is refused (`Refused.which`), with the place in that text; a fault without a place may
    be of either.
    """
    first, second = as_bytes(one), as_bytes(other)
    for data in (first, second):
        if b"\n" + _PARTING_LINE in b"\n" + data + b"\n":
            raise ValueError("a text to be compared has a line `//// second` itself")
    if not first.endswith(b"\n"):
        first += b"\n"
    try:
        said, _ = run(["same"], first + _PARTING_LINE + second, timeout=timeout, program=program)
    except Refused as refused:
        raise _refused_of_two(refused, first, second) from None
    return _comparison(said)


def flow(text: Text, *, timeout: Optional[float] = None, program: Optional[Program] = None) -> FlowCheck:
    """Whether the table of a graph file is a generalised flow of its graph, and else where it fails."""
    return _flow_check(run(["flow"], text, timeout=timeout, program=program)[0])


def reduce(text: Text, *, timeout: Optional[float] = None, program: Optional[Program] = None) -> str:
    """The graph file of the graph, simplified along its flow until it is reduced, with its flow. Raises FlowFails where
    the table of the file is no flow."""
    said, status = run(["reduce"], text, timeout=timeout, program=program)
    if status != 0:
        raise FlowFails(_flow_check(said))
    return said


def graph(text: Text, *, timeout: Optional[float] = None, program: Optional[Program] = None) -> str:
    """The graph file of a diagram's graph-like form, an open graph, read from a diagram file."""
    return run(["graph"], text, timeout=timeout, program=program)[0]


def compile(text: Text, *, timeout: Optional[float] = None, program: Optional[Program] = None) -> str:
    """The text of a circuit with the linear map, up to a nonzero scalar, of a diagram of Z and X spiders, read from a
    diagram file.

    Raises NoFlow where the diagram's graph-like form has no flow, with the vertices that show it.
    """
    said, status = run(["compile"], text, timeout=timeout, program=program)
    if status != 0:
        raise NoFlow(tuple(int(word) for word in said.split() if word.isdigit()))
    return said


compile_diagram = compile


def _optimised(
    circuit: Circuit, best: bool, report: bool, scalar: bool, timeout: Optional[float], program: Optional[Program]
) -> str:
    """What `opt` writes for a circuit."""
    flags = [("--best", best), ("--report", report), ("--scalar", scalar)]
    words = ["opt", *(flag for flag, wanted in flags if wanted)]
    return run(words, circuit, timeout=timeout, program=program)[0]


def _last_lines(whole: str, count: int) -> list[str]:
    """What stands before the last lines, and these. Raises OSError where there are fewer."""
    found = whole.rsplit("\n", count)
    if len(found) <= count:
        raise OSError(f"the program told no counts, but: {whole[-200:]!r}")
    return found


def _comparison(said: str) -> Comparison:
    """What the program says of two texts."""
    words = said.split()
    if words == ["same"]:
        return Comparison("same")
    if words[:2] == ["not", "shown"] and len(words) == 3:
        return Comparison("not shown", left=int(words[2]))
    if words[:1] == ["widths"] and len(words) == 3:
        return Comparison("widths", widths=(int(words[1]), int(words[2])))
    if words == ["measures", "differ"]:
        return Comparison("measures")
    raise OSError(f"the program told nothing of two texts, but: {said[:200]!r}")


def _flow_check(said: str) -> FlowCheck:
    """What a line such as `flow` or `fails 0 XY` says."""
    words = said.split()
    if words == ["flow"]:
        return FlowCheck()
    if words[:1] == ["fails"] and len(words) == 3:
        return FlowCheck(int(words[1]), words[2])
    raise OSError(f"the program told nothing of a flow, but: {said[:200]!r}")


def _refused_of_two(refused: Refused, first: bytes, second: bytes) -> Refused:
    """The refusal of one of two texts that the program read as one."""
    if refused.place is None:
        return refused
    behind = len(first) + len(_PARTING_LINE)
    if refused.place < behind:
        return Refused.at(refused.number, refused.name, refused.place, first, 1)
    return Refused.at(refused.number, refused.name, refused.place - behind, second, 2)


def _counts_in(line: str) -> GateCounts:
    """The counts of a line such as `// read gates 3 odd 2 two-qubit 1 h 0 phase 2 cz 0 cx 1 not 0`."""
    words = line.split()[2:]
    told = dict(zip(words[::2], map(int, words[1::2])))
    try:
        kinds = {kind: told[kind] for kind in ("gates", "odd", "h", "phase", "cz", "cx")}
        return GateCounts(two_qubit=told["two-qubit"], x=told["not"], **kinds)
    except KeyError:
        raise OSError(f"the program told no counts, but: {line}") from None


def _scalar_in(line: str) -> Scalar:
    """The scalar of a line such as `// scalar root2 2 turn 0`."""
    words = line.split()
    if words[:3:2] != ["//", "root2"] or len(words) != 6:
        raise OSError(f"the program told no scalar, but: {line}")
    return Scalar(int(words[3]), int(words[5]))
