"""A small simulator of OpenQASM 2 to compare texts by, independent of the package: matrices, and a branch for each outcome.

The gates of Qiskit's header and of others are written from the matrices that define them. The first qubit is the lowest
bit. A text becomes a mixture: for each value of the bits, vectors that aren't normed, whose projectors add up to the state
then. Two channels that agree on one drawn state agree everywhere but for a set of states of measure 0, since the
difference is a polynomial in the state. Lists of complex numbers are enough for seven qubits, and for some more in short texts.
"""
from __future__ import annotations

import cmath
import math
import random
import re
from typing import Callable, Optional, Union

Matrix = list[list[complex]]
Sparse = list[list[tuple[int, complex]]]
Mixture = dict[tuple[int, ...], list[list[complex]]]

ROOT = math.sqrt(0.5)


# -- matrices ---------------------------------------------------------------------------------------------------------


def u3(theta: float, phi: float, lam: float) -> Matrix:
    """U3 with a real first entry."""
    c, s = math.cos(theta / 2), math.sin(theta / 2)
    return [[c, -cmath.exp(1j * lam) * s], [cmath.exp(1j * phi) * s, cmath.exp(1j * (phi + lam)) * c]]


def diagonal(*entries: complex) -> Matrix:
    return [[it if row == column else 0 for column in range(len(entries))] for row, it in enumerate(entries)]


def turn(angle: float) -> Matrix:
    return diagonal(1, cmath.exp(1j * angle))


def controlled(count: int, matrix: Matrix) -> Matrix:
    """The matrix under controls, which are the lowest bits."""
    size, mask = len(matrix) << count, (1 << count) - 1
    out: Matrix = [[0] * size for _ in range(size)]
    for row in range(size):
        if row & mask != mask:
            out[row][row] = 1
            continue
        for column in range(len(matrix)):
            out[row][column << count | mask] = matrix[row >> count][column]
    return out


def times(a: Matrix, b: Matrix) -> Matrix:
    size = range(len(a))
    return [[sum(a[row][it] * b[it][column] for it in size) for column in size] for row in size]


def with_low(low: Matrix, high: Matrix) -> Matrix:
    """The product of two qubits' matrices, the first on the lowest bit."""
    size = range(4)
    return [[low[row & 1][column & 1] * high[row >> 1][column >> 1] for column in size] for row in size]


def rotation(theta: float, pauli: Matrix) -> Matrix:
    """exp(-i*theta/2*P) of a P whose square is the identity."""
    c, s = math.cos(theta / 2), math.sin(theta / 2)
    size = range(len(pauli))
    return [[(c if row == column else 0) - 1j * s * pauli[row][column] for column in size] for row in size]


def permutation(size: int, moved: dict[int, tuple[int, complex]]) -> Matrix:
    """The identity but for columns that go to another row with a factor."""
    out: Matrix = [[0] * size for _ in range(size)]
    for column in range(size):
        row, factor = moved.get(column, (column, 1))
        out[row][column] = factor
    return out


I2, X, Y, Z = diagonal(1, 1), [[0, 1], [1, 0]], [[0, -1j], [1j, 0]], diagonal(1, -1)
H = [[ROOT, ROOT], [ROOT, -ROOT]]
SX = [[(1 + 1j) / 2, (1 - 1j) / 2], [(1 - 1j) / 2, (1 + 1j) / 2]]
SXDG = [[(1 - 1j) / 2, (1 + 1j) / 2], [(1 + 1j) / 2, (1 - 1j) / 2]]
SWAP = permutation(4, {1: (2, 1), 2: (1, 1)})
XX, YY, ZZ, ZX = with_low(X, X), with_low(Y, Y), with_low(Z, Z), with_low(Z, X)
PI = math.pi


def fsim(theta: float, phi: float) -> Matrix:
    c, s = math.cos(theta), -1j * math.sin(theta)
    return [[1, 0, 0, 0], [0, c, s, 0], [0, s, c, 0], [0, 0, 0, cmath.exp(-1j * phi)]]


def scaled(factor: complex, matrix: Matrix) -> Matrix:
    return [[factor * it for it in row] for row in matrix]


def r_gate(theta: float, phi: float) -> Matrix:
    c, s = math.cos(theta / 2), -1j * math.sin(theta / 2)
    return [[c, s * cmath.exp(-1j * phi)], [s * cmath.exp(1j * phi), c]]


ECR = [[0, ROOT, 0, 1j * ROOT], [ROOT, 0, -1j * ROOT, 0], [0, 1j * ROOT, 0, ROOT], [-1j * ROOT, 0, ROOT, 0]]
RCCX = permutation(8, {3: (7, 1j), 7: (3, -1j), 5: (5, -1)})
RC3X = permutation(16, {3: (3, 1j), 11: (11, -1j), 7: (15, -1), 15: (7, 1)})

# The gates by name: numbers of angles and of qubits, and the matrix.
GATES: dict[str, tuple[int, int, Callable[..., Matrix]]] = {
    "U": (3, 1, u3), "u3": (3, 1, u3), "u": (3, 1, u3), "u2": (2, 1, lambda p, l: u3(PI / 2, p, l)),
    "u1": (1, 1, turn), "p": (1, 1, turn), "phase": (1, 1, turn), "rzq": (2, 1, lambda n, d: turn(n * PI / d)),
    "u0": (1, 1, lambda g: I2), "id": (0, 1, lambda: I2), "delay": (1, 1, lambda t: I2),
    "x": (0, 1, lambda: X), "y": (0, 1, lambda: Y), "z": (0, 1, lambda: Z), "h": (0, 1, lambda: H),
    "s": (0, 1, lambda: turn(PI / 2)), "sdg": (0, 1, lambda: turn(-PI / 2)),
    "t": (0, 1, lambda: turn(PI / 4)), "tdg": (0, 1, lambda: turn(-PI / 4)),
    "sx": (0, 1, lambda: SX), "sxdg": (0, 1, lambda: SXDG),
    "rx": (1, 1, lambda t: rotation(t, X)), "ry": (1, 1, lambda t: rotation(t, Y)), "rz": (1, 1, lambda t: rotation(t, Z)),
    "r": (2, 1, r_gate), "u1q": (2, 1, r_gate),
    "CX": (0, 2, lambda: controlled(1, X)), "cx": (0, 2, lambda: controlled(1, X)),
    "cy": (0, 2, lambda: controlled(1, Y)), "cz": (0, 2, lambda: controlled(1, Z)), "ch": (0, 2, lambda: controlled(1, H)),
    "cs": (0, 2, lambda: controlled(1, turn(PI / 2))), "csdg": (0, 2, lambda: controlled(1, turn(-PI / 2))),
    "csx": (0, 2, lambda: controlled(1, SX)), "csxdg": (0, 2, lambda: controlled(1, SXDG)),
    "cu1": (1, 2, lambda t: controlled(1, turn(t))), "cp": (1, 2, lambda t: controlled(1, turn(t))),
    "cphase": (1, 2, lambda t: controlled(1, turn(t))),
    "crx": (1, 2, lambda t: controlled(1, rotation(t, X))), "cry": (1, 2, lambda t: controlled(1, rotation(t, Y))),
    "crz": (1, 2, lambda t: controlled(1, rotation(t, Z))),
    "cu3": (3, 2, lambda t, p, l: controlled(1, u3(t, p, l))),
    "cu": (4, 2, lambda t, p, l, g: controlled(1, scaled(cmath.exp(1j * g), u3(t, p, l)))),
    "swap": (0, 2, lambda: SWAP), "iswap": (0, 2, lambda: permutation(4, {1: (2, 1j), 2: (1, 1j)})),
    "dcx": (0, 2, lambda: permutation(4, {1: (2, 1), 2: (3, 1), 3: (1, 1)})), "ecr": (0, 2, lambda: ECR),
    "rxx": (1, 2, lambda t: rotation(t, XX)), "ryy": (1, 2, lambda t: rotation(t, YY)),
    "rzz": (1, 2, lambda t: rotation(t, ZZ)), "rzx": (1, 2, lambda t: rotation(t, ZX)),
    "zz": (0, 2, lambda: rotation(PI / 2, ZZ)),
    "rxxyyzz": (3, 2, lambda a, b, c: times(rotation(a, XX), times(rotation(b, YY), rotation(c, ZZ)))),
    "fsim": (2, 2, fsim),
    "ccx": (0, 3, lambda: controlled(2, X)), "ccz": (0, 3, lambda: controlled(2, Z)), "cswap": (0, 3, lambda: controlled(1, SWAP)),
    "rccx": (0, 3, lambda: RCCX), "rc3x": (0, 4, lambda: RC3X), "rcccx": (0, 4, lambda: RC3X),
    "c3x": (0, 4, lambda: controlled(3, X)), "c3z": (0, 4, lambda: controlled(3, Z)),
    "c3sqrtx": (0, 4, lambda: controlled(3, SX)), "c4x": (0, 5, lambda: controlled(4, X)),
}


# -- reading ----------------------------------------------------------------------------------------------------------

_BLOCK = re.compile(r"/\*.*?\*/", re.S)
_LINE = re.compile(r"//[^\n]*")
_STATEMENT = re.compile(r"[^;{}]*(?:\{[^}]*\}|;)")
_GATE = re.compile(r"(?:gate|opaque)\s+(\w+)\s*(?:\(([^)]*)\))?([^{;]*)(?:\{(.*)\}|;)", re.S)
_CALL = re.compile(r"([^\W\d]\w*)\s*(?:\((.*)\)\s*|(?=\s))([^()]*)", re.S)
_IF = re.compile(r"if\s*\(\s*(\w+)\s*==\s*(\d+)\s*\)\s*(.*)", re.S)
_FUNCTIONS = {it: getattr(math, it) for it in ("sin", "cos", "tan", "exp", "sqrt", "asin", "acos", "atan")}


def letters(data: Union[str, bytes]) -> str:
    """A text without its byte order mark and comments."""
    if isinstance(data, bytes):
        is_wide = data[:2] in (b"\xff\xfe", b"\xfe\xff")
        data = data.decode("utf-16" if is_wide else "utf-8-sig", errors="replace")
    return _LINE.sub("", _BLOCK.sub(" ", data.lstrip("\ufeff")))


def value(text: str, known: dict[str, float]) -> float:
    """An angle's value, by Python's own reading of it."""
    said = re.sub(r"(?<![\w.])0+(?=\d)", "", text.replace("^", "**").replace("\u03c0", "pi")).replace("lambda", "lambda_")
    known = {name.replace("lambda", "lambda_"): it for name, it in known.items()}
    return float(eval(said, {"__builtins__": {}}, {**_FUNCTIONS, "ln": math.log, "pi": PI, "PI": PI, **known}))


def pieces(text: str) -> list[str]:
    """A list's pieces at its commas outside of parentheses."""
    out, depth = [""], 0
    for letter in text:
        depth += {"(": 1, ")": -1}.get(letter, 0)
        if letter == "," and depth == 0:
            out.append("")
        else:
            out[-1] += letter
    return [it.strip() for it in out if it.strip()]


class Text:
    """A text that is ready to be run: its declarations, registers and operations."""

    def __init__(self, data: Union[str, bytes]) -> None:
        self.gates: dict[str, tuple[list[str], list[str], list[str]]] = {}
        self.qubits: dict[str, list[int]] = {}
        self.bits: dict[str, list[int]] = {}
        self.operations: list[str] = []
        self.count = self.bit_count = 0
        for statement in _STATEMENT.findall(letters(data)):
            self.add(statement.strip().rstrip(";").strip())

    def add(self, said: str) -> None:
        head = re.match(r"\w*", said)[0]  # type: ignore[index]
        if head in ("gate", "opaque"):
            found = _GATE.fullmatch(said if "{" in said else said + ";")
            assert found, said
            body = [it.strip() for it in (found[4] or "").split(";") if it.strip()]
            self.gates[found[1]] = (pieces(found[2] or ""), pieces(found[3]), body)
        elif head in ("qreg", "creg"):
            name, size = re.findall(r"\w+", said)[1:3]
            if head == "qreg":
                self.qubits[name] = list(range(self.count, self.count + int(size)))
                self.count += int(size)
            else:
                self.bits[name] = list(range(self.bit_count, self.bit_count + int(size)))
                self.bit_count += int(size)
        elif head.lower() not in ("", "openqasm", "include"):
            self.operations.append(said)


def places(text: str, registers: dict[str, list[int]]) -> list[int]:
    """The numbers of the places that a register or one place of it names."""
    name, _, index = text.strip().partition("[")
    return [registers[name.strip()][int(index.strip(" ]"))]] if index else registers[name]


# -- running ----------------------------------------------------------------------------------------------------------


def sparse(matrix: Matrix) -> Sparse:
    return [[(column, it) for column, it in enumerate(row) if it != 0] for row in matrix]


def applied(matrix: Sparse, qubits: list[int], state: list[complex]) -> list[complex]:
    """A state with a gate's matrix applied to some of its qubits."""
    size = len(matrix)
    offsets = [sum(1 << qubit for at, qubit in enumerate(qubits) if index >> at & 1) for index in range(size)]
    mask, out = offsets[-1], list(state)
    rows = [(offsets[row], [(offsets[column], it) for column, it in entries]) for row, entries in enumerate(matrix)
            if entries != [(row, 1)]]
    for base in range(len(state)):
        if base & mask:
            continue
        for row, entries in rows:
            total: complex = 0
            for column, it in entries:
                total += it * state[base | column]
            out[base | row] = total
    return out


class Run:
    """A text's run from one state."""

    def __init__(self, text: Text, state: list[complex]) -> None:
        self.text = text
        self.mixture: Mixture = {(0,) * text.bit_count: [state]}
        for said in text.operations:
            self.mixture = self.after(said, self.mixture)

    def after(self, said: str, mixture: Mixture) -> Mixture:
        """The mixture behind an operation."""
        head = re.match(r"\w*", said)[0]  # type: ignore[index]
        if head == "barrier":
            return mixture
        if head == "if":
            return self.after_if(said, mixture)
        if head == "measure":
            left, right = said[len("measure") :].split("->")
            for qubit, bit in zip(places(left, self.text.qubits), places(right, self.text.bits)):
                mixture = measured(mixture, qubit, bit)
            return mixture
        if head == "reset":
            for qubit in places(said[len("reset") :], self.text.qubits):
                mixture = reset(mixture, qubit)
            return mixture
        for matrix, qubits in self.gates(said, {}, None):
            mixture = {bits: [applied(matrix, qubits, it) for it in states] for bits, states in mixture.items()}
        return mixture

    def after_if(self, said: str, mixture: Mixture) -> Mixture:
        found = _IF.fullmatch(said)
        assert found, said
        those = self.text.bits[found[1]]
        holds = {bits: sum(bits[it] << at for at, it in enumerate(those)) == int(found[2]) for bits in mixture}
        out = {bits: states for bits, states in mixture.items() if not holds[bits]}
        for bits, states in self.after(found[3], {b: s for b, s in mixture.items() if holds[b]}).items():
            out[bits] = out.get(bits, []) + states
        return out

    def gates(self, said: str, known: dict[str, float], formal: Optional[dict[str, int]]) -> list[tuple[Sparse, list[int]]]:
        """The matrices that an application stands for, each with its qubits."""
        found = _CALL.fullmatch(said.strip())
        assert found, said
        name, arguments = found[1], pieces(found[3])
        if name == "barrier":
            return []
        angles = [value(it, known) for it in pieces(found[2] or "")]
        lists = [[formal[it]] if formal is not None else places(it, self.text.qubits) for it in arguments]
        count = max(len(it) for it in lists)
        out = []
        for at in range(count):
            qubits = [it[at] if len(it) > 1 else it[0] for it in lists]
            assert len(set(qubits)) == len(qubits), said
            out += self.one(name, angles, qubits)
        return out

    def one(self, name: str, angles: list[float], qubits: list[int]) -> list[tuple[Sparse, list[int]]]:
        if name in self.text.gates:
            parameters, formals, body = self.text.gates[name]
            assert len(parameters) == len(angles) and len(formals) == len(qubits), name
            known, formal = dict(zip(parameters, angles)), dict(zip(formals, qubits))
            return [it for inner in body for it in self.gates(inner, known, formal)]
        count, width, matrix = GATES[name] if name in GATES else GATES[name.lower()]
        assert count == len(angles) and width == len(qubits), name
        return [(sparse(matrix(*angles)), qubits)]


def projected(state: list[complex], qubit: int, bit: int) -> list[complex]:
    return [it if at >> qubit & 1 == bit else 0 for at, it in enumerate(state)]


def has_weight(state: list[complex]) -> bool:
    return sum(abs(it) ** 2 for it in state) > 1e-16


def measured(mixture: Mixture, qubit: int, place: int) -> Mixture:
    out: Mixture = {}
    for bits, states in mixture.items():
        for bit in (0, 1):
            left = [it for it in (projected(state, qubit, bit) for state in states) if has_weight(it)]
            if left:
                out.setdefault((*bits[:place], bit, *bits[place + 1 :]), []).extend(left)
    return out


def reset(mixture: Mixture, qubit: int) -> Mixture:
    out: Mixture = {}
    for bits, states in mixture.items():
        for state in states:
            down = [state[at | 1 << qubit] if not at >> qubit & 1 else 0 for at in range(len(state))]
            out.setdefault(bits, []).extend(it for it in (projected(state, qubit, 0), down) if has_weight(it))
    return out


def drawn_state(qubits: int, seed: int) -> list[complex]:
    """A state of norm 1 with drawn entries."""
    draw = random.Random(seed)
    state = [complex(draw.gauss(0, 1), draw.gauss(0, 1)) for _ in range(1 << qubits)]
    norm = math.sqrt(sum(abs(it) ** 2 for it in state))
    return [it / norm for it in state]


def overlap(some: list[list[complex]], others: list[list[complex]]) -> float:
    """The trace of the product of two sums of projectors."""
    return sum(abs(sum(a.conjugate() * b for a, b in zip(one, other))) ** 2 for one in some for other in others)


def distance(one: Mixture, other: Mixture) -> float:
    """The distance of two mixtures: the root of the summed squares of the entries of the difference."""
    total = 0.0
    for bits in {**one, **other}:
        a, b = one.get(bits, []), other.get(bits, [])
        total += overlap(a, a) + overlap(b, b) - 2 * overlap(a, b)
    return math.sqrt(max(total, 0.0))


def used_qubits(*texts: Text) -> list[int]:
    """The qubits that operations name, so that others may be left out."""
    used: set[int] = set()
    for text in texts:
        for said in text.operations:
            for name, index in re.findall(r"\b([^\W\d]\w*)\b\s*(?:\[\s*(\d+)\s*\])?", said):
                if name in text.qubits:
                    used.update([text.qubits[name][int(index)]] if index else text.qubits[name])
    return sorted(used)


def channels_differ(one: Union[str, bytes], other: Union[str, bytes], *, from_zero: bool = False, seed: int = 1) -> float:
    """How far two texts are apart on one state, drawn or all 0: their qubits and their bits stand for each other in the
    order of their declarations."""
    texts = [Text(one), Text(other)]
    assert texts[0].bit_count == texts[1].bit_count or not texts[1].bit_count or not texts[0].bit_count
    used = used_qubits(*texts)
    at = {qubit: place for place, qubit in enumerate(used)}
    for text in texts:
        text.qubits = {name: [at.get(it, -1) for it in those] for name, those in text.qubits.items()}
        text.bit_count = max(it.bit_count for it in texts)
    state = [1.0 + 0j] + [0j] * ((1 << len(used)) - 1) if from_zero else drawn_state(len(used), seed)
    return distance(Run(texts[0], state).mixture, Run(texts[1], state).mixture)


def is_same(one: Union[str, bytes], other: Union[str, bytes], *, from_zero: bool = False, seed: int = 1) -> bool:
    """Whether two texts have the same channel, up to the errors of rounding."""
    return channels_differ(one, other, from_zero=from_zero, seed=seed) < 1e-6


def matrix_of(text: str) -> Matrix:
    """The matrix of a text of gates, column by column."""
    read = Text(text)
    size = 1 << read.count
    columns = [Run(read, [1 if row == column else 0 for row in range(size)]).mixture[()][0] for column in range(size)]
    return [[columns[column][row] for column in range(size)] for row in range(size)]


def is_multiple(one: Matrix, other: Matrix) -> bool:
    """Whether two unitary matrices are equal up to a factor."""
    inner = sum(a.conjugate() * b for left, right in zip(one, other) for a, b in zip(map(complex, left), right))
    return abs(abs(inner) - len(one)) < 1e-9
