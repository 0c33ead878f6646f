"""What is known of a text's gates: whether the program reads an application, how many calls it makes, what commutes.

The *shape* of an application is its gate with its angles, without its qubits. Whether the program reads a shape is
predicted here; the program itself decides, and what it refuses besides is told to `Shapes.refuse`.
"""
from __future__ import annotations

import re
from functools import lru_cache
from typing import NamedTuple, Optional, Sequence

from . import angles
from .data import read_data
from .library import library
from .qasm import FUNCTIONS, HEADER, Declaration, declaration, split, squeezed

GREATEST_DEPTH = 200
# What the program takes in one text: calls of gates, and qubits.
GREATEST_CALLS = 1_000_000
GREATEST_QUBITS = 1_024
_DECIMAL = re.compile(r"[-+]?(?:\d+\.\d*|\.\d+)(?:[eE][-+]?\d+)?")
_WORD = re.compile(r"[^\W\d]\w*")

# The gates that are diagonal on all of their qubits.
_DIAGONAL = frozenset(
    "id z s sdg t tdg rz u1 p u0 cz cu1 cp crz rzz ccz rzq cs csdg phase cphase zz c3z".split()
)
# How many of a gate's first qubits it is diagonal on, where there are others.
_CONTROLS = {
    "cx": 1, "cy": 1, "ch": 1, "cu3": 1, "cu": 1, "crx": 1, "cry": 1, "csx": 1, "csxdg": 1, "cswap": 1, "rzx": 1,
    "ccx": 2, "rccx": 2, "rc3x": 3, "rcccx": 3, "c3x": 3,
}


class Shape(NamedTuple):
    """A gate with its angles: its text, the calls that it makes or none where the program doesn't read it, the number
    of qubits that it takes or none where that isn't known, and on which of them it is diagonal.

    An operation is diagonal on a qubit where it is a sum of operations on the other qubits, one for each value of that
    qubit's bit, that leave this bit alone. Two operations that are both diagonal on each qubit that they share commute.
    """

    text: str
    calls: Optional[int]
    qubits: Optional[int]
    diagonal: tuple[bool, ...]


@lru_cache(maxsize=1)
def header() -> dict[str, Declaration]:
    """The declarations of the program's header."""
    text = read_data("header.qasm")
    found = [declaration(it.text) for it in split(text)[0]]
    return {it.name: it for it in found if it}


def diagonal_of(name: str, count: int) -> Optional[tuple[bool, ...]]:
    """On which of its qubits a gate of the header or of the library is diagonal, or none where it isn't known."""
    if name in _DIAGONAL:
        return (True,) * count
    if name in _CONTROLS:
        return tuple(it < _CONTROLS[name] for it in range(count))
    return None


class Shapes:
    """The gates of a text: the header's, and those that `texts` declare."""

    def __init__(self, texts: Sequence[str]) -> None:
        self.gates: dict[str, Declaration] = dict(header())
        self.foreign: set[str] = set()
        self.standard = set(HEADER)
        self.shapes: dict[tuple[str, tuple[str, ...]], Shape] = {}
        self.known_calls: dict[tuple[str, tuple[angles.Value, ...]], Optional[int]] = {}
        self.known_diagonal: dict[str, tuple[bool, ...]] = {}
        self.own: dict[str, str] = {}
        for text in texts:
            self.declare(text)

    def declare(self, text: str) -> None:
        """Takes a declaration; one that the program can't read makes its gate foreign."""
        one = declaration(text)
        said = squeezed(text)
        words = _WORD.findall(said)
        name = one.name if one else words[1] if len(words) > 1 else ""
        self.own[name] = said
        self.standard.discard(name)
        if one and name in library() and library()[name].text == said:
            if all(self.own.get(it) == library()[it].text for it in library()[name].needs):
                self.standard.add(name)
        unknown = one and any(it.name not in self.gates and it.name not in ("U", "CX") for it in one.body)
        is_foreign = not one or one.is_opaque or "^" in said or not FUNCTIONS.isdisjoint(words) or unknown
        if is_foreign or (one and any(it.name in self.foreign for it in one.body)):
            self.foreign.add(name)
        if one:
            self.gates[name] = one
            # bodies mean the gates that were declared before them
            self.known_diagonal.pop(name, None)
            self.diagonal(name)

    def set_aside(self, name: str) -> None:
        """Makes a gate foreign, and those that are made of it."""
        self.foreign.add(name)
        for other in self.own:
            gate = self.gates.get(other)
            if other not in self.foreign and gate and any(it.name in self.foreign for it in gate.body):
                self.foreign.add(other)

    def refuse(self, text: str) -> None:
        """Notes that the program doesn't read the shape with this text."""
        for key, shape in self.shapes.items():
            if shape.text == text:
                self.shapes[key] = shape._replace(calls=None)

    def shape(self, name: str, texts: tuple[str, ...]) -> Shape:
        """The shape of a gate with the texts of its angles."""
        known = self.shapes.get((name, texts))
        if known is None:
            known = self.shapes[name, texts] = self.new_shape(name, texts)
        return known

    def new_shape(self, name: str, texts: tuple[str, ...]) -> Shape:
        text = f"{name}({','.join(texts)})" if texts else name
        if name in ("U", "CX"):
            is_diagonal = (name == "U" and texts[:1] == ("0",), False)
            count = 1 if name == "U" else 2
            is_whole = name == "CX" or len(texts) == 3
            calls = self.calls_of(name, texts) if is_whole else None
            return Shape(text, calls, count, is_diagonal[:1] if count == 1 else (True, False))
        gate = self.gates.get(name)
        if gate is None:
            return Shape(text, None, None, ())
        count = len(gate.qubits)
        if name in self.foreign or len(texts) != len(gate.angles):
            return Shape(text, None, count, (False,) * count)
        calls = self.calls_of(name, texts) if count <= GREATEST_QUBITS else None
        return Shape(text, calls, count, self.diagonal(name))

    def diagonal(self, name: str) -> tuple[bool, ...]:
        """On which of its qubits a gate is diagonal: known of standard gates, else where all of the body are."""
        if name not in self.known_diagonal:
            gate = self.gates[name]
            found = diagonal_of(name, len(gate.qubits)) if name in self.standard else None
            if found is None and name not in self.own:
                found = (False,) * len(gate.qubits)
            self.known_diagonal[name] = (False,) * len(gate.qubits)
            self.known_diagonal[name] = found if found is not None else self.diagonal_by_body(gate)
        return self.known_diagonal[name]

    def diagonal_by_body(self, gate: Declaration) -> tuple[bool, ...]:
        left = set(gate.qubits)
        for inner in gate.body:
            if inner.name in ("U", "CX"):
                flags = (inner.angles[:1] == ("0",),) if inner.name == "U" else (True, False)
            elif inner.name in self.gates and inner.name not in self.foreign:
                flags = self.diagonal(inner.name)
            else:
                flags = (False,) * len(inner.places)
            left -= {place for place, flag in zip(inner.places, flags) if not flag}
        return tuple(it in left for it in gate.qubits)

    # -- calls --------------------------------------------------------------------------------------------------------

    def calls_of(self, name: str, texts: tuple[str, ...]) -> Optional[int]:
        """How many calls an application makes, or none where some angle isn't a whole number of sixteenth turns, or where
        they are more than the program takes."""
        if name in self.standard and name in HEADER and any(_is_rounded(it) for it in texts):
            return None
        values = _values(texts, {})
        calls = None if values is None else self.calls(name, values, 1)
        return None if calls is None or calls > GREATEST_CALLS else calls

    def calls(self, name: str, values: tuple[angles.Value, ...], depth: int) -> Optional[int]:
        if name == "CX":
            return 1
        if name == "U":
            return 1 if all(it.is_sixteenths() for it in values) else None
        key = (name, values)
        if key not in self.known_calls:
            self.known_calls[key] = None if depth > GREATEST_DEPTH else self.count_calls(name, values, depth)
        return self.known_calls[key]

    def count_calls(self, name: str, values: tuple[angles.Value, ...], depth: int) -> Optional[int]:
        gate = self.gates.get(name)
        if gate is None or name in self.foreign or len(gate.angles) != len(values):
            return None
        known, count = dict(zip(gate.angles, values)), 1
        for inner in gate.body:
            inner_values = _values(inner.angles, known)
            calls = None if inner_values is None else self.calls(inner.name, inner_values, depth + 1)
            if calls is None:
                return None
            count += calls
        return count


def _is_rounded(text: str) -> bool:
    """Whether an angle is a decimal number other than 0: no multiple of pi."""
    return bool(_DECIMAL.fullmatch(text)) and any(it in "123456789" for it in text.lower().partition("e")[0])


def _values(texts: Sequence[str], known: dict[str, angles.Value]) -> Optional[tuple[angles.Value, ...]]:
    """The values of angles, or none where the program doesn't read one."""
    out = []
    for text in texts:
        node = angles.read(text, known)
        if node is None or node.value is None or not node.is_plain or not node.value.is_exact():
            return None
        out.append(node.value)
    return tuple(out)
