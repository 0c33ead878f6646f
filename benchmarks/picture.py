"""The picture of README: a circuit before and after `opt --best`, as SVG, gates with a T in colour."""
from __future__ import annotations

import re
from typing import Dict, List, NamedTuple, Sequence, Tuple

from zxopt import optimise
from zxopt.qasm import call, register, split
from zxopt.shapes import header

__all__ = ["DOCUMENT", "EXAMPLE", "picture"]

DOCUMENT = "docs/barenco_tof_3.svg"
EXAMPLE = "examples/barenco_tof_3.qasm"

# Gates that are drawn as they are, by their labels; others of the header are drawn as their declarations have them.
_LABELS = {"h": "H", "x": "X", "z": "Z", "s": "S", "sdg": "S⁻¹", "t": "T", "tdg": "T⁻¹"}
_ON_TWO = {"cx", "cz"}
_POWER = re.compile(r"u1\((\d+)\*pi/4\)")
_RAISED = str.maketrans("0123456789", "⁰¹²³⁴⁵⁶⁷⁸⁹")
_STEP, _BOX, _LINE, _LEFT, _TITLE = 22, 18, 26, 14, 34
_STYLE = """<style>
text { font: 11px sans-serif; text-anchor: middle; dominant-baseline: central; fill: #222 }
.title { font: bold 13px sans-serif; text-anchor: start }
line, rect, .ring { stroke: #555 }
rect { fill: #eee }
.t { fill: #f7b267 }
.dot { fill: #555 }
.ring { fill: none }
.paper { fill: white; stroke: none }
</style>"""


class _Gate(NamedTuple):
    label: str
    qubits: Tuple[int, ...]

    @property
    def has_t(self) -> bool:
        """Whether it is T, its inverse, or an odd power of it."""
        return self.label.startswith("T")


def picture(text: str) -> str:
    """The circuit of a text above what `opt --best` makes of it."""
    rows = [("read", _gates(text)), ("written by opt --best", _gates(optimise(text, best=True)))]
    columns = [_columns(gates) for _, gates in rows]
    width = 2 * _LEFT + _STEP * (1 + max(max(places) for places in columns))
    top, parts = 0, []
    for (title, gates), places in zip(rows, columns):
        count = 1 + max(qubit for gate in gates for qubit in gate.qubits)
        odd = sum(gate.has_t for gate in gates)
        on_two = sum(len(gate.qubits) == 2 for gate in gates)
        parts.append(f'<text class="title" x="{_LEFT}" y="{top + 16}">{title}: {odd} T, {on_two} CX and CZ</text>')
        top += _TITLE
        parts += _wires(count, top, width) + [_drawn(gate, place, top) for gate, place in zip(gates, places)]
        top += count * _LINE + 10
    head = f'<svg xmlns="http://www.w3.org/2000/svg" viewBox="0 0 {width} {top}" width="{width}" height="{top}">'
    paper = f'<rect class="paper" width="{width}" height="{top}"/>'
    return "\n".join([head, _STYLE, paper, *parts, "</svg>\n"])


def _gates(text: str) -> List[_Gate]:
    """The gates of a text in the header's gates that are drawn."""
    qubits: Dict[str, int] = {}
    gates: List[_Gate] = []
    for statement in split(text)[0]:
        declared, applied = register(statement.text), call(statement.text)
        if declared and declared[0] == "qreg":
            for place in range(declared[2]):
                qubits[f"{declared[1]}[{place}]"] = len(qubits)
        elif applied and not declared:
            gates += _expanded(statement.text, [qubits[place] for place in applied.places])
    return gates


def _expanded(text: str, qubits: Sequence[int]) -> List[_Gate]:
    """The drawn gates of an application to these qubits."""
    applied = call(text)
    assert applied
    power = _POWER.match(text.strip())
    if power:
        return [_Gate("T" + power[1].translate(_RAISED), tuple(qubits))]
    if applied.name in _LABELS or applied.name in _ON_TWO:
        return [_Gate(_LABELS.get(applied.name, applied.name), tuple(qubits))]
    declared = header()[applied.name]
    places = dict(zip(declared.qubits, qubits))
    return [gate for inner in declared.body
            for gate in _expanded(f"{inner.name} {','.join(inner.places)};", [places[it] for it in inner.places])]


def _columns(gates: Sequence[_Gate]) -> List[int]:
    """The column of each gate: the first in which all wires that it crosses are free from there on."""
    free: Dict[int, int] = {}
    places = []
    for gate in gates:
        crossed = range(min(gate.qubits), max(gate.qubits) + 1)
        place = max(free.get(qubit, 0) for qubit in crossed)
        free.update({qubit: place + 1 for qubit in crossed})
        places.append(place)
    return places


def _wires(count: int, top: int, width: int) -> List[str]:
    """The wires of so many qubits."""
    heights = [top + qubit * _LINE + _BOX // 2 for qubit in range(count)]
    return [f'<line x1="4" y1="{height}" x2="{width - 4}" y2="{height}"/>' for height in heights]


def _drawn(gate: _Gate, place: int, top: int) -> str:
    """A gate at its column: a box with its label, or a line between two qubits."""
    x = _LEFT + place * _STEP + _STEP // 2
    heights = [top + qubit * _LINE + _BOX // 2 for qubit in gate.qubits]
    if len(gate.qubits) == 1:
        kind = ' class="t"' if gate.has_t else ""
        corner = f'x="{x - _BOX // 2}" y="{heights[0] - _BOX // 2}" width="{_BOX}" height="{_BOX}"'
        return f'<rect{kind} {corner} rx="3"/><text x="{x}" y="{heights[0]}">{gate.label}</text>'
    ends = [f'<circle class="dot" cx="{x}" cy="{height}" r="3"/>' for height in heights]
    if gate.label == "cx":
        ends[1] = (f'<circle class="ring" cx="{x}" cy="{heights[1]}" r="6"/>'
                   f'<line x1="{x}" y1="{heights[1] - 6}" x2="{x}" y2="{heights[1] + 6}"/>')  # fmt: skip
    return f'<line x1="{x}" y1="{heights[0]}" x2="{x}" y2="{heights[1]}"/>' + "".join(ends)
