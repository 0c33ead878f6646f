"""Other spellings of the gates that the program writes, for what reads them next.

Both functions take texts as the program writes them, one statement in a line, on one register `q` of qubits and one
register `c` of bits, and write such texts, with comments, measurements and registers as they were. They replace gates
by gates with the same linear map (`u1(3*pi/4)` by `s` and `t` up to a scalar at most), so nothing has to be checked
again, but this module stands outside of what is proved of the program; `zxopt.same` can compare both texts.
"""
from __future__ import annotations

import re
from typing import Callable, List, Optional

from .texts import Text, as_bytes

__all__ = ["by_cx", "only_t"]

# The statements for a gate by its name, its angle or None, and its qubits as they are written.
_Speller = Callable[[str, Optional[str], str], List[str]]

_HEAD = ["OPENQASM 2.0;", 'include "qelib1.inc";']
_GATE = re.compile(r"([a-z0-9]+)(?:\(([0-9*]*pi/[48])\))? (q\[[0-9]+\](?:,q\[[0-9]+\])?);")
_OTHER = re.compile(r"(?://.*|qreg q\[[0-9]+\];|creg c\[[0-9]+\];|measure q\[[0-9]+\] -> c\[[0-9]+\];|)")

_ON_ONE = {"h", "x", "z", "s", "sdg", "t", "tdg"}
_ON_TWO = {"cx", "cz"}

# Odd eighth turns without a name of their own, as two gates.
_EIGHTHS = {"3*pi/4": ("s", "t"), "5*pi/4": ("z", "t")}

# What the header declares: each gate's one built-in gate.
_BUILT_IN = {
    "h": "U(pi/2,0,pi)",
    "x": "U(pi,0,pi)",
    "z": "U(0,0,pi)",
    "s": "U(0,0,pi/2)",
    "sdg": "U(0,0,-pi/2)",
    "t": "U(0,0,pi/4)",
    "tdg": "U(0,0,-pi/4)",
}


def only_t(text: Text) -> str:
    """The text with its eighth turns written by `t`, `tdg`, `s`, `sdg` and `z` alone: `u1(3*pi/4)` as `s` and `t`,
    `u1(5*pi/4)` as `z` and `t`. Odd sixteenth turns, the roots of T, stay as they are.

    Each odd phase is still one T gate. Raises ValueError where a line isn't one that the program writes.
    """
    return _respelled(text, _by_t)


def by_cx(text: Text) -> str:
    """The text with its gates written by the built-in `U` and `CX`, as the header declares them.

    What reads a text counts calls of gates, up to a million of them: `cz` makes nine, `h`, `t` and the like three,
    `cx` two, but `U` and `CX` one. So texts of up to a million gates that were written can be read again, three for a
    `cz`, and compared by `same`. Raises ValueError where a line isn't one that the program writes.
    """
    return _respelled(text, _by_u)


def _by_t(name: str, angle: Optional[str], qubits: str) -> List[str]:
    if angle is None:
        return [f"{name} {qubits};"]
    return [f"{gate} {qubits};" for gate in _EIGHTHS.get(angle, (f"u1({angle})",))]


def _by_u(name: str, angle: Optional[str], qubits: str) -> List[str]:
    if angle is not None:
        return [f"U(0,0,{angle}) {qubits};"]
    if name == "cx":
        return [f"CX {qubits};"]
    if name == "cz":
        target = qubits.rpartition(",")[2]
        return [f"U(pi/2,0,pi) {target};", f"CX {qubits};", f"U(pi/2,0,pi) {target};"]
    return [f"{_BUILT_IN[name]} {qubits};"]


def _respelled(text: Text, spell: _Speller) -> str:
    """The text with each line of a gate spelled anew."""
    whole = text if isinstance(text, str) else as_bytes(text).decode("utf-8")
    lines = whole.split("\n")
    if lines[: len(_HEAD)] != _HEAD:
        raise ValueError("the text isn't one that zxopt writes: it has another head")
    written = list(_HEAD)
    for number, line in enumerate(lines[len(_HEAD) :], len(_HEAD) + 1):
        found = _GATE.fullmatch(line)
        if found and _is_written(*found.groups()):
            written += spell(*found.groups())
        elif _OTHER.fullmatch(line):
            written.append(line)
        else:
            raise ValueError(f"line {number} isn't one that zxopt writes: {line[:60]}")
    return "\n".join(written)


def _is_written(name: str, angle: Optional[str], qubits: str) -> bool:
    """Whether the program writes gates of this name, with an angle or without, on as many qubits."""
    if angle is not None or name == "u1":
        return angle is not None and name == "u1" and "," not in qubits
    return name in (_ON_TWO if "," in qubits else _ON_ONE)
