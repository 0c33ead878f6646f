"""Circuits of PyZX: what `zxopt.optimise` and the like do with them.

    better = zxopt.optimise(circuit)            # of a pyzx.Circuit, and a pyzx.Circuit

PyZX is imported when it is needed first. This stands outside of the proved program. It was written for PyZX 0.8 or
later, and is tested by stand-ins for the calls that it makes: `Circuit.to_qasm` and `Circuit.from_qasm`.
"""
from __future__ import annotations

import importlib
from typing import Any

__all__ = ["from_text", "to_text"]


def to_text(circuit: Any) -> str:
    """The circuit as OpenQASM 2, as PyZX writes it."""
    return str(circuit.to_qasm())


def from_text(text: str, like: Any) -> Any:
    """The circuit of a text that the program wrote, with the name of another one."""
    made = importlib.import_module("pyzx").Circuit.from_qasm(text)
    made.name = like.name
    return made
