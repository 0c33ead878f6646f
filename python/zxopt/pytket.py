"""Circuits of pytket: what `zxopt.optimise` and the like do with them.

    better = zxopt.optimise(circuit)            # of a pytket.Circuit, and a pytket.Circuit

The qubits and bits keep their names. pytket is imported when it is needed first. This stands outside of the proved
program. It was written for pytket 1.20 or later, and is tested by stand-ins for the calls that it makes:
`circuit_to_qasm_str` and `circuit_from_qasm_str` of `pytket.qasm`, and `Circuit.rename_units`.
"""
from __future__ import annotations

import importlib
from typing import Any, Dict, Iterable, List

from .texts import registers

__all__ = ["from_text", "to_text"]


def to_text(circuit: Any) -> str:
    """The circuit as OpenQASM 2, as pytket writes it."""
    return str(importlib.import_module("pytket.qasm").circuit_to_qasm_str(circuit, **_width(circuit)))


def from_text(text: str, like: Any) -> Any:
    """The circuit of a text that the program wrote for another one, with the name, qubits and bits of that one."""
    made = importlib.import_module("pytket.qasm").circuit_from_qasm_str(text, **_width(like))
    said = to_text(like)
    made.rename_units(
        {
            **_renamed(made.qubits, registers(text, "qreg"), like.qubits, registers(said, "qreg")),
            **_renamed(made.bits, registers(text, "creg"), like.bits, registers(said, "creg")),
        }
    )
    made.name = like.name
    return made


def _width(circuit: Any) -> Dict[str, int]:
    """The greatest width of a register of bits, where it is above pytket's own limit: the program writes one for all."""
    return {"maxwidth": len(circuit.bits)} if len(circuit.bits) > 32 else {}


def _renamed(new: Iterable[Any], new_places: List[str], old: Iterable[Any], old_places: List[str]) -> Dict[Any, Any]:
    """Units of a circuit by the units that stand at the same place in another one's text."""
    by_name, old_by_name = {str(unit): unit for unit in new}, {str(unit): unit for unit in old}
    return {by_name[place]: old_by_name[other] for place, other in zip(new_places, old_places)}
