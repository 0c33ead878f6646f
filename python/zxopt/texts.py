"""What the package takes for a circuit: a text, a file's path, or a circuit of a library that can write OpenQASM 2."""
from __future__ import annotations

import importlib
import os
from pathlib import Path
from typing import Any, List, Optional, Protocol, TypeVar, Union, cast

__all__ = ["AnyCircuit", "Circuit", "Text", "answer", "as_bytes"]

# A text: characters, which are handed on as UTF-8, bytes, which are handed on as they are, or the path of a file.
Text = Union[str, bytes, bytearray, memoryview, "os.PathLike[str]"]

# How close to a multiple of pi/8 angles of objects are taken for it, in radians: libraries keep rounded numbers.
WITHIN = 1e-9

# The modules of this package for other libraries, by these libraries' names, and the names of the circuits' classes.
_CLASSES = {"qiskit": "QuantumCircuit", "pyzx": "Circuit", "pytket": "Circuit"}


class _Named(Protocol):
    """What circuits of the three libraries have in common."""

    name: Any


class Library(Protocol):
    """A module of this package for another library."""

    def to_text(self, circuit: Any) -> str:
        """The circuit as OpenQASM 2, written by the library."""

    def from_text(self, text: str, like: Any) -> Any:
        """The circuit of a text that the program wrote for `like`, with the registers, names and bits of that one."""


# A circuit of Qiskit, PyZX or pytket.
AnyCircuit = TypeVar("AnyCircuit", bound=_Named)
Circuit = Union[Text, _Named]


def as_bytes(circuit: Circuit) -> bytes:
    """The text of a circuit as bytes, characters as UTF-8; a file is read.

    An object of another library is written by that library, and its text put into the program's form by
    `zxopt.prepare`, angles within 1e-9 of a multiple of pi/8 taken for it. Raises TypeError for all else, and OSError
    where a file can't be read.
    """
    if isinstance(circuit, str):
        return circuit.encode("utf-8")
    if isinstance(circuit, (bytes, bytearray, memoryview)):
        return bytes(circuit)
    if isinstance(circuit, os.PathLike):
        return Path(circuit).read_bytes()
    library = _library(circuit)
    if library is None:
        raise TypeError(_told(circuit))
    from .prepare import prepare

    return prepare(library.to_text(circuit), within=WITHIN).text.encode("utf-8")


def answer(written: str, circuit: Union[Text, AnyCircuit]) -> Union[str, AnyCircuit]:
    """What the program wrote for a circuit as one of its kind; of a text, bytes or a path as a text."""
    library = _library(circuit)
    if library is None:
        return written
    from .spelling import only_t

    return cast(AnyCircuit, library.from_text(only_t(written), circuit))


def registers(text: str, kind: str) -> List[str]:
    """The places of all registers of a kind, `qreg` or `creg`, in the order of a text, such as `q[0]`."""
    from .qasm import register, split

    found = [register(it.text) for it in split(text)[0] if it.text.startswith(kind)]
    return [f"{one[1]}[{at}]" for one in found if one for at in range(one[2])]


def _library(circuit: object) -> Optional[Library]:
    """The module for a circuit's library, or none where it is no circuit of one."""
    for base in type(circuit).__mro__:
        root = base.__module__.partition(".")[0]
        if _CLASSES.get(root) == base.__name__:
            return cast(Library, importlib.import_module(f"zxopt.{root}"))
    return None


def _told(circuit: object) -> str:
    """Why something isn't taken."""
    kind = type(circuit)
    name = kind.__name__ if kind.__module__ == "builtins" else f"{kind.__module__}.{kind.__qualname__}"
    said = f"a circuit is a text (str, bytes), a path, or a circuit of Qiskit, PyZX or pytket, and not {name}"
    if hasattr(circuit, "read"):
        return f"{said}: give what its read() answers"
    if kind.__module__.partition(".")[0] == "pyzx":
        return f"{said}: extract a circuit first, by pyzx.extract_circuit"
    return said
