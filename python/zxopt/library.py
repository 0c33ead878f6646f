"""The declarations of `library.qasm`: gates of the headers of Qiskit and other tools that the program's lacks."""
from __future__ import annotations

from functools import lru_cache
from typing import NamedTuple

from .data import read_data
from .qasm import HEADER, declaration, split, squeezed


class LibraryGate(NamedTuple):
    """A gate of the library: its declaration in one line, and the gates of the library that it is made of."""

    text: str
    needs: tuple[str, ...]


@lru_cache(maxsize=1)
def library() -> dict[str, LibraryGate]:
    """The library's gates by their names, in an order in which each stands behind those that it is made of."""
    text = read_data("library.qasm")
    out: dict[str, LibraryGate] = {}
    for statement in split(text)[0]:
        one = declaration(statement.text)
        if one and statement.head() == "gate":
            needs = {it.name for it in one.body} - HEADER - {"U", "CX"}
            out[one.name] = LibraryGate(squeezed(statement.text), tuple(sorted(needs)))
    return out


def with_needs(names: set[str]) -> list[str]:
    """Gates of the library and those that they are made of, in the order of the library."""
    gates, wanted, left = library(), set(), list(names)
    while left:
        name = left.pop()
        if name not in wanted:
            wanted.add(name)
            left.extend(gates[name].needs)
    return [name for name in gates if name in wanted]
