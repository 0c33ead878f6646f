"""The circuits by their names, and the sets that are generated together."""
from __future__ import annotations

import re
from functools import partial
from typing import Callable, Dict, Iterator, List

from .circuit import Circuit
from .drawn import Kind, mixed, random_circuit
from .families import aqft, barenco_tof, gf2_mult, mod5_4, rc_adder, tof, vbe_adder

__all__ = ["IN_TABLES", "PUBLISHED_T", "SETS", "multipliers", "named"]

# The T-counts of Kissinger and van de Wetering, "Reducing the number of non-Clifford gates in quantum circuits"
# (Physical Review A 102, 022406, 2020). That of vbe_adder_3 is of a text that we don't have.
PUBLISHED_T = {
    "tof_3": 15, "tof_4": 23, "tof_5": 31, "tof_10": 71,
    "barenco_tof_3": 16, "barenco_tof_4": 28, "barenco_tof_5": 40, "barenco_tof_10": 100,
    "mod5_4": 8, "vbe_adder_3": 20, "rc_adder_6": 47,
    "gf2_4_mult": 68, "gf2_5_mult": 115, "gf2_6_mult": 150, "gf2_7_mult": 217, "gf2_8_mult": 264,
}  # fmt: skip


def published() -> Iterator[Circuit]:
    """The sixteen circuits with a published T-count."""
    for controls in (3, 4, 5, 10):
        yield tof(controls)
    for controls in (3, 4, 5, 10):
        yield barenco_tof(controls)
    yield mod5_4()
    yield vbe_adder(3)
    yield rc_adder(6)
    for degree in (4, 5, 6, 7, 8):
        yield gf2_mult(degree)


def larger() -> Iterator[Circuit]:
    """Larger multipliers and adders, and Fourier transforms."""
    for degree in (9, 10, 16):
        yield gf2_mult(degree)
    for bits in (5, 8, 16, 32, 64):
        yield vbe_adder(bits)
    for bits in (5, 8, 16, 32, 64):
        yield rc_adder(bits)
    for qubits in (3, 8, 16, 64):
        yield aqft(qubits)


def drawn() -> Iterator[Circuit]:
    """Random circuits of all kinds."""
    for kind, qubits, gates in (
        (Kind.RANDOM, 20, 1_000),
        (Kind.RANDOM, 20, 10_000),
        (Kind.RANDOM, 50, 1_000),
        (Kind.RANDOM, 50, 10_000),
        (Kind.RANDOM, 50, 100_000),
        (Kind.RANDOM, 1_000, 20_000),
        (Kind.LOCAL, 50, 10_000),
        (Kind.LOCAL, 50, 100_000),
        (Kind.ONE_T_IN_FIFTY, 50, 10_000),
        (Kind.ONE_T_IN_FIFTY, 50, 100_000),
        (Kind.CLIFFORD, 50, 10_000),
        (Kind.CLIFFORD, 50, 100_000),
        (Kind.CX, 50, 10_000),
        (Kind.CX_AND_T, 12, 300),
        (Kind.CX_AND_T, 64, 10_000),
    ):
        yield random_circuit(kind, qubits, gates)


def small() -> Iterator[Circuit]:
    """Sixty circuits of ccx, cx and t on 4 to 9 qubits, of 12 to 48 gates."""
    for qubits in range(4, 10):
        for gates in range(12, 49, 4):
            yield mixed(qubits, gates)


def multipliers(order: int) -> Iterator[Circuit]:
    """The multipliers, with their Toffoli gates in an order that is drawn by a seed."""
    for degree in (4, 5, 6, 7, 8, 9, 10, 16):
        yield gf2_mult(degree, order)


SETS: Dict[str, Callable[[], Iterator[Circuit]]] = {
    "published": published,
    "larger": larger,
    "drawn": drawn,
    "small": small,
}

# The sets whose circuits stand in the tables.
IN_TABLES = ("published", "larger", "drawn")

# The families, by the names of their circuits. The numbers in a name are the arguments.
_FAMILIES: Dict[str, Callable[..., Circuit]] = {
    r"tof_(\d+)": tof,
    r"barenco_tof_(\d+)": barenco_tof,
    r"mod5_4": mod5_4,
    r"vbe_adder_(\d+)": vbe_adder,
    r"rc_adder_(\d+)": rc_adder,
    r"gf2_(\d+)_mult(?:_order_(\d+))?": gf2_mult,
    r"aqft_(\d+)": aqft,
    r"mixed_(\d+)_(\d+)": mixed,
    **{rf"{kind.value}_(\d+)_(\d+)": partial(random_circuit, kind) for kind in Kind},
}


def named(name: str) -> List[Circuit]:
    """The circuits of the set of this name, or the one circuit of this name, which need be in no set. ValueError where
    there is none."""
    if name in SETS:
        return list(SETS[name]())
    for pattern, family in _FAMILIES.items():
        found = re.fullmatch(pattern, name)
        if found:
            return [family(*(int(it) for it in found.groups() if it is not None))]
    raise ValueError(f"{name} is no circuit, and none of the sets {', '.join(SETS)}")
