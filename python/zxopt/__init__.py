"""zxopt: lowers the number of T gates in circuits of Clifford gates and phases of whole multiples of pi/8, written in
OpenQASM 2.0.

    import zxopt
    better = zxopt.optimise(circuit)            # a text, a path, or a circuit of Qiskit, PyZX or pytket
    assert zxopt.same(circuit, better)          # a yes is always right
    zxopt.measures(better).t_depth              # counts of a circuit as it is written

This package stands outside of the proved program `zxopt`, and runs it, or calls its library where it can. What is
proved is about the text that either reads and the text that it writes; what this package does before and behind that
is tested, and not proved. The program is $ZXOPT, or that of the clone in which this package lies, or the one that came
with its wheel, or `zxopt` on the path; `version()` tells which, and which library is called.

The functions are safe from several threads. `python3 -m zxopt` has the same and more as commands. These modules stand
beside, and are imported when they are asked for: `zxopt.prepare` makes texts of the usual tools such that the program
reads them; `zxopt.parts` optimises what can be of texts that the program refuses for a statement; `zxopt.stream`
does so for texts of any size; `zxopt.batch` optimises many files on all processors; `zxopt.spelling` writes gates in
other words; `zxopt.qiskit` has a pass and a stage for Qiskit's transpiler.
"""
from __future__ import annotations

import importlib
from typing import TYPE_CHECKING, Any

from .commands import (
    Comparison,
    Counts,
    FlowCheck,
    FlowFails,
    GateCounts,
    Optimised,
    Scalar,
    compile,
    compile_diagram,
    counts,
    flow,
    graph,
    optimise,
    optimise_counted,
    optimize,
    reduce,
    same,
    teleport,
)
from .faults import FAULTS, Fault, NoFlow, Refused
from .identity import Version, version
from .program import find_program, run
from .release import VERSION

if TYPE_CHECKING:
    from . import batch, counting, parts, prepare, pytket, pyzx, qiskit, spelling, stream
    from .counting import Measures, measures

__version__ = VERSION

__all__ = [
    "Comparison",
    "Counts",
    "FAULTS",
    "Fault",
    "FlowCheck",
    "FlowFails",
    "GateCounts",
    "Measures",
    "NoFlow",
    "Optimised",
    "Refused",
    "Scalar",
    "Version",
    "batch",
    "compile",
    "compile_diagram",
    "counting",
    "counts",
    "find_program",
    "flow",
    "graph",
    "measures",
    "optimise",
    "optimise_counted",
    "optimize",
    "parts",
    "prepare",
    "pytket",
    "pyzx",
    "qiskit",
    "reduce",
    "run",
    "same",
    "spelling",
    "stream",
    "teleport",
    "version",
]

_MODULES = frozenset(("batch", "counting", "parts", "prepare", "pytket", "pyzx", "qiskit", "spelling", "stream"))
_COUNTING = frozenset(("Measures", "measures"))


def __getattr__(name: str) -> Any:
    """The modules that stand beside, and what `counting` has, imported when they are asked for."""
    if name in _MODULES:
        return importlib.import_module(f"{__name__}.{name}")
    if name in _COUNTING:
        return getattr(importlib.import_module(f"{__name__}.counting"), name)
    raise AttributeError(f"module {__name__!r} has no attribute {name!r}")
