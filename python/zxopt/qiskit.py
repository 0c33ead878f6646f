"""Circuits of Qiskit, and zxopt as a pass and as a stage of its transpiler.

    better = zxopt.optimise(circuit)                                # of a QuantumCircuit, and a QuantumCircuit
    better = PassManager([zxopt.qiskit.ZxOpt()]).run(circuit)
    better = transpile(circuit, backend, optimization_method="zxopt")

Qiskit is imported when it is needed first; `ZxOpt` and `ZxOptPlugin` are made when they are first asked for. The map of
a circuit stays the same up to a scalar, so up to its global phase: don't put the result under a control.

This stands outside of the proved program. It was written for Qiskit 1.0 or later, and is tested by stand-ins for the
calls that it makes.
"""
from __future__ import annotations

import importlib
import logging
import sys
from typing import Any, Callable, Dict, List, Optional

from .commands import optimise, teleport
from .faults import Refused

__all__ = ["ZxOpt", "ZxOptPlugin", "from_text", "to_text"]

_LOG = logging.getLogger(__name__)


def to_text(circuit: Any) -> str:
    """The circuit as OpenQASM 2, as Qiskit writes it.

    Raises Qiskit's QASM2ExportError where it can't be written so, and ValueError where registers share qubits or bits,
    since the text would have more of them than the circuit.
    """
    _units(circuit.qregs, circuit.qubits)
    _units(circuit.cregs, circuit.clbits)
    return str(importlib.import_module("qiskit.qasm2").dumps(circuit))


def from_text(text: str, like: Any) -> Any:
    """The circuit of a text that the program wrote for another one, with the name, registers and bits of that one."""
    made = like.copy_empty_like()
    inner = importlib.import_module("qiskit.qasm2").loads(text)
    made.compose(inner, _units(like.qregs, like.qubits), _units(like.cregs, like.clbits), inplace=True)
    return made


def _units(registers: Any, units: Any) -> List[Any]:
    """Qubits or bits in the order in which Qiskit declares them in a text: register by register, then those of none."""
    out = [unit for register in registers for unit in register]
    placed = set(out)
    out += [unit for unit in units if unit not in placed]
    if len(out) > len(units):
        raise ValueError("registers of the circuit share qubits or bits, which OpenQASM 2 has no words for")
    return out


def __getattr__(name: str) -> Any:
    """`ZxOpt` and `ZxOptPlugin`, made when they are first asked for. Raises ImportError where Qiskit is missing."""
    make = _MAKERS.get(name)
    if make is None:
        raise AttributeError(f"module {__name__!r} has no attribute {name!r}")
    made = make()
    made.__module__, made.__qualname__ = __name__, name
    globals()[name] = made
    return made


def _make_pass() -> Any:
    base: Any = importlib.import_module("qiskit.transpiler.basepasses").TransformationPass

    class ZxOpt(base):  # type: ignore[misc]
        """Lowers the number of T gates of a circuit of Clifford gates and phases of whole multiples of pi/8, with
        measurements at its ends.

        The map stays the same up to a scalar. Angles within 1e-9 radians of a multiple of pi/8 are taken for it. A
        circuit that isn't of that kind, or takes too long, stays as it is. Barriers are left out.
        """

        def __init__(self, best: bool = True, timeout: Optional[float] = None, phases_alone: bool = False) -> None:
            """best: takes the best of several circuits, which takes longer. timeout: in seconds for each circuit.
            phases_alone: `teleport`, which leaves all gates but phases as they are, those on two qubits above all."""
            super().__init__()
            self.best = best
            self.timeout = timeout
            self.phases_alone = phases_alone

        def run(self, dag: Any) -> Any:
            """The optimised circuit, or the same where that can't be done."""
            converters = importlib.import_module("qiskit.converters")
            circuit = converters.dag_to_circuit(dag)
            better = optimised(circuit, self.best, self.timeout, self.phases_alone)
            return dag if better is None else converters.circuit_to_dag(better)

    return ZxOpt


def optimised(circuit: Any, best: bool, timeout: Optional[float], phases_alone: bool) -> Any:
    """The optimised circuit, or none where it isn't of the kind that the program reads, or takes too long."""
    export_error = importlib.import_module("qiskit.qasm2").QASM2ExportError
    try:
        if phases_alone:
            return teleport(circuit, timeout=timeout)
        return optimise(circuit, best, timeout=timeout)
    except (export_error, ValueError, TimeoutError) as why:
        told = why.sentence if isinstance(why, Refused) else why
        _LOG.info("%s stays as it is: %s", circuit.name, told)
        return None


def _make_plugin() -> Any:
    plugin = importlib.import_module("qiskit.transpiler.preset_passmanagers.plugin")
    base: Any = plugin.PassManagerStagePlugin

    class ZxOptPlugin(base):  # type: ignore[misc]
        """The stage `optimization` of Qiskit's transpiler by `ZxOpt`, with gates translated to the target's basis.

        For a target with a coupling map phases alone are changed, so that gates on two qubits stay where they are.
        """

        def pass_manager(self, pass_manager_config: Any, optimization_level: Optional[int] = None) -> Any:
            """The passes for a target; none at level 0."""
            transpiler = importlib.import_module("qiskit.transpiler")
            if optimization_level == 0:
                return transpiler.PassManager([])
            make: Any = getattr(sys.modules[__name__], "ZxOpt")
            is_coupled = _is_coupled(pass_manager_config)
            return transpiler.PassManager([make(phases_alone=is_coupled), *_translation(pass_manager_config)])

    return ZxOptPlugin


def _is_coupled(config: Any) -> bool:
    """Whether gates on two qubits may stand on some pairs of qubits alone."""
    if config.coupling_map is not None:
        return True
    return config.target is not None and config.target.build_coupling_map() is not None


def _translation(config: Any) -> List[Any]:
    """The pass that writes gates by those of a target, where it names some."""
    if config.target is None and config.basis_gates is None:
        return []
    library = importlib.import_module("qiskit.circuit.equivalence_library").SessionEquivalenceLibrary
    translator = importlib.import_module("qiskit.transpiler.passes").BasisTranslator
    return [translator(library, config.basis_gates, config.target)]


_MAKERS: Dict[str, Callable[[], Any]] = {"ZxOpt": _make_pass, "ZxOptPlugin": _make_plugin}
