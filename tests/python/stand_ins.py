"""Small stand-ins for what the package calls of Qiskit, PyZX and pytket, none of which is needed to run the tests.

They show which calls the package makes and what it does with the answers. They don't show that the real libraries answer
so: each is written by the public documents of its library, and has as much of it as these calls need.
"""
from __future__ import annotations

import re
import sys
import types
from typing import Any, Dict, Iterator, List, NamedTuple, Sequence, Tuple
from unittest import mock

HEAD = 'OPENQASM 2.0;\ninclude "qelib1.inc";\n'
_REGISTER = re.compile(r"(qreg|creg) (\w+)\[(\d+)\];")
_MEASURE = re.compile(r"measure (\S+) -> (\S+);")
_GATE = re.compile(r"(\w+(?:\(.*\))?) (\S+);")


class Operation(NamedTuple):
    """A gate with its angles, or `measure`, on qubits and bits."""

    name: str
    qubits: Tuple[Any, ...]
    bits: Tuple[Any, ...] = ()


class Read(NamedTuple):
    """What a text has: the sizes of its registers by kind and name, and its operations on places such as `q[0]`."""

    registers: List[Tuple[str, str, int]]
    operations: List[Operation]


def read(text: str) -> Read:
    """Reads what the program writes."""
    assert text.startswith(HEAD), text
    out = Read([], [])
    for line in text[len(HEAD) :].splitlines():
        register, measure, gate = (it.fullmatch(line) for it in (_REGISTER, _MEASURE, _GATE))
        if register:
            out.registers.append((register[1], register[2], int(register[3])))
        elif measure:
            out.operations.append(Operation("measure", (measure[1],), (measure[2],)))
        else:
            assert gate, line
            out.operations.append(Operation(gate[1], tuple(gate[2].split(","))))
    return out


def written(registers: Sequence[Tuple[str, str, int]], operations: Sequence[Operation], names: Dict[Any, str]) -> str:
    """The text of registers and operations, whose qubits and bits have these names."""
    lines = [f"{kind} {name}[{size}];" for kind, name, size in registers]
    for it in operations:
        qubits = ",".join(names[qubit] for qubit in it.qubits)
        lines.append(f"measure {qubits} -> {names[it.bits[0]]};" if it.bits else f"{it.name} {qubits};")
    return HEAD + "".join(f"{line}\n" for line in lines)


# -- Qiskit -----------------------------------------------------------------------------------------------------------


class Bit:
    """A qubit or a bit, known by itself alone."""


class Register:
    """A register of Qiskit: a name and its bits; some may be given that another one has."""

    def __init__(self, size: int, name: str, bits: Sequence[Bit] = ()) -> None:
        self.name = name
        self.bits = list(bits) or [Bit() for _ in range(size)]

    def __iter__(self) -> Iterator[Bit]:
        return iter(self.bits)

    def __len__(self) -> int:
        return len(self.bits)


class QuantumCircuit:
    """A circuit of Qiskit; `loose` are qubits of no register."""

    def __init__(self, qregs: Sequence[Register], cregs: Sequence[Register] = (), name: str = "", loose: int = 0) -> None:
        self.name = name
        self.metadata: Dict[str, str] = {}
        self.qregs, self.cregs = list(qregs), list(cregs)
        free = [Bit() for _ in range(loose)]
        self.qubits = [*free, *dict.fromkeys(bit for register in qregs for bit in register)]
        self.clbits = list(dict.fromkeys(bit for register in cregs for bit in register))
        self.operations: List[Operation] = []

    def copy_empty_like(self) -> "QuantumCircuit":
        made = type(self)(self.qregs, self.cregs, self.name)
        made.qubits, made.metadata = list(self.qubits), dict(self.metadata)
        return made

    def compose(self, other: "QuantumCircuit", qubits: Sequence[Bit], clbits: Sequence[Bit], inplace: bool) -> None:
        assert inplace and (len(qubits), len(clbits)) == (len(other.qubits), len(other.clbits))
        places = dict(zip([*other.qubits, *other.clbits], [*qubits, *clbits]))
        for it in other.operations:
            mapped = [tuple(places[bit] for bit in bits) for bits in (it.qubits, it.bits)]
            self.operations.append(Operation(it.name, *mapped))


class QASM2ExportError(Exception):
    """Qiskit can't write a circuit as OpenQASM 2."""


def dumps(circuit: QuantumCircuit) -> str:
    """Registers in their order, then a register of qubits that are in none, as Qiskit writes them."""
    if any(it.name == "pulse" for it in circuit.operations):
        raise QASM2ExportError("no pulses")
    names = {bit: f"{register.name}[{at}]" for register in [*circuit.qregs, *circuit.cregs] for at, bit in enumerate(register)}
    registers = [("qreg", register.name, len(register)) for register in circuit.qregs]
    loose = [bit for bit in circuit.qubits if bit not in names]
    if loose:
        registers.append(("qreg", "qregless_0", len(loose)))
        names.update((bit, f"qregless_0[{at}]") for at, bit in enumerate(loose))
    registers += [("creg", register.name, len(register)) for register in circuit.cregs]
    return written(registers, circuit.operations, names)


def loads(text: str) -> QuantumCircuit:
    found = read(text)
    registers = {kind: [Register(size, name) for its, name, size in found.registers if its == kind] for kind in ("qreg", "creg")}
    made = QuantumCircuit(registers["qreg"], registers["creg"])
    places = {f"{it.name}[{at}]": bit for those in registers.values() for it in those for at, bit in enumerate(it)}
    for one in found.operations:
        mapped = [tuple(places[place] for place in those) for those in (one.qubits, one.bits)]
        made.operations.append(Operation(one.name, *mapped))
    return made


class TransformationPass:
    """The base of passes; here a circuit is its own graph of gates."""

    def __call__(self, circuit: Any) -> Any:
        return self.run(circuit)  # type: ignore[attr-defined]


class PassManager:
    """Passes, one behind the other."""

    def __init__(self, passes: Sequence[Any]) -> None:
        self.passes = list(passes)

    def run(self, circuit: Any) -> Any:
        for one in self.passes:
            circuit = one(circuit)
        return circuit


class PassManagerStagePlugin:
    """The base of stages."""


class BasisTranslator(TransformationPass):
    """A pass that keeps what it was made with, and changes nothing."""

    def __init__(self, library: str, basis: Any, target: Any) -> None:
        self.made_with = (library, basis, target)

    def run(self, circuit: Any) -> Any:
        return circuit


# -- PyZX -------------------------------------------------------------------------------------------------------------


class PyzxCircuit:
    """A circuit of PyZX: one list of qubits, a name, gates."""

    def __init__(self, text: str, name: str = "") -> None:
        self.name = name
        self.text = text

    def to_qasm(self) -> str:
        return self.text

    @staticmethod
    def from_qasm(text: str) -> "PyzxCircuit":
        read(text)
        return PyzxCircuit(text)


class Graph:
    """A diagram of PyZX, which is no circuit."""


# -- pytket -----------------------------------------------------------------------------------------------------------


class Unit(NamedTuple):
    """A qubit or a bit of pytket: it is its name."""

    register: str
    index: int

    def __str__(self) -> str:
        return f"{self.register}[{self.index}]"


class Qubit(Unit):
    pass


class ClassicalBit(Unit):
    pass


class PytketCircuit:
    """A circuit of pytket, whose units are sorted by their names."""

    def __init__(self, qubits: Sequence[Qubit], bits: Sequence[ClassicalBit] = (), name: str = "") -> None:
        self.name = name
        self.qubits, self.bits = sorted(qubits), sorted(bits)
        self.operations: List[Operation] = []

    def rename_units(self, renamed: Dict[Unit, Unit]) -> None:
        self.qubits = sorted(renamed.get(it, it) for it in self.qubits)
        self.bits = sorted(renamed.get(it, it) for it in self.bits)
        self.operations = [
            Operation(one.name, *[tuple(renamed.get(it, it) for it in those) for those in (one.qubits, one.bits)])
            for one in self.operations
        ]


def circuit_to_qasm_str(circuit: PytketCircuit, maxwidth: int = 32) -> str:
    sizes: Dict[Tuple[str, str], int] = {}
    for kind, units in (("qreg", circuit.qubits), ("creg", circuit.bits)):
        for unit in units:
            sizes[kind, unit.register] = max(sizes.get((kind, unit.register), 0), unit.index + 1)
    registers = [(kind, name, size) for (kind, name), size in sizes.items()]
    return written(registers, circuit.operations, {it: str(it) for it in [*circuit.qubits, *circuit.bits]})


def circuit_from_qasm_str(text: str, maxwidth: int = 32) -> PytketCircuit:
    found = read(text)
    assert all(size <= maxwidth for kind, _, size in found.registers if kind == "creg")
    units = {kind: [(name, at) for its, name, size in found.registers if its == kind for at in range(size)] for kind in ("qreg", "creg")}
    made = PytketCircuit([Qubit(*it) for it in units["qreg"]], [ClassicalBit(*it) for it in units["creg"]])
    by_name: Dict[str, Unit] = {str(it): it for it in [*made.qubits, *made.bits]}
    for one in found.operations:
        mapped = [tuple(by_name[place] for place in those) for those in (one.qubits, one.bits)]
        made.operations.append(Operation(one.name, *mapped))
    return made


# -- modules ----------------------------------------------------------------------------------------------------------


def installed() -> Any:
    """While this holds, the stand-ins are imported in place of the three libraries."""
    parts = {
        "qiskit": {"QuantumCircuit": QuantumCircuit},
        "qiskit.circuit": {},
        "qiskit.circuit.equivalence_library": {"SessionEquivalenceLibrary": "the session's library"},
        "qiskit.qasm2": {"dumps": dumps, "loads": loads, "QASM2ExportError": QASM2ExportError},
        "qiskit.converters": {"dag_to_circuit": lambda it: it, "circuit_to_dag": lambda it: it},
        "qiskit.transpiler": {"PassManager": PassManager},
        "qiskit.transpiler.basepasses": {"TransformationPass": TransformationPass},
        "qiskit.transpiler.passes": {"BasisTranslator": BasisTranslator},
        "qiskit.transpiler.preset_passmanagers": {},
        "qiskit.transpiler.preset_passmanagers.plugin": {"PassManagerStagePlugin": PassManagerStagePlugin},
        "pyzx": {"Circuit": PyzxCircuit},
        "pytket": {"Circuit": PytketCircuit},
        "pytket.qasm": {"circuit_to_qasm_str": circuit_to_qasm_str, "circuit_from_qasm_str": circuit_from_qasm_str},
    }
    modules = {}
    for name, items in parts.items():
        modules[name] = types.ModuleType(name)
        vars(modules[name]).update(items)
    return mock.patch.dict(sys.modules, modules)


for _class, _module, _name in (
    (QuantumCircuit, "qiskit.circuit.quantumcircuit", "QuantumCircuit"),
    (PyzxCircuit, "pyzx.circuit", "Circuit"),
    (Graph, "pyzx.graph.graph_s", "GraphS"),
    (PytketCircuit, "pytket._tket.circuit", "Circuit"),
):
    _class.__module__, _class.__name__, _class.__qualname__ = _module, _name, _name
