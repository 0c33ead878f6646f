"""Draws the texts on which tests/plain compares two programs: circuits, graphs with flows, diagrams, and damaged ones."""
from __future__ import annotations

import random
from typing import NamedTuple

PARTING_LINE = "//// second\n"

_SINGLE = "id x y z h s sdg t tdg".split()
_TURNS = "u1 p rz rx ry".split()
_DOUBLE = "cx cz cy swap ch".split()
_TRIPLE = "ccx cswap".split()
_ANGLES = "pi/2 -pi/4 3*pi/4 pi 0 (1+2)*pi/8 pi/8+3*pi/8 -(pi/2) 2*pi 0.5*pi pi*0.25 -5*pi/8".split()
_LETTERS = b"; ,()[]{}->+-*/^\"'\\0123456789.eqcxhtpigates_\n\t\r\x00\x80\xff~!"


class Gate(NamedTuple):
    """A gate that a text declares."""

    name: str
    angles: int
    qubits: int


class Draw(random.Random):
    """A source of texts: those of a seed are always the same."""

    def circuit(self, most: int = 120) -> str:
        """A text of OpenQASM of at most so many statements, with gates of its own and measurements in some."""
        registers = {f"q{i}": self.randrange(1, 5) for i in range(self.randrange(1, 4))}
        qubits = [f"{name}[{i}]" for name, size in registers.items() for i in range(size)]
        lines = ["OPENQASM 2.0;", 'include "qelib1.inc";']
        lines += [f"qreg {name}[{size}];" for name, size in registers.items()]
        gates: list[Gate] = []
        for number in range(self.randrange(4)):
            lines.append(self._declaration(number, gates))
        lines += [self._statement(list(registers), qubits, gates) for _ in range(self.randrange(most + 1))]
        if self.random() < 0.4:
            lines.append(f"creg c[{len(qubits)}];")
            measured = self.sample(qubits, self.randrange(1, len(qubits) + 1))
            lines += [f"measure {qubit} -> c[{bit}];" for bit, qubit in enumerate(measured)]
        return "\n".join(lines) + "\n"

    def pair(self, other: str) -> str:
        """A drawn circuit and another one, for `same`."""
        return self.circuit() + PARTING_LINE + other

    def graph(self) -> str:
        """The file of wires in layers, joined by edges between wires, with a flow. Of some one correction is wrong."""
        wires, layers = self.randrange(1, 5), self.randrange(1, 6)
        edges = {(v, v + wires) for v in range(wires * (layers - 1))}
        for one in range(wires * layers):
            for other in range(one + 1, (one // wires + 1) * wires):
                if self.random() < 0.3:
                    edges.add((one, other))
        inner = wires * (layers - 1)
        corrected = [v + wires for v in range(inner)]
        if inner and self.random() < 0.3:
            corrected[self.randrange(inner)] = self.randrange(wires * layers)
        lines = ["zxg 2"]
        lines += [f"vertex {v} XY {self.choice([0, 4, 8, 12, 2, 1, 5])}" for v in range(wires * layers)]
        lines += [f"edge {one} {other}" for one, other in sorted(edges)]
        lines += [f"input {v} {self._mark()}" for v in range(wires)]
        lines += [f"output {inner + v} {self._mark()}" for v in range(wires)]
        lines += ["flow", " ".join(["order", *map(str, range(inner))])]
        lines += [f"correct {v} {w}" for v, w in enumerate(corrected)]
        return "\n".join([*lines, "end"]) + "\n"

    def diagram(self) -> str:
        """The file of a diagram of spiders: mostly wires with spiders between them, so that some have flows."""
        wires, layers = self.randrange(1, 4), self.randrange(1, 5)
        edges = [(v, v + wires, self._mark()) for v in range(wires * (layers - 1))]
        for _ in range(self.randrange(4)):
            edges.append((*sorted(self.randrange(wires * layers) for _ in range(2)), self._mark()))
        lines = ["zxd 2"]
        lines += [f"spider {v} {self.choice('ZX')} {self.randrange(16)}" for v in range(wires * layers)]
        lines += [f"edge {a} {b} {mark}" for a, b, mark in sorted(edges, key=lambda edge: (*edge[:2], edge[2] == "had"))]
        lines += [f"input {v} {self._mark()}" for v in range(wires)]
        outputs = wires - (self.random() < 0.1)
        lines += [f"output {wires * (layers - 1) + v} {self._mark()}" for v in range(outputs)]
        return "\n".join([*lines, "end"]) + "\n"

    def damaged(self, text: bytes) -> bytes:
        """The text with some bytes taken out, put in, replaced or repeated."""
        damaged = bytearray(text)
        for _ in range(self.choice([1, 1, 1, 2, 5])):
            at = self.randrange(len(damaged) + 1)
            kind = self.randrange(5)
            if kind == 0:
                damaged[at : at + 1] = b""
            elif kind == 1:
                damaged[at : at + 1] = self._letter()
            elif kind == 2:
                damaged[at:at] = self._letter()
            elif kind == 3:
                del damaged[at : at + self.randrange(30)]
            else:
                start = self.randrange(len(damaged) + 1)
                damaged[at:at] = damaged[start : start + self.randrange(40)]
        return bytes(damaged)

    def _letter(self) -> bytes:
        return bytes([self.choice(_LETTERS)])

    def _mark(self) -> str:
        return self.choice(["plain", "had"])

    def _statement(self, registers: list[str], qubits: list[str], gates: list[Gate]) -> str:
        drawn = self.sample(qubits, min(3, len(qubits)))
        gate = self.choice(gates) if gates and self.random() < 0.1 else None
        if gate and gate.qubits <= len(drawn):
            angles = f"({','.join(self.choices(_ANGLES, k=gate.angles))})" if gate.angles else ""
            return f"{gate.name}{angles} {','.join(drawn[: gate.qubits])};"
        kind = self.choices(["single", "turn", "u3", "controlled", "barrier", "register", "double", "triple"],
                            [45, 15, 2, 2, 2, 2, 25, 7])[0]
        if kind == "register":
            return f"{self.choice(['h', 't', 'x'])} {self.choice(registers)};"
        if kind == "single" or len(drawn) < 2:
            return f"{self.choice(_SINGLE)} {drawn[0]};"
        if kind == "turn":
            return f"{self.choice(_TURNS)}({self.choice(_ANGLES)}) {drawn[0]};"
        if kind == "u3":
            return f"u3({','.join(self.choices(_ANGLES, k=3))}) {drawn[0]};"
        if kind == "controlled":
            return f"{self.choice(['rzz', 'cu1'])}({self.choice(_ANGLES)}) {drawn[0]},{drawn[1]};"
        if kind == "barrier":
            return f"barrier {drawn[0]},{drawn[1]};"
        if kind == "triple" and len(drawn) == 3:
            return f"{self.choice(_TRIPLE)} {','.join(drawn)};"
        return f"{self.choice(_DOUBLE)} {drawn[0]},{drawn[1]};"

    def _declaration(self, number: int, gates: list[Gate]) -> str:
        """The declaration of a gate, whose body may call those declared before; it joins them."""
        gate = Gate(f"g{number}", self.randrange(3), self.randrange(1, 4))
        angles, qubits = [f"a{i}" for i in range(gate.angles)], [f"x{i}" for i in range(gate.qubits)]
        body = []
        for _ in range(self.randrange(6)):
            drawn = self.sample(qubits, len(qubits))
            called = self.choice(gates) if gates and self.random() < 0.2 else None
            if called and called.qubits <= gate.qubits:
                values = f"({','.join(self.choice(angles + ['pi/4']) for _ in range(called.angles))})"
                body.append(f"{called.name}{values if called.angles else ''} {','.join(drawn[: called.qubits])};")
            elif gate.qubits > 1 and self.random() < 0.4:
                body.append(f"cx {drawn[0]},{drawn[1]};")
            elif angles and self.random() < 0.5:
                body.append(f"u1({self.choice(angles)}{self.choice(['', '/1', '*2', '+pi/4', '-pi'])}) {drawn[0]};")
            else:
                body.append(f"{self.choice(_SINGLE)} {drawn[0]};")
        gates.append(gate)
        formals = f"({','.join(angles)})" if angles else ""
        return f"gate {gate.name}{formals} {','.join(qubits)} {{ {' '.join(body)} }}"
