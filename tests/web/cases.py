"""Texts for each call of the module, drawn and from `examples`, with what the program answers for them.

The program is asked for its output, its status and its fault; the Python package for the counts of circuits.
"""
from __future__ import annotations

import base64
import re
import subprocess
import sys
from concurrent.futures import ThreadPoolExecutor
from pathlib import Path
from typing import Dict, Iterator, List, NamedTuple, Optional, Sequence, Tuple

TOP = Path(__file__).resolve().parents[2]
sys.path[:0] = [str(TOP), str(TOP / "python")]

from benchmarks.draws import Draws  # noqa: E402
from zxopt.counting import measures  # noqa: E402

__all__ = ["Case", "all_cases", "answered"]

SECOND = b"\n//// second\n"
_FAULT = re.compile(r"zxopt: fault (\d+) \w+(?: at (\d+))?")
# The gates of the header by their numbers of qubits and angles.
_GATES = {
    (1, 0): "id x y z h s sdg t tdg sx sxdg",
    (1, 1): "u1 p rx ry rz",
    (1, 2): "u2",
    (1, 3): "u3 u U",
    (2, 0): "cx cy cz ch swap CX",
    (2, 1): "crz cu1 cp crx cry rzz",
    (3, 0): "ccx cswap ccz",
}
_FLAGS: Sequence[Tuple[str, ...]] = ((), ("best",), ("report", "scalar"), ("best", "report", "scalar"))


class Case(NamedTuple):
    """A text for a call, with its flags."""

    call: str
    flags: Tuple[str, ...]
    text: bytes

    def words(self) -> List[str]:
        """The program's words for it."""
        return ["opt" if self.call == "optimise" else self.call, *(f"--{flag}" for flag in self.flags)]


def all_cases(draws_of_each: int) -> Iterator[Case]:
    """Each example in each call, and so many drawn texts in each."""
    files = sorted((TOP / "examples").glob("*.qasm")) + sorted((TOP / "examples").glob("*.zx?"))
    examples = [file.read_bytes() for file in files]
    for text in examples:
        yield from (Case("optimise", flags, text) for flags in _FLAGS)
        yield from (Case(call, (), text) for call in ("teleport", "compile", "graph", "reduce", "flow"))
        yield Case("same", (), text + SECOND + text)
        yield Case("same", (), text)
    for seed in range(draws_of_each):
        draws = Draws(f"web {seed}")
        circuit = _damaged(draws, _circuit(draws))
        yield Case("optimise", _FLAGS[seed % len(_FLAGS)], circuit)
        yield Case("teleport", (), circuit)
        yield Case("same", (), circuit + SECOND + (circuit if draws.chance(0.5) else _circuit(draws)))
        diagram, graph = _damaged(draws, _diagram(draws)), _damaged(draws, _graph(draws))
        yield from (Case(call, (), diagram) for call in ("compile", "graph"))
        yield from (Case(call, (), graph) for call in ("reduce", "flow"))


# -- drawn texts ------------------------------------------------------------------------------------------------------


def _circuit(draws: Draws) -> bytes:
    """A circuit of up to four qubits in two registers, of gates of the header and one of its own, maybe measured."""
    size = 1 + draws.below(3)
    places = [f"a[{at}]" for at in range(size)] + ["b[0]"]
    lines = ["OPENQASM 2.0;", 'include "qelib1.inc";', f"qreg a[{size}];", "qreg b[1];", "creg c[4];"]
    lines.append("gate own(x) q,r { cx q,r; u1(x/2+x/2) r; barrier q,r; h q; }  // it's declared here")
    kinds = [kind for kind in _GATES if kind[0] <= len(places)]
    for _ in range(2 + draws.below(12)):
        qubits, angles = draws.one_of(kinds)
        names = _GATES[qubits, angles].split() + (["own"] if (qubits, angles) == (2, 1) else [])
        chosen = [places[at] for at in draws.distinct(len(places), qubits)]
        whole = ["a" if qubits == 1 and draws.chance(0.2) else place for place in chosen]
        spelled = f"({','.join(_angle(draws) for _ in range(angles))})" if angles else ""
        lines.append(f"{draws.one_of(names)}{spelled} {', '.join(whole)};")
    if draws.chance(0.3):
        lines += ["barrier a,b;", "measure b[0] -> c[3];"]
    return "\n".join(lines).encode()


def _angle(draws: Draws) -> str:
    """A multiple of pi/4, or now and then one of pi/8, in one of its spellings."""
    number = draws.below(16) - 8
    spellings = (f"{number}*pi/4", f"{number / 4}*pi", f"pi*({number}/2)/2", f"-(-pi*{number}/4)", f"{2 * number}*pi/8")
    return draws.one_of(spellings) if draws.chance(0.95) else "pi/8"


def _diagram(draws: Draws) -> bytes:
    """A diagram whose wires run through up to three spiders each, with edges between them."""
    wires, length = 1 + draws.below(3), 1 + draws.below(3)
    lines = ["zxd 2"]
    for at in range(wires * length):
        lines.append(f"spider {at} {draws.one_of('ZX')} {draws.below(16)}")
    edges = [(wire * length + at, wire * length + at + 1) for wire in range(wires) for at in range(length - 1)]
    edges += [(at, at + length) for at in range((wires - 1) * length) if draws.chance(0.4)]
    for one, other in sorted(edges):
        lines.append(f"edge {one} {other} {draws.one_of(('plain', 'had'))}")
    lines += [f"input {wire * length} plain" for wire in range(wires)]
    lines += [f"output {wire * length + length - 1} plain" for wire in range(wires)]
    return "\n".join([*lines, "end", ""]).encode()


def _graph(draws: Draws) -> bytes:
    """A graph of wires through up to four vertices each, with edges between those of a time, and its causal flow."""
    wires, length = 1 + draws.below(3), 2 + draws.below(3)
    lines = ["zxg 2", *(f"vertex {at} XY {draws.below(16)}" for at in range(wires * length))]
    edges = [(wire * length + at, wire * length + at + 1) for wire in range(wires) for at in range(length - 1)]
    edges += [(at, at + length) for at in range((wires - 1) * length) if draws.chance(0.4)]
    lines += [f"edge {one} {other}" for one, other in sorted(edges)]
    lines += [f"input {wire * length} plain" for wire in range(wires)]
    lines += [f"output {wire * length + length - 1} plain" for wire in range(wires)]
    inner = [wire * length + at for at in range(length - 1) for wire in range(wires)]
    order = inner if draws.chance(0.8) else draws.shuffled(inner)
    lines += ["flow", f"order {' '.join(map(str, order))}"]
    lines += [f"correct {vertex} {vertex + 1}" for vertex in sorted(inner)]
    return "\n".join([*lines, "end", ""]).encode()


def _damaged(draws: Draws, text: bytes) -> bytes:
    """The text, or one time in five the text with a byte less, or another one."""
    if draws.chance(0.8):
        return text
    at = draws.below(len(text))
    return text[:at] + draws.one_of((b"", b";", b"[", b"\xc3\xa4", b"\xff")) + text[at + 1 :]


# -- what is wanted of them -------------------------------------------------------------------------------------------


def answered(program: str, cases: Sequence[Case]) -> List[Dict[str, object]]:
    """The cases with the program's answers, and the counts of the circuits that it takes, as JSON has them."""
    with ThreadPoolExecutor(2) as pool:
        return list(pool.map(lambda case: _answered(program, case), cases))


def _answered(program: str, case: Case) -> Dict[str, object]:
    ran = subprocess.run([program, *case.words()], input=case.text, stdout=subprocess.PIPE, stderr=subprocess.PIPE)
    fault = _FAULT.match(ran.stderr.decode())
    is_counted = ran.returncode == 0 and case.call in ("optimise", "teleport")
    return {
        "call": case.call,
        "flags": {flag: True for flag in case.flags},
        "text": base64.b64encode(case.text).decode("ascii"),
        "status": ran.returncode,
        "output": ran.stdout.decode("ascii"),
        "fault": int(fault[1]) if fault else 0,
        "place": int(fault[2] or 0) if fault else 0,
        "counts": [_counts(case.text.decode()), _counts(ran.stdout.decode())] if is_counted else None,
    }


def _counts(text: str) -> Optional[Dict[str, int]]:
    found = measures(text)
    return {
        "t": found.t_count,
        "tDepth": found.t_depth,
        "twoQubit": found.two_qubit,
        "gates": found.gates,
        "qubits": found.qubits,
    }
