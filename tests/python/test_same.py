"""`same` says yes of circuits that have one map for many reasons. Each reason is an identity of the field, put between
drawn gates, sixty times."""
from __future__ import annotations

import random
import sys
import unittest
from typing import Callable, Dict, List, NamedTuple, Sequence

import zxopt
from support import HEAD, TOP

if str(TOP) not in sys.path:
    sys.path.insert(0, str(TOP))

from benchmarks.sets import named  # noqa: E402

DRAWS = 60
INVERSE = {"t": "tdg", "tdg": "t", "s": "sdg", "sdg": "s"}
WIDTHS = {"ccx": 3, "cx": 2}


class Applied(NamedTuple):
    """A gate of the header on qubits."""

    name: str
    qubits: Sequence[int]

    def __str__(self) -> str:
        return f"{self.name} {','.join(f'q[{qubit}]' for qubit in self.qubits)};"


Gates = List[Applied]


class Pair(NamedTuple):
    """Two lists of gates with one map."""

    one: Gates
    other: Gates


def gates(*texts: str) -> Gates:
    """Gates from texts as `cx 0 1`."""
    return [Applied(name, [int(it) for it in qubits]) for name, *qubits in (text.split() for text in texts)]


def drawn(draw: random.Random, qubits: int, count: int) -> Gates:
    names = ("ccx", "cx", "t", "tdg", "s", "h")
    chosen = [draw.choice(names) for _ in range(count)]
    return [Applied(name, draw.sample(range(qubits), WIDTHS.get(name, 1))) for name in chosen]


def inverse(those: Gates) -> Gates:
    return [Applied(INVERSE.get(it.name, it.name), it.qubits) for it in reversed(those)]


def toffoli(a: int, b: int, c: int) -> Gates:
    """ccx by seven T (Nielsen and Chuang, figure 4.9), in the header's order."""
    return gates(
        f"h {c}", f"cx {b} {c}", f"tdg {c}", f"cx {a} {c}", f"t {c}", f"cx {b} {c}", f"tdg {c}", f"cx {a} {c}",
        f"t {b}", f"t {c}", f"h {c}", f"cx {a} {b}", f"t {a}", f"tdg {b}", f"cx {a} {b}",
    )  # fmt: skip


def relative_toffoli(a: int, b: int, c: int) -> Gates:
    """ccx by four T, up to phases of basis states (Maslov, arXiv 1508.03273, figure 3)."""
    return gates(
        f"h {c}", f"t {c}", f"cx {b} {c}", f"tdg {c}", f"cx {a} {c}", f"t {c}", f"cx {b} {c}", f"tdg {c}", f"h {c}",
    )  # fmt: skip


def all_parities(qubits: Sequence[int]) -> Gates:
    """T on each parity of four qubits: the identity, since each basis state makes none or eight of them odd."""
    made: Gates = []
    for parity in range(1, 16):
        *others, last = [qubit for number, qubit in enumerate(qubits) if parity >> number & 1]
        gathered = [Applied("cx", (qubit, last)) for qubit in others]
        made += [*gathered, Applied("t", (last,)), *reversed(gathered)]
    return made


def undone(draw: random.Random, qubits: int) -> Pair:
    """Gates and their inverses, or nothing."""
    those = drawn(draw, qubits, 6)
    return Pair(those + inverse(those), [])


def commuted(draw: random.Random, qubits: int) -> Pair:
    """Gates that share controls alone stand in any order."""
    a, b, c, d = draw.sample(range(qubits), 4)
    one, other = gates(f"ccx {a} {b} {c}"), gates(f"cx {a} {d}")
    return Pair(one + other, other + one)


def exchanged_controls(draw: random.Random, qubits: int) -> Pair:
    a, b, c = draw.sample(range(qubits), 3)
    return Pair(toffoli(a, b, c), toffoli(b, a, c))


def other_target(draw: random.Random, qubits: int) -> Pair:
    """A doubly controlled Z doesn't tell its target from its controls."""
    a, b, c = draw.sample(range(qubits), 3)
    return Pair(gates(f"h {c}", f"ccx {a} {b} {c}", f"h {c}"), gates(f"h {a}", f"ccx {c} {b} {a}", f"h {a}"))


def other_order(draw: random.Random, qubits: int) -> Pair:
    """Toffoli gates with one target commute."""
    a, b, c, d, e = draw.sample(range(qubits), 5)
    one, other = gates(f"ccx {a} {b} {e}"), gates(f"ccx {c} {d} {e}")
    return Pair(one + other, other + one)


def twice(draw: random.Random, qubits: int) -> Pair:
    """A Toffoli gate is its own inverse, also around a gate on another qubit."""
    a, b, c, d = draw.sample(range(qubits), 4)
    gate, between = gates(f"ccx {a} {b} {c}"), gates(f"t {d}")
    return Pair(gate + between + gate, between)


def relative(draw: random.Random, qubits: int) -> Pair:
    """Toffoli gates up to phases, around one on what they make."""
    a, b, c, d, e = draw.sample(range(qubits), 5)
    between = gates(f"ccx {c} {d} {e}")
    around = relative_toffoli(a, b, c)
    exact = gates(f"ccx {a} {b} {c}")
    return Pair(around + between + inverse(around), exact + between + exact)


def one_for_two(draw: random.Random, qubits: int) -> Pair:
    """Two Toffoli gates with a control and the target in common are one whose other control is a sum."""
    a, b, c, d = draw.sample(range(qubits), 4)
    two = gates(f"ccx {a} {b} {c}", f"ccx {a} {d} {c}")
    return Pair(two, gates(f"cx {d} {b}", f"ccx {a} {b} {c}", f"cx {d} {b}"))


def parities(draw: random.Random, qubits: int) -> Pair:
    return Pair(all_parities(draw.sample(range(qubits), 4)), [])


def nothing(draw: random.Random, qubits: int) -> Pair:
    """Drawn gates alone: the optimised circuit is compared."""
    return Pair(drawn(draw, qubits, 6), [])


KINDS: Dict[str, Callable[[random.Random, int], Pair]] = {
    it.__name__: it
    for it in (undone, commuted, exchanged_controls, other_target, other_order, twice, relative, one_for_two, parities)
}


class Shown(unittest.TestCase):
    def texts(self, kind: Callable[[random.Random, int], Pair], seed: int) -> "tuple[str, str]":
        """Two texts with one map, of five to nine qubits."""
        draw = random.Random(f"{kind.__name__} {seed}")
        qubits = draw.randint(5, 9)
        before, after = drawn(draw, qubits, draw.randint(5, 20)), drawn(draw, qubits, draw.randint(5, 20))
        head = f"{HEAD}qreg q[{qubits}];\n"
        one, other = ("\n".join([head, *map(str, before + it + after)]) + "\n" for it in kind(draw, qubits))
        return one, other

    def test_identities(self) -> None:
        for name, kind in KINDS.items():
            for seed in range(DRAWS):
                one, other = self.texts(kind, seed)
                with self.subTest(name, seed=seed):
                    self.assertTrue(zxopt.same(one, other))

    def test_optimised_ones(self) -> None:
        for best in (False, True):
            for seed in range(DRAWS):
                one, _ = self.texts(nothing, seed)
                with self.subTest(best=best, seed=seed):
                    self.assertTrue(zxopt.same(one, zxopt.optimise(one, best=best)))

    def test_one_more_t_is_seen(self) -> None:
        """No yes for circuits that differ by a T on a qubit that gates without H leave as it is."""
        for seed in range(DRAWS):
            one, other = self.texts(parities, seed)
            with self.subTest(seed=seed):
                self.assertFalse(zxopt.same(f"{one}t q[0];\n", other))

    def test_with_fewer_t(self) -> None:
        """Circuits for which `--best` writes fewer T than gadget fusion leaves."""
        for name in ("mod5_4", "vbe_adder_3", "mixed_6_48", "mixed_9_48"):
            (circuit,) = named(name)
            with self.subTest(name):
                self.assertTrue(zxopt.same(circuit.text(), zxopt.optimise(circuit.text(), best=True)))


if __name__ == "__main__":
    unittest.main()
