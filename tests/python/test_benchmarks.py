"""The benchmark circuits do what their names say, on drawn inputs."""
from __future__ import annotations

import cmath
import hashlib
import math
import subprocess
import sys
import unittest
from collections import Counter
from typing import Dict, Iterator, List, Sequence, Tuple

import simulator
import zxopt
from reversible import Reversible, drawn
from support import TOP, InRoom

if str(TOP) not in sys.path:
    sys.path.insert(0, str(TOP))

from benchmarks import families, sets  # noqa: E402
from benchmarks.circuit import Circuit  # noqa: E402
from benchmarks.drawn import Kind, mixed, random_circuit  # noqa: E402

COUNT = 200


def runs(text: str, **inputs: Sequence[int]) -> Iterator[Tuple[Dict[str, int], Dict[str, int]]]:
    """The runs of a circuit from these inputs: what each group holds before and behind. Groups that aren't named begin
    in 0."""
    circuit = Reversible(text)
    count = len(next(iter(inputs.values())))
    before = {name: list(inputs.get(name, [0] * count)) for name in circuit.groups}
    behind = circuit.run(before)
    for it in range(count):
        yield {name: them[it] for name, them in before.items()}, {name: them[it] for name, them in behind.items()}


class Toffolis(unittest.TestCase):
    """Networks of Toffoli gates flip the target where all controls are 1, and nothing else."""

    def shows_controlled_not(self, text: str, controls: int, ancillas: List[int]) -> None:
        all_on = (1 << controls) - 1
        numbers = drawn(controls, COUNT, 1) + [all_on ^ 1 << it for it in range(controls)] + [all_on]
        those = {"control": numbers, "ancilla": (ancillas * len(numbers))[: len(numbers)]}
        for target in (0, 1):
            for before, behind in runs(text, target=[target] * len(numbers), **those):
                before["target"] ^= before["control"] == all_on
                self.assertEqual(before, behind)

    def test_tof_on_ancillas_in_0(self) -> None:
        for controls in (3, 4, 5, 10):
            with self.subTest(controls):
                self.shows_controlled_not(families.tof(controls).text(), controls, [0])

    def test_barenco_tof_on_ancillas_in_any_state(self) -> None:
        for controls in (3, 4, 5, 10):
            with self.subTest(controls):
                self.shows_controlled_not(families.barenco_tof(controls).text(), controls, drawn(controls - 2, 37, 2))

    def test_tof_needs_its_ancillas_in_0(self) -> None:
        ((before, behind),) = runs(families.tof(3).text(), control=[4], ancilla=[1])
        self.assertNotEqual(before, behind)

    def test_mod5_4_tells_the_multiples_of_5(self) -> None:
        numbers = list(range(16))
        for before, behind in runs(families.mod5_4().text(), number=numbers):
            self.assertEqual({**before, "target": int(before["number"] % 5 == 0)}, behind)


class Adders(unittest.TestCase):
    """Adders add, keep a, and give their ancillas back."""

    def test_vbe_adder(self) -> None:
        for bits in (1, 2, 3, 8, 64):
            a, b = drawn(bits, COUNT, 3), drawn(bits + 1, COUNT, 4)
            for before, behind in runs(families.vbe_adder(bits).text(), a=a, b=b):
                total = (before["a"] + before["b"]) % (2 << bits)
                self.assertEqual({**before, "b": total}, behind)

    def test_rc_adder(self) -> None:
        for bits in (4, 5, 6, 8, 64):
            a, b = drawn(bits, COUNT, 5), drawn(bits, COUNT, 6)
            for high in (0, 1):
                for before, behind in runs(families.rc_adder(bits).text(), a=a, b=b, high=[high] * COUNT):
                    carry, total = divmod(before["a"] + before["b"], 1 << bits)
                    self.assertEqual({**before, "b": total, "high": high ^ carry}, behind)

    def test_rc_adder_has_the_gates_of_its_paper(self) -> None:
        for bits in (5, 6, 32):
            names = [it.name for it in families.rc_adder(bits).gates]
            self.assertEqual([names.count(it) for it in ("ccx", "cx", "x")], [2 * bits - 1, 5 * bits - 3, 2 * bits - 4])


def polynomial(degree: int) -> int:
    """The polynomial by which a multiplier reduces, its coefficients as bits."""
    return 1 << degree | sum(1 << tap for tap in families.TAPS[degree]) | 1


def product(one: int, other: int, modulus: int) -> int:
    """The product of two polynomials over GF(2), below the modulus's degree."""
    degree, total = modulus.bit_length() - 1, 0
    while other:
        total ^= one if other & 1 else 0
        other >>= 1
        one <<= 1
        if one >> degree & 1:
            one ^= modulus
    return total


class Multipliers(unittest.TestCase):
    """Multipliers multiply in a field."""

    def test_each_polynomial_makes_a_field(self) -> None:
        """By Rabin's test: x^(2^degree) is x, and for each prime divisor p of the degree x^(2^(degree/p)) + x has no
        common factor with the polynomial."""
        for degree in families.TAPS:
            modulus = polynomial(degree)
            primes = [it for it in (2, 3, 5, 7) if degree % it == 0]
            powers = [2]
            for _ in range(degree):
                powers.append(product(powers[-1], powers[-1], modulus))
            self.assertEqual(powers[degree], 2, degree)
            for prime in primes:
                self.assertEqual(common_factor(modulus, powers[degree // prime] ^ 2), 1, degree)

    def test_gf2_mult(self) -> None:
        for degree in (4, 5, 6, 7, 8, 9, 10, 16, 32):
            a, b = drawn(degree, COUNT, 7), drawn(degree, COUNT, 8)[::-1]
            for before, behind in runs(families.gf2_mult(degree).text(), a=a, b=b):
                self.assertEqual({**before, "c": product(before["a"], before["b"], polynomial(degree))}, behind)

    def test_gf2_mult_in_drawn_orders(self) -> None:
        plain = Reversible(families.gf2_mult(6).text())
        inputs = {name: drawn(6, COUNT, seed) for seed, name in enumerate("abc")}
        texts = [families.gf2_mult(6, order).text() for order in (1, 2, 3)]
        self.assertEqual(len({plain_gates(it) for it in [*texts, families.gf2_mult(6).text()]}), 4)
        for text in texts:
            self.assertEqual(Reversible(text).run(inputs), plain.run(inputs))
        self.assertEqual(texts[0], families.gf2_mult(6, 1).text())


def plain_gates(text: str) -> str:
    """A text's lines without its comments."""
    return "\n".join(line for line in text.splitlines() if not line.startswith("//"))


def common_factor(one: int, other: int) -> int:
    """The greatest common factor of two polynomials over GF(2)."""
    while other:
        while one.bit_length() >= other.bit_length():
            one ^= other << one.bit_length() - other.bit_length()
        one, other = other, one
    return one


class FourierTransforms(unittest.TestCase):
    """By `simulator`, which multiplies matrices. The transform reads the first qubit as the highest bit, which is the
    lowest one behind it; the simulator has it as the lowest bit."""

    def shows_transform(self, qubits: int, degree: int) -> None:
        numbers = range(1 << qubits)
        want = [[entry(reversed_bits(x, qubits), y, qubits, degree) for x in numbers] for y in numbers]
        self.assertTrue(simulator.is_multiple(simulator.matrix_of(families.aqft(qubits).text()), want))

    def test_up_to_three_qubits_it_is_the_exact_one(self) -> None:
        for qubits in (1, 2, 3):
            self.shows_transform(qubits, qubits)

    def test_on_more_it_leaves_small_turns_out(self) -> None:
        self.shows_transform(5, 3)


def entry(x: int, y: int, qubits: int, degree: int) -> complex:
    """The amplitude of y in the transform of x, by the definition of Barenco and others: the turn x*y/2^qubits without
    the pairs of bits whose turn is whole, or less than 1/2^degree."""
    turn = 0.0
    for j in range(qubits):
        for k in range(qubits):
            if qubits - degree <= j + k < qubits and x >> j & y >> k & 1:
                turn += 2.0 ** (j + k - qubits)
    return cmath.exp(2j * math.pi * turn) / math.sqrt(1 << qubits)


def reversed_bits(number: int, count: int) -> int:
    """The number with its lowest `count` bits in the other order."""
    return sum((number >> it & 1) << (count - 1 - it) for it in range(count))


class RandomCircuits(unittest.TestCase):
    """What is drawn is what the kind says, and the same each time."""

    def shares(self, circuit: Circuit) -> Dict[str, float]:
        return {name: count / len(circuit.gates) for name, count in Counter(it.name for it in circuit.gates).items()}

    def test_each_kind_has_its_gates(self) -> None:
        sixth, quarter = 1 / 6, 0.98 / 4
        want = {
            Kind.RANDOM: {"h": sixth, "t": sixth, "s": sixth, "tdg": sixth, "cz": sixth, "cx": sixth},
            Kind.LOCAL: {"h": sixth, "t": sixth, "s": sixth, "tdg": sixth, "cz": sixth, "cx": sixth},
            Kind.ONE_T_IN_FIFTY: {"t": 0.02, "h": quarter, "s": quarter, "cz": quarter, "cx": quarter},
            Kind.CLIFFORD: {"h": 0.25, "s": 0.25, "cz": 0.25, "cx": 0.25},
            Kind.CX: {"cx": 1.0},
            Kind.CX_AND_T: {"cx": 0.5, "t": 0.5},
        }
        self.assertEqual(set(want), set(Kind))
        for kind, shares in want.items():
            got = self.shares(random_circuit(kind, 20, 10_000))
            self.assertEqual(set(got), set(shares), kind)
            for name, share in shares.items():
                self.assertAlmostEqual(got[name], share, delta=0.02, msg=f"{kind} {name}")

    def test_pairs_are_distinct_and_local_ones_neighbours(self) -> None:
        for kind in (Kind.RANDOM, Kind.LOCAL):
            pairs = {gate.qubits for gate in random_circuit(kind, 5, 2_000).gates if len(gate.qubits) == 2}
            want = {(a, b) for a in range(5) for b in range(5) if a != b and (kind is Kind.RANDOM or abs(a - b) == 1)}
            self.assertEqual(pairs, want)

    def test_mixed_circuits(self) -> None:
        got = self.shares(mixed(9, 3_000))
        self.assertEqual(set(got), {"ccx", "cx", "t"})
        for share in got.values():
            self.assertAlmostEqual(share, 1 / 3, delta=0.04)
        for gate in mixed(4, 500).gates:
            self.assertEqual(len(set(gate.qubits)), {"ccx": 3, "cx": 2, "t": 1}[gate.name])

    def test_a_seed_gives_the_same_text_everywhere(self) -> None:
        """The sums fix the texts that the tables were measured on: another version of Python has to draw them, too."""
        sums = {
            random_circuit(Kind.RANDOM, 50, 10_000): SUM_RANDOM,
            mixed(9, 48): SUM_MIXED,
            families.gf2_mult(8, 1): SUM_ORDER,
        }
        for circuit, digest in sums.items():
            self.assertEqual(hashlib.sha256(circuit.text().encode()).hexdigest()[:16], digest, circuit.name)
        self.assertNotEqual(random_circuit(Kind.CX, 9, 50, 1).gates, random_circuit(Kind.CX, 9, 50, 2).gates)


SUM_RANDOM, SUM_MIXED, SUM_ORDER = "bf89e80e2fd804d7", "cfe278c7e60bf1b7", "a0785a5a4173aaf7"

# Qubits, T gates and gates on two qubits of the circuits with a published T-count: seven T and six CX for each Toffoli
# gate, and the CX beside them.
READ = {
    "tof_3": (5, 21, 18), "tof_4": (7, 35, 30), "tof_5": (9, 49, 42), "tof_10": (19, 119, 102),
    "barenco_tof_3": (5, 28, 24), "barenco_tof_4": (7, 56, 48), "barenco_tof_5": (9, 84, 72),
    "barenco_tof_10": (19, 224, 192), "mod5_4": (5, 28, 24), "vbe_adder_3": (10, 70, 72), "rc_adder_6": (14, 77, 93),
    "gf2_4_mult": (12, 112, 99), "gf2_5_mult": (15, 175, 154), "gf2_6_mult": (18, 252, 221),
    "gf2_7_mult": (21, 343, 300), "gf2_8_mult": (24, 448, 405),
}  # fmt: skip


class Sets(InRoom):
    """The sets, and the command that writes them."""

    def test_the_published_circuits_read(self) -> None:
        for circuit in sets.published():
            read = zxopt.counts(circuit.text(), best=False).read
            self.assertEqual((circuit.width, read.odd, read.two_qubit), READ[circuit.name], circuit.name)

    def test_opt_writes_the_published_t(self) -> None:
        """But for one adder, which was published for another text."""
        for circuit in sets.published():
            if circuit.name != "vbe_adder_3":
                written = zxopt.counts(circuit.text(), best=False).written.odd
                self.assertEqual(written, sets.PUBLISHED_T[circuit.name], circuit.name)

    def test_small_circuits_are_sixty(self) -> None:
        those = list(sets.small())
        self.assertEqual((len(those), {it.width for it in those}), (60, set(range(4, 10))))
        self.assertEqual(len({plain_gates(it.text()) for it in those}), 60)

    def test_generate(self) -> None:
        self.benchmarks("generate", "out", "published", "small")
        names = {it.name for set_name in ("published", "small") for it in sets.SETS[set_name]()}
        self.assertEqual({it.stem for it in (self.room / "out").iterdir()}, names)
        self.assertEqual((self.room / "out" / "tof_4.qasm").read_text(), families.tof(4).text())

    def test_generate_in_a_drawn_order(self) -> None:
        self.benchmarks("generate", "out", "--order", "7")
        self.assertEqual(
            (self.room / "out" / "gf2_5_mult_order_7.qasm").read_text(), families.gf2_mult(5, 7).text()
        )
        self.assertEqual(len(list((self.room / "out").iterdir())), 8)

    def test_generate_by_name(self) -> None:
        """Of no set, too; and each circuit of a set is the one of its name."""
        self.benchmarks("generate", "out", "cliff_9_30", "gf2_4_mult_order_3", "vbe_adder_7")
        self.assertEqual((self.room / "out" / "vbe_adder_7.qasm").read_text(), families.vbe_adder(7).text())
        for circuit in (*sets.published(), *sets.larger(), *sets.small()):
            self.assertEqual([it.text() for it in sets.named(circuit.name)], [circuit.text()])

    def test_no_such_circuit(self) -> None:
        said = {
            "all": "all is no circuit, and none of the sets published, larger, drawn, small",
            "tof_2": "2 controls are too few: 3 or more are needed",
            "gf2_11_mult": "no polynomial of degree 11 is known here, but of 4, 5, 6, 7, 8, 9, 10, 12, 16, 32",
            "cx_1_5": "1 qubits are too few: two or more are needed",
        }
        for name, sentence in said.items():
            with self.assertRaises(ValueError) as caught:
                sets.named(name)
            self.assertEqual(str(caught.exception), sentence)
        self.assertEqual(self.benchmarks("generate", "out", "all", status=1), f"benchmarks: {said['all']}\n")

    def benchmarks(self, *words: str, status: int = 0) -> str:
        """Runs the command, which ends so, and answers its standard error."""
        command = [sys.executable, "-m", "benchmarks", *words]
        ran = subprocess.run(command, cwd=self.room, env={"PYTHONPATH": str(TOP)}, capture_output=True, text=True)
        self.assertEqual(ran.returncode, status, ran.stderr)
        return ran.stderr


if __name__ == "__main__":
    unittest.main()
