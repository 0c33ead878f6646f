"""Families of circuits on which the field compares optimisers of T gates, each with its public source.

Adders and multipliers count a register's bits from the lowest one on. The gates are `ccx`, `cx`, `x`, and in the
Fourier transform `h` and `cu1`. The Toffoli gate `ccx` is that of the header: seven T gates and six CNOT gates.
Sizes that a family doesn't have raise ValueError.
"""
from __future__ import annotations

from typing import List, Optional, Tuple

from .circuit import Circuit
from .draws import Draws

__all__ = ["TAPS", "aqft", "barenco_tof", "gf2_mult", "mod5_4", "rc_adder", "tof", "vbe_adder"]

# Irreducible polynomials over GF(2), x^degree + x^tap for each tap + 1.
TAPS = {
    4: (1,), 5: (2,), 6: (1,), 7: (1,), 8: (1, 3, 4), 9: (4,), 10: (3,), 12: (3,), 16: (1, 3, 5), 32: (2, 3, 7),
}  # fmt: skip


def tof(controls: int) -> Circuit:
    """NOT with three or more controls on ancillas that begin and end in 0: 2*controls - 3 Toffoli gates. After Nielsen
    and Chuang, "Quantum Computation and Quantum Information", figure 4.10."""
    _ask("controls", controls, 3)
    about = f"NOT with {controls} controls, by {2 * controls - 3} Toffoli gates and ancillas in 0."
    circuit = Circuit(f"tof_{controls}", about)
    control, ancilla, target = _controlled_not(circuit, controls)
    circuit.ccx(control[0], control[1], ancilla[0])
    for it in range(1, controls - 2):
        circuit.ccx(ancilla[it - 1], control[it + 1], ancilla[it])
    end = len(circuit.gates)
    circuit.ccx(ancilla[-1], control[-1], target)
    circuit.gates += reversed(circuit.gates[:end])
    return circuit


def barenco_tof(controls: int) -> Circuit:
    """NOT with three or more controls on ancillas in any state, which are given back: 4*(controls - 2) Toffoli gates.
    Barenco and others, "Elementary gates for quantum computation" (Physical Review A 52, 3457, 1995), lemma 7.2."""
    _ask("controls", controls, 3)
    about = f"NOT with {controls} controls, by {4 * (controls - 2)} Toffoli gates and ancillas in any state."
    circuit = Circuit(f"barenco_tof_{controls}", about)
    control, ancilla, target = _controlled_not(circuit, controls)
    chain = [*ancilla, target]

    def there_and_back(top: int) -> None:
        """Flips the chain's qubit `top` where the controls up to it are 1, and dirties those of the chain below it."""
        for it in range(top, 0, -1):
            circuit.ccx(chain[it - 1], control[it + 1], chain[it])
        circuit.ccx(control[0], control[1], chain[0])
        for it in range(1, top + 1):
            circuit.ccx(chain[it - 1], control[it + 1], chain[it])

    there_and_back(len(ancilla))
    there_and_back(len(ancilla) - 1)
    return circuit


def _controlled_not(circuit: Circuit, controls: int) -> Tuple[List[int], List[int], int]:
    """The qubits of a NOT with so many controls: the controls, two ancillas fewer than these, and the target."""
    control = circuit.qubits("control", controls)
    ancilla = circuit.qubits("ancilla", controls - 2)
    return control, ancilla, circuit.qubits("target", 1)[0]


def mod5_4() -> Circuit:
    """Flips the target where the number of four bits is a multiple of 5: the function 4mod5 of Maslov's page of
    reversible benchmarks. The multiples of 5 below 16 are 0, 5, 10 and 15, whose bits 0 and 2 are equal, and bits 1
    and 3. So it is (x0 + x2 + 1)*(x1 + x3 + 1), which four Toffoli gates multiply out, with x2 and x3 negated."""
    circuit = Circuit("mod5_4", "The target is flipped where the number is a multiple of 5.")
    number, target = circuit.qubits("number", 4), circuit.qubits("target", 1)[0]
    for it in (2, 3):
        circuit.x(number[it])
    for left in (0, 2):
        for right in (1, 3):
            circuit.ccx(number[left], number[right], target)
    for it in (2, 3):
        circuit.x(number[it])
    return circuit


def vbe_adder(bits: int) -> Circuit:
    """b becomes a + b, with the carry in its last bit, on ancillas that begin and end in 0. Vedral, Barenco and Ekert,
    "Quantum networks for elementary arithmetic operations" (Physical Review A 54, 147, 1996), figure 2."""
    _ask("bits", bits, 1)
    about = "b becomes a + b, on carries that begin and end in 0. Vedral, Barenco and Ekert 1996."
    circuit = Circuit(f"vbe_adder_{bits}", about)
    a, b = circuit.qubits("a", bits), circuit.qubits("b", bits + 1)
    carries = [*circuit.qubits("carry", bits), b[bits]]

    def carry(it: int) -> None:
        """Adds the carry of bit `it` to the next one, and a's bit to b's."""
        circuit.ccx(a[it], b[it], carries[it + 1])
        circuit.cx(a[it], b[it])
        circuit.ccx(carries[it], b[it], carries[it + 1])

    def total(it: int) -> None:
        """Makes b's bit that of the sum."""
        circuit.cx(a[it], b[it])
        circuit.cx(carries[it], b[it])

    for it in range(bits):
        carry(it)
    circuit.cx(a[bits - 1], b[bits - 1])
    total(bits - 1)
    for it in range(bits - 2, -1, -1):
        begin = len(circuit.gates)
        carry(it)
        circuit.gates[begin:] = reversed(circuit.gates[begin:])
        total(it)
    return circuit


def rc_adder(bits: int) -> Circuit:
    """b becomes a + b, and the carry is added to `high`, on one ancilla that begins and ends in 0; four bits or more.
    Cuccaro, Draper, Kutin and Moulton, "A new quantum ripple-carry addition circuit" (quant-ph/0410184), the form of
    low depth: 2*bits - 1 Toffoli gates, 5*bits - 3 CNOT gates and 2*bits - 4 negations."""
    _ask("bits", bits, 4)
    about = "b becomes a + b, and the carry is added to high. Cuccaro and others, quant-ph/0410184."
    circuit = Circuit(f"rc_adder_{bits}", about)
    ancilla = circuit.qubits("ancilla", 1)[0]
    a, b = circuit.qubits("a", bits), circuit.qubits("b", bits)
    high = circuit.qubits("high", 1)[0]
    # The carry into bit 1 is made in the ancilla, each later one in the bit of a before, and the last one in `high`.
    carries = [-1, ancilla, *a[1:-1], high]

    for it in range(1, bits):
        circuit.cx(a[it], b[it])
    circuit.cx(a[1], ancilla)
    circuit.ccx(a[0], b[0], ancilla)
    circuit.cx(a[2], a[1])
    for it in range(1, bits - 1):
        circuit.ccx(carries[it], b[it], carries[it + 1])
        circuit.cx(*((a[it + 2], a[it + 1]) if it < bits - 2 else (a[bits - 1], high)))
    circuit.ccx(carries[bits - 1], b[bits - 1], high)

    for it in range(1, bits - 1):
        circuit.x(b[it])
    for it in range(1, bits):
        circuit.cx(carries[it], b[it])

    circuit.ccx(carries[bits - 2], b[bits - 2], carries[bits - 1])
    for it in range(bits - 3, -1, -1):
        circuit.ccx(*((carries[it], b[it]) if it else (a[0], b[0])), carries[it + 1])
        circuit.cx(a[it + 2], a[it + 1])
        circuit.x(b[it + 1])
    circuit.cx(a[1], ancilla)
    for it in range(bits):
        circuit.cx(a[it], b[it])
    return circuit


def gf2_mult(degree: int, order: Optional[int] = None) -> Circuit:
    """c becomes a*b in GF(2^degree) by the polynomial of TAPS: degree^2 Toffoli gates, and a CNOT gate for each tap of
    all bits but one. Maslov, Mathew, Cheung and Pradhan (arXiv 0710.1093).

    The products of x^degree and above are added first, each into the bit whose power is less by degree. Horner's rule
    reduces these in place, from the highest one on, and then the other products are added. c has to begin in 0.

    order: draws the order of the Toffoli gates between CNOT gates by this seed. They commute, so the map stays.
    """
    if degree not in TAPS:
        raise ValueError(f"no polynomial of degree {degree} is known here, but of {', '.join(map(str, TAPS))}")
    taps = TAPS[degree]
    polynomial = " + ".join(f"x^{it}" if it > 1 else "x" for it in (degree, *reversed(taps))) + " + 1"
    drawn = "" if order is None else f"_order_{order}"
    circuit = Circuit(
        f"gf2_{degree}_mult{drawn}",
        f"c becomes a*b in GF(2^{degree}) by {polynomial}, where c begins in 0. Maslov and others, arXiv 0710.1093.",
    )
    a, b, c = (circuit.qubits(it, degree) for it in "abc")
    draws = None if order is None else Draws(f"gf2_mult {degree} {order}")

    def add_products(powers: range) -> None:
        """Adds the products of these powers of x to the bits of c."""
        products = [(a[it], b[power - it], c[power % degree]) for power in powers
                    for it in range(max(0, power - degree + 1), min(power, degree - 1) + 1)]  # fmt: skip
        for product in products if draws is None else draws.shuffled(products):
            circuit.ccx(*product)

    add_products(range(degree, 2 * degree - 1))
    for it in range(degree - 2, -1, -1):
        for tap in taps:
            circuit.cx(c[it], c[(it + tap) % degree])
    add_products(range(degree))
    return circuit


def aqft(qubits: int) -> Circuit:
    """The approximate Fourier transform whose turns are pi, pi/2 and pi/4, by `h` and `cu1`. On up to three qubits it
    is the exact one; on more a controlled turn by pi/8 would need phases of pi/16, which the language doesn't have. The
    first qubit is the highest bit before, and the lowest one behind, since no qubits are swapped. Barenco, Ekert,
    Suominen and Torma, "Approximate quantum Fourier transform and decoherence" (quant-ph/9601018)."""
    _ask("qubits", qubits, 1)
    about = "The approximate Fourier transform of degree 3. Barenco and others, quant-ph/9601018."
    circuit = Circuit(f"aqft_{qubits}", about)
    number = circuit.qubits("q", qubits)
    for it, target in enumerate(number):
        circuit.add("h", target)
        for angle, control in zip(("pi/2", "pi/4"), number[it + 1 :]):
            circuit.add("cu1", control, target, angle=angle)
    return circuit


def _ask(what: str, number: int, least: int) -> None:
    """ValueError where a size is less than the least one of its family."""
    if number < least:
        raise ValueError(f"{number} {what} are too few: {least} or more are needed")
