"""Tests of other spellings: what is written, and that it is the same circuit."""
from __future__ import annotations

import random
import re
import unittest

from support import HEAD, InRoom, example

import zxopt
from zxopt.spelling import by_cx, only_t

ALL = HEAD + (
    "qreg q[2];\ncreg c[2];\nh q[0];\nx q[1];\nz q[0];\ns q[1];\nsdg q[0];\nt q[1];\ntdg q[0];\n"
    "u1(3*pi/4) q[0];\nu1(5*pi/4) q[1];\nu1(pi/8) q[0];\nu1(15*pi/8) q[1];\ncx q[1],q[0];\ncz q[0],q[1];\n"
    "measure q[1] -> c[0];\n// read gates 1\n"
)


def drawn(seed: int, qubits: int = 4, gates: int = 60) -> str:
    """A text of gates drawn with this seed, all phases among them."""
    draw = random.Random(seed)
    lines = [f"qreg a[{qubits}];"]
    for _ in range(gates):
        one, other = draw.sample(range(qubits), 2)
        kind = draw.choice(["h", "x", "phase", "phase", "cx", "cz"])
        if kind == "phase":
            lines.append(f"u1({draw.randrange(1, 16)}*pi/8) a[{one}];")
        else:
            lines.append(f"{kind} a[{one}]" + (f",a[{other}];" if kind in ("cx", "cz") else ";"))
    return HEAD + "\n".join(lines) + "\n"


class Written(unittest.TestCase):
    def test_only_t(self) -> None:
        expected = ALL.replace("u1(3*pi/4) q[0];", "s q[0];\nt q[0];").replace("u1(5*pi/4) q[1];", "z q[1];\nt q[1];")
        self.assertEqual(only_t(ALL), expected)
        self.assertEqual(only_t(only_t(ALL).encode()), expected)

    def test_by_cx(self) -> None:
        self.assertEqual(
            by_cx(ALL),
            HEAD + "qreg q[2];\ncreg c[2];\nU(pi/2,0,pi) q[0];\nU(pi,0,pi) q[1];\nU(0,0,pi) q[0];\nU(0,0,pi/2) q[1];\n"
            "U(0,0,-pi/2) q[0];\nU(0,0,pi/4) q[1];\nU(0,0,-pi/4) q[0];\nU(0,0,3*pi/4) q[0];\nU(0,0,5*pi/4) q[1];\n"
            "U(0,0,pi/8) q[0];\nU(0,0,15*pi/8) q[1];\nCX q[1],q[0];\n"
            "U(pi/2,0,pi) q[1];\nCX q[0],q[1];\nU(pi/2,0,pi) q[1];\nmeasure q[1] -> c[0];\n// read gates 1\n",
        )

    def test_each_gate_is_the_same(self) -> None:
        gates = re.findall(r"^(?!measure|qreg|//)\S+ q\[\d\](?:,q\[\d\])?;$", ALL, re.MULTILINE)
        self.assertEqual(len(gates), 13)
        for gate in gates:
            text = f"{HEAD}qreg q[2];\n{gate}\n"
            for spelled in (only_t(text), by_cx(text)):
                self.assertTrue(zxopt.same(text, spelled), gate)
        self.assertTrue(zxopt.same(ALL, by_cx(only_t(ALL))))

    def test_no_registers(self) -> None:
        for spell in (only_t, by_cx):
            self.assertEqual(spell(HEAD), HEAD)
            self.assertEqual(spell(HEAD[:-1]), HEAD[:-1])

    def test_drawn_circuits(self) -> None:
        for seed in range(24):
            with self.subTest(seed=seed):
                text = drawn(seed)
                made = zxopt.optimise_counted(text, best=seed % 2 == 0)
                for spell in (only_t, by_cx):
                    spelled = spell(made.text)
                    self.assertTrue(zxopt.same(text, spelled))
                    counts = zxopt.counts(spelled, best=False)
                    self.assertEqual(counts.read.odd, made.counts.written.odd)
                    self.assertEqual(counts.read.two_qubit, made.counts.written.two_qubit)
                self.assertNotRegex(only_t(made.text), r"u1\([35]\*pi/4\)")

    def test_what_opt_writes(self) -> None:
        for name in ("tof_10", "measured", "adder"):
            text = example(f"{name}.qasm")
            for written in (zxopt.optimise(text, report=True, scalar=True), zxopt.teleport(text)):
                self.assertTrue(zxopt.same(text, only_t(written)))
                self.assertTrue(zxopt.same(text, by_cx(written)))


class Refused(unittest.TestCase):
    def test_other_texts(self) -> None:
        begin = HEAD + "qreg q[2];\n"
        for text in (
            "",
            "qreg q[1];\n",
            HEAD.replace("\n", "\r\n"),
            HEAD[14:],
            "h q[0];\n" + HEAD,
            begin + "ccx q[0],q[1],q[2];\n",
            begin + "h q[0]; h q[1];\n",
            begin + "h q;\n",
            begin + " h q[0];\n",
            begin + "h r[0];\n",
            begin + "u1(pi/16) q[0];\n",
            begin + "u1 q[0];\n",
            begin + "h(pi/8) q[0];\n",
            begin + "h q[0],q[1];\n",
            begin + "cx q[0];\n",
            begin + "gate a b { h b; }\n",
            begin + "barrier q;\n",
            begin + "if(c==1) h q[0];\n",
            begin + "CX q[0],q[1];\n",
        ):
            for spell in (only_t, by_cx):
                with self.subTest(text=text), self.assertRaises(ValueError):
                    spell(text)

    def test_line_is_told(self) -> None:
        with self.assertRaisesRegex(ValueError, "line 4 isn't one that zxopt writes: barrier q;"):
            only_t(HEAD + "qreg q[1];\nbarrier q;\nh q[0];\n")


class Large(unittest.TestCase):
    def test_large_results_are_read_again(self) -> None:
        """So many lines as `opt` writes for 100,000 gates on 50 qubits, most of them cz, are read again by U and CX."""
        lines = [f"cz q[{i % 50}],q[{(i * 7 + 1 + i % 50) % 50}];" if i % 8 else f"t q[{i % 50}];" for i in range(196_000)]
        lines = [line for line in lines if not re.fullmatch(r"cz (q\[\d+\]),\1;", line)]
        self.assertGreater(len(lines), 190_000)
        text = HEAD + "qreg q[50];\n" + "\n".join(lines) + "\n"
        # the fault behind the last gate is told where all gates before it are read
        for whole, number in ((text, 19), (by_cx(text), 6)):
            with self.assertRaises(zxopt.Refused) as caught:
                zxopt.teleport(whole + "reset q[0];\n")
            self.assertEqual(caught.exception.number, number)


class Command(InRoom):
    def test_spell(self) -> None:
        self.write("all.qasm", ALL)
        self.assertEqual(self.command("spell", "--only-t", "all.qasm").stdout, only_t(ALL))
        ran = self.command("spell", "--by-cx", "--to", "out.qasm", text=ALL)
        self.assertEqual((ran.returncode, ran.stdout, ran.stderr), (0, "", ""))
        self.assertEqual((self.room / "out.qasm").read_text(), by_cx(ALL))

    def test_words(self) -> None:
        self.assertEqual(self.command("spell", text=ALL).returncode, 2)
        self.assertEqual(self.command("spell", "--only-t", "--by-cx", text=ALL).returncode, 2)
        ran = self.command("spell", "--only-t", text="h q[0];\n")
        self.assertEqual((ran.returncode, ran.stdout), (1, ""))

    def test_flags_of_opt(self) -> None:
        text = HEAD + "qreg q[1];\nt q[0];\ns q[0];\n"
        for flag, spell in (("--only-t", only_t), ("--by-cx", by_cx)):
            for command in ("opt", "teleport"):
                written = zxopt.optimise(text) if command == "opt" else zxopt.teleport(text)
                self.assertEqual(self.command(command, flag, text=text).stdout, spell(written))


if __name__ == "__main__":
    unittest.main()
