"""Tests of `zxopt.prepare`: each rule by itself, exactness, lines, and time."""
from __future__ import annotations

import io
import os
import random
import sys
import tempfile
import time
import unittest
from dataclasses import replace
from contextlib import redirect_stderr, redirect_stdout
from pathlib import Path
from typing import Optional, Union

sys.path.insert(0, str(Path(__file__).parent))
import simulator

from zxopt import prepare as prepare_module
from zxopt.angles import mend, spelled
from zxopt.prepare import CannotPrepare, Prepared, prepare
from zxopt.program import run

V = "OPENQASM 2.0;"
Q = 'include "qelib1.inc";'
HEAD = f"{V}\n{Q}\n"


class Rules(unittest.TestCase):
    """A text, what becomes of it, and the lines in which something changed."""

    def check(self, read: Union[str, bytes], written: str, lines: list[int], within: Optional[float] = None) -> Prepared:
        done = prepare(read, within=within)
        self.assertEqual(done.text, written)
        self.assertEqual([it.line for it in done.changes], lines, done.changes)
        again = prepare(done.text, within=within)
        self.assertEqual((again.text, again.changes, again.greatest_move), (written, (), 0.0))
        run(["opt"], written)
        return done

    def test_nothing_to_do(self) -> None:
        for text in (V, f"{V}\n", HEAD + "qreg q[1];\nh q[0]; // \u03c0/4\n", f"{V}\r\n{Q}\r\nqreg q[1];\r\n", f"// \u03c0\n{HEAD}"):
            self.check(text, text, [])

    def test_marks_and_encodings(self) -> None:
        text = HEAD + "qreg q[1];\nt q[0]; // \u03c0\n"
        self.check("\ufeff" + text, text, [1])
        self.check(text.encode("utf-8-sig"), text, [1])
        self.check(text.encode("utf-16"), text, [1])
        self.check(b"\xfe\xff" + text.encode("utf-16-be"), text, [1])
        self.check(text.encode("utf-16-le"), text, [1])
        self.check(text.encode("utf-32"), text, [1])
        self.check(HEAD.encode() + b"// \xb5s\n", HEAD + "// \u00b5s\n", [1])

    def test_line_ends_and_white_space(self) -> None:
        self.check(f"{V}\r{Q}\rqreg q[1];\r", HEAD + "qreg q[1];\n", [1])
        self.check(HEAD + "qreg\u00a0q[1];\n\x0ct q[0];\x1a", HEAD + "qreg q[1];\n t q[0]; ", [3, 4, 4])

    def test_block_comments(self) -> None:
        self.check(f"{V} /* a\nb; */ {Q}\nqreg q[1]; // /* c\n", f"{V}  \n {Q}\nqreg q[1]; // /* c\n", [1])
        with self.assertRaises(CannotPrepare) as caught:
            prepare(HEAD + "/* a")
        self.assertEqual(caught.exception.line, 3)

    def test_version(self) -> None:
        self.check(f"{Q}\nqreg q[1];\n", f"{V} {Q}\nqreg q[1];\n", [1])
        self.check(f"// a\n\n{Q}\nqreg q[1];\n", f"// a\n\n{V} {Q}\nqreg q[1];\n", [3])
        self.check(f"OPENQASM 2;\n{Q}\n", f"\n{V} {Q}\n", [1])
        self.check(f"{Q}\n{V}\nqreg q[1];\n", f"{V} {Q}\n\nqreg q[1];\n", [1, 2])
        self.check(f"{V}\n{V}\n{Q}\n", f"{V}\n\n{Q}\n", [2])

    def test_other_languages(self) -> None:
        for text, line in (("OPENQASM 3.0;\nqreg q[1];", 1), ("OPENQASM 3;", 1), ("\nOPENQASM 2.1;", 2), ("qubit[2] q;", 1),
                           (f"{V}\nbit c;", 2), ("", 1), ("// a\n", 1), (HEAD + "gate a b {", 3), (HEAD + "h q", 3)):
            with self.subTest(text=text), self.assertRaises(CannotPrepare) as caught:
                prepare(text)
            self.assertEqual(caught.exception.line, line)
            self.assertIsInstance(caught.exception, ValueError)

    def test_all_left_out(self) -> None:
        for text, line in (("barrier;", 1), ("\nqreg q[0];\n", 2), (";\n;\n", 1), ("// a\nbarrier;qreg q[0];", 2)):
            with self.subTest(text=text), self.assertRaises(CannotPrepare) as caught:
                prepare(text)
            self.assertEqual(caught.exception.line, line)

    def test_include(self) -> None:
        rest = "qreg q[1];\nh q[0];\n"
        for spelled_so in ('"lib/qelib1.inc"', "'qelib1.inc'", '"C:\\x\\qelib1.inc"', "<qelib1.inc>", '"./qelib1.inc"'):
            self.check(f"{V}\ninclude {spelled_so};\n{rest}", HEAD + rest, [2])
        self.check(f"{V}\n{rest}", f"{V} {Q}\n{rest}", [1])
        self.check(f"{V}\nqreg q[1];\nU(0,0,pi) q[0];\n", f"{V}\nqreg q[1];\nU(0,0,pi) q[0];\n", [])
        self.check(f"{HEAD}{Q}\n{rest}", f"{HEAD}\n{rest}", [3])
        self.check(f"{V}\n{rest}{Q}\n", f"{V} {Q}\n{rest}\n", [4])
        self.check(f"{V}\nqreg q[1];\n{Q}\nh q[0];\n", f"{V}\nqreg q[1];\n{Q}\nh q[0];\n", [])
        self.check(f"{V}\ngate a b {{ h b; }}\n{Q}\nqreg q[1];\na q[0];\n", f"{V} {Q}\ngate a b {{ h b; }}\n\nqreg q[1];\na q[0];\n", [3])
        self.check(rest, f"{V} {Q} {rest}", [1, 1])
        self.assertEqual(prepare(f'{V}\ninclude "own.inc";\n').changes, ())

    def test_capital_names(self) -> None:
        self.check(HEAD + "qreg Q[1];\ncreg q[1];\nh Q[0];\nmeasure Q[0] -> q[0];\n",
                   HEAD + "qreg q_2[1];\ncreg q[1];\nh q_2[0];\nmeasure q_2[0] -> q[0];\n", [3])
        self.check(HEAD + "gate Foo(Theta) A,_b { rz(Theta/2) A; CX A,_b; }\nqreg q[2];\nFoo(pi/2) q[0],q[1];\n",
                   HEAD + "gate foo(theta) a,n_b { rz(theta/2) a; CX a,n_b; }\nqreg q[2];\nfoo(pi/2) q[0],q[1];\n", [3, 3, 3, 3])
        self.check(HEAD + "qreg q[2];\nH q[0];\nRz(PI/4) q[0];\n", HEAD + "qreg q[2];\nh q[0];\nrz(pi/4) q[0];\n", [4, 5, 5])
        self.check(HEAD + "qreg q[1];\ngate H a { t a; }\nH q[0];\n", HEAD + "qreg q[1];\ngate h_2 a { t a; }\nh_2 q[0];\n", [4])
        self.check(HEAD + "qreg \u03c8[1];\nt \u03c8[0]; // \u03c8\n", HEAD + "qreg u3c8[1];\nt u3c8[0]; // \u03c8\n", [3])

    def test_words_of_other_letters(self) -> None:
        self.check(f"{V}\nINCLUDE \"qelib1.inc\";\nQREG q[1];\nh q[0];\n", HEAD + "qreg q[1];\nh q[0];\n", [2, 3])
        self.check(f"IBMQASM 2.0;\n{Q}\n", f"\n{V} {Q}\n", [1])
        self.check(f"# a\n{HEAD}qreg q[1]; // # b\n  # c\n", f"// a\n{HEAD}qreg q[1]; // # b\n  // c\n", [1, 5])
        self.check(HEAD + "gate QFT\u2020 a { t a; }\ngate b.c-d(x) a { rz(x) a; QFT\u2020 a; }\nqreg q[1];\nb.c-d(pi) q[0]; // b.c-d\n",
                   HEAD + "gate qFT_ a { t a; }\ngate b_c_d(x) a { rz(x) a; qFT_ a; }\nqreg q[1];\nb_c_d(pi) q[0]; // b.c-d\n", [3, 4])
        unknown = HEAD + "qreg q[2];\nZZPhase(0.5*pi) q[0],q[1];\n"
        self.assertEqual(prepare(unknown).text, unknown)

    def test_own_copies_of_the_header(self) -> None:
        own = "gate cx c,t { CX c,t; }\ngate h a { U(pi/2,0,pi) a; }\n"
        self.check(f"{V}\n{own}qreg q[2];\nh q[0];\n", f"{V}\n{own}qreg q[2];\nh q[0];\n", [])
        renamed = own.replace("cx", "own_cx").replace("gate h", "gate own_h")
        self.check(f"{HEAD}{own}qreg q[2];\nh q[0]; t q[1];\n", f"{HEAD}{renamed}qreg q[2];\nown_h q[0]; t q[1];\n", [3, 4])
        self.check(f"{V}\n{own}qreg q[2];\nh q[0]; t q[1];\n", f"{V} {Q}\n{renamed}qreg q[2];\nown_h q[0]; t q[1];\n", [1, 2, 3])

    def test_registers_named_as_gates(self) -> None:
        self.check(HEAD + "qreg x[1];\nqreg t[1];\ncreg p[1];\nx x[0];\ncx x[0],t;\nmeasure t -> p;\np(pi) x;\n",
                   HEAD + "qreg x_reg[1];\nqreg t_reg[1];\ncreg p_reg[1];\nx x_reg[0];\ncx x_reg[0],t_reg;\nmeasure t_reg -> p_reg;\np(pi) x_reg;\n",
                   [3, 4, 5])

    def test_library(self) -> None:
        self.check(HEAD + "qreg q[3];\nrccx q[0],q[1],q[2];\n",
                   f"{V}\n{Q} gate rccx a,b,c {{ h c; t c; cx b,c; tdg c; cx a,c; t c; cx b,c; tdg c; h c; }}\nqreg q[3];\nrccx q[0],q[1],q[2];\n", [4])
        done = prepare(HEAD + "qreg q[4];\nc3x q[0],q[1],q[2],q[3];\ncu(pi/2,0,0,0) q[0],q[1];\n")
        self.assertEqual([it.line for it in done.changes], [4, 5])
        self.assertEqual(done.text.count("gate "), 4)
        run(["opt"], done.text)
        own = HEAD + "gate rccx a,b,c { h a; }\nqreg q[3];\nrccx q[0],q[1],q[2];\n"
        self.check(own, own, [])
        self.check(f'{V}\ninclude "hqslib1.inc";\nqreg q[2];\nU1q(pi/2,0.5*pi) q[0];\nRZZ(pi/2) q[0],q[1];\n',
                   f"{V}\n{Q} gate u1q(theta,phi) q {{ u3(theta,phi-pi/2,pi/2-phi) q; }}\nqreg q[2];\nu1q(pi/2,0.5*pi) q[0];\nrzz(pi/2) q[0],q[1];\n",
                   [2, 4, 4, 5])
        inside = prepare(HEAD + "gate a b,c { csx b,c; }\nqreg q[2];\na q[0],q[1];\n")
        self.assertIn("gate csx", inside.text)
        run(["opt"], inside.text)

    def test_late_declarations(self) -> None:
        self.check(HEAD + "qreg q[1];\na q[0];\ngate a b { c b; }\ngate c b {\n h b; // h\n}\n",
                   HEAD + "qreg q[1];\ngate c b { h b; } gate a b { c b; } a q[0];\n\n\n\n\n", [5, 6])

    def test_angles(self) -> None:
        for read, written in (("pi^1", "pi"), ("+pi/4", "pi/4"), ("pi/2^2", "pi/4"), ("sqrt(4)*pi/8", "pi/4"), ("acos(0)", "pi/2"),
                              ("1e-1*pi*5", "pi/2"), ("02*pi/4", "pi/2"), ("sin(pi/2)*pi/8", "pi/8"), ("\u03c0/4", "pi/4"),
                              ("\u2212pi/8", "-pi/8"), ("cos(pi)*pi", "-pi"), ("2^-1*pi", "pi/2"), ("ln(1)", "0"), ("-pi/2^1", "-pi/2")):
            with self.subTest(read=read):
                self.check(f"{HEAD}qreg q[1];\nrz({read}) q[0];\n", f"{HEAD}qreg q[1];\nrz({written}) q[0];\n", [4])
        body = "gate a(x,y) b {{ u3({},y*2,0) b; }}\nqreg q[1];\na(pi/2,{}) q[0];\n"
        self.check(HEAD + body.format("+x/2^1", "pi^1/2"), HEAD + body.format("x/2", "pi/2"), [3, 5])
        text = HEAD + "qreg q[1];\nu2(pi^1,\n +pi) q[0]; // +pi\nh q[0];\n"
        self.check(text, HEAD + "qreg q[1];\nu2(pi,pi\n) q[0]; // +pi\nh q[0];\n", [4, 4])

    def test_angles_that_stay(self) -> None:
        for read in ("0.125*pi", "3*pi/8", "-(pi/4)", "0.7853981633974483", "pi/16", "-pi^2", "-2^2*pi", "sqrt(2)*pi", "1/0", "pi*pi", "1.25e-1*pi"):
            with self.subTest(read=read):
                text = f"{HEAD}qreg q[1];\nrz({read}) q[0];\n"
                self.assertEqual(replace(prepare(text), rounded=0), Prepared(text, (), 0.0))

    def test_within(self) -> None:
        text = HEAD + "qreg q[1];\ncreg c[1];\nrz({}) q[0];\nu2(0.3,{}) q[0];\nif(c==1) rx({}) q[0];\n"
        read, written = text.format("0.785398163397", "-1.5707963267948966", "0.24999999999*pi"), text.format("pi/4", "-pi/2", "pi/4")
        done = prepare(read, within=1e-9)
        self.assertEqual(done.text, written)
        self.assertEqual([it.line for it in done.changes], [5, 6, 7])
        self.assertAlmostEqual(done.greatest_move, 3.1416e-11, delta=1e-13)
        self.assertEqual(prepare(read, within=1e-13).text, text.format("0.785398163397", "-pi/2", "0.24999999999*pi"))
        self.assertEqual(prepare(read).changes, ())
        self.assertEqual(prepare(HEAD + "gate a b { rz(0.39269908169872414) b; }\n", within=0).changes, ())
        self.assertEqual(len(prepare(HEAD + "gate a b { rz(0.39269908169872414) b; }\n", within=1e-16).changes), 1)
        self.assertEqual(prepare(HEAD + "qreg q[1];\nrzq(3,1) q[0];\n", within=0.05).greatest_move, 0.0)
        for wrong in (-1.0, 0.2, float("nan")):
            with self.assertRaises(ValueError):
                prepare(HEAD, within=wrong)

    def test_opaque_and_delays(self) -> None:
        self.check(HEAD + "opaque a(x) b;\nopaque delay(t) b;\nqreg q[1];\nh q[0];\ndelay(100) q[0];\nt q[0];\n",
                   HEAD + "\n\nqreg q[1];\nh q[0];\n\nt q[0];\n", [3, 4, 7])
        self.check(HEAD + "opaque delay(t) b;\ngate a b { delay(3) b; t b; }\nqreg q[1];\na q[0];\n",
                   HEAD + "gate delay(t) b { }\ngate a b { delay(3) b; t b; }\nqreg q[1];\na q[0];\n", [3])
        used = HEAD + "opaque a b;\nqreg q[1];\na q[0];\n"
        self.assertEqual(prepare(used), Prepared(used, (), 0.0))

    def test_resets(self) -> None:
        self.check(HEAD + "qreg q[2];\nreset q[0];\nreset q;\nh q[0];\nreset q[1];\n",
                   HEAD + "qreg q[2];\n\n\nh q[0];\n\n", [4, 5, 7])
        for rest in ("h q[0];\nreset q[0];", "h q;\nreset q[1];", "measure q[0] -> c[0];\nreset q;", "if(c==0) x q[1];\nreset q[1];"):
            text = f"{HEAD}qreg q[2];\ncreg c[1];\n{rest}\n"
            self.assertEqual(prepare(text), Prepared(text, (), 0.0))

    def test_small_things(self) -> None:
        self.check(HEAD + "gate a b { h b; };\nqreg q[02];\ncreg e[0];\nbarrier;\n;\n",
                   HEAD + "gate a b { h b; }\nqreg q[2];\n\nbarrier q;\n\n", [3, 4, 5, 6, 7])

    def test_what_is_not_understood_stays(self) -> None:
        for rest in ("foo bar baz;", "if(c[0]==1) x q[0];", "measure q;", "h q[0]; ] (", "qreg q;", "rz((pi q[0];"):
            text = f"{HEAD}qreg q[1];\n{rest}{'' if rest[-1] == ';' else ';'}\n"
            with self.subTest(rest=rest):
                self.assertEqual(prepare(text).text, text)


class Maps(unittest.TestCase):
    """Drawn texts of the forms that prepare changes keep their maps."""

    def test_drawn_texts(self) -> None:
        for seed in range(60):
            text = self.drawn(random.Random(seed))
            done = prepare(text)
            with self.subTest(seed=seed):
                self.assertTrue(simulator.is_same(text, done.text, from_zero=True, seed=seed), f"{text}\n{done.text}")
                self.assertTrue(simulator.is_same(text, prepare(text, within=1e-8).text, from_zero=True))
                self.assertEqual(done.text.count("\n"), text.count("\n"))
                self.assertEqual(prepare(done.text).changes, ())

    def drawn(self, draw: random.Random) -> str:
        """A text with what many tools write."""
        one = ["H Q[0];", "rz(+pi/4) Q[1];", "U1q(pi/2,pi/8) Q[0];", "sx Q[2];", "reset Q[1];", "barrier;", "rx(0.7853981633974483) Q[0];",
               "u2(0,pi^1) Q[1];", "Foo(pi/2) Q[0],Q[2];", "late Q[1],Q[0];", "r(pi/4,pi/2) Q[2];", "/* x */ t Q;", ";", "delay(5) Q[0];",
               "ry(acos(0)) Q[2];", "u0(1) Q[0];", "h Q[0]; // H"]
        two = ["csx Q[0],Q[1];", "cu3(pi/2,pi/4,-pi/4) Q[1],Q[2];", "iswap Q[0],Q[2];", "ecr Q[0],Q[1];", "rxx(pi/2^1) Q[1],Q[2];",
               "rccx Q[0],Q[1],Q[2];", "cu(pi/2,0,0,pi/4) Q[0],Q[1];", "ZZ Q[0],Q[1];", "dcx Q[2],Q[0];", "rzx(pi/4) Q[0],Q[1];"]
        head = [*draw.sample(["OPENQASM 2.0;", 'include "lib/qelib1.inc";'], draw.randint(0, 2)), "qreg Q[3];",
                "gate Foo(Theta) A,B { cx A,B; rz(Theta/2^1) B; cx A,B; }", "opaque delay(t) a;"]
        body = [draw.choice(one + two) for _ in range(draw.randint(4, 12))]
        return "\n".join([*head, *body, "gate late A,b { CX A,b;\n h b; }", ""])


class Angles(unittest.TestCase):
    """Respelled expressions have the value of those that were read."""

    def test_drawn_expressions(self) -> None:
        draw = random.Random(3)
        seen = 0
        for _ in range(3000):
            text = self.drawn(draw, 3)
            mended = mend(text)
            if mended is None:
                continue
            seen += 1
            known = {"x": 0.7, "y": -1.3}
            self.assertAlmostEqual(simulator.value(text, known), simulator.value(mended.text, known), 9, f"{text} {mended}")
        self.assertGreater(seen, 300)

    def drawn(self, draw: random.Random, depth: int) -> str:
        """An expression."""
        if depth == 0 or draw.random() < 0.2:
            return draw.choice(["pi", "2", "0.5", "x", "y", "4", "1", "3", "0.25", "1e1"])
        one, two = self.drawn(draw, depth - 1), self.drawn(draw, depth - 1)
        return draw.choice([f"({one}+{two})", f"({one})-({two})", f"({one})*({two})", f"({one})/4", f"-({one})", f"+({one})", f"({one})^2",
                            f"{one}*{two}", f"({one})^1", "sqrt(4)", "cos(pi/3)", f"({one})/2^2", f"{one}-{two}"])

    def test_spelled(self) -> None:
        from fractions import Fraction

        for r, s, text in ((0, 0, "0"), (0, 1, "pi"), (0, -1, "-pi"), (0, Fraction(3, 8), "3*pi/8"), (1, Fraction(-1, 2), "1-pi/2"), (Fraction(1, 3), 2, "1/3+2*pi")):
            self.assertEqual(spelled(Fraction(r), Fraction(s)), text)

    def test_strange_expressions(self) -> None:
        for text in ("", "(", ")", "1e999999999*pi", "-" * 3000 + "pi", "(" * 1000 + "pi" + ")" * 1000, "2^2^2^2^2^2^2", "9^9^9", "pi pi", "sin", "sin pi",
                     "1.2.3", "'", "\u00e9", "10^1000000000", "tan(pi/2)", "ln(0)", "sqrt(-1)", "0^-1", "1" * 3000):
            with self.subTest(text=text[:20]):
                mend(text, 1e-9)


class Time(unittest.TestCase):
    """Time is linear. The bounds leave room for a machine that does other work."""

    def test_many_lines(self) -> None:
        draw = random.Random(6)
        lines = [f"cx Q[{draw.randrange(50)}],Q[{50 + draw.randrange(50)}];" for _ in range(60_000)]
        lines += [f"rz({draw.random():.9f}) Q[{draw.randrange(100)}];" for _ in range(20_000)]
        lines += [f"u3(0.5*pi,pi^1,-pi/{2 ** draw.randrange(4)}) Q[{draw.randrange(100)}];" for _ in range(20_000)]
        text = HEAD + "qreg Q[100];\n" + "\n".join(lines)
        begin = time.process_time()
        prepare(text)
        self.assertLess(time.process_time() - begin, 9)

    def test_sixteen_megabytes(self) -> None:
        lines = "cx  q[0] , q[1]; // a comment that is longer than the statement, and again longer\n" * 150_000 + "/* x */ " * 500_000
        text = HEAD + "qreg q[2];\n" + lines
        self.assertGreater(len(text), 15 << 20)
        begin = time.process_time()
        prepare(text)
        self.assertLess(time.process_time() - begin, 25)

    def test_no_end(self) -> None:
        begin = time.process_time()
        for text in ("x " * 500_000, "(" * 500_000, '"' * 500_000, "// a\n" * 200_000 + "x", "/" * 500_000, "x / " * 300_000, "gate a b { " + "h b; " * 100_000):
            with self.assertRaises(CannotPrepare):
                prepare(text)
        self.assertLess(time.process_time() - begin, 12)


class Rounded(unittest.TestCase):
    """Angles that were meant to be multiples of pi/8, and aren't."""

    def test_counts(self) -> None:
        for body, count in (
            ("rz(0.7853981633974483) q[0];", 1),
            ("rz(0.7853981633974483) q[0];\n" * 3, 3),
            ("u3(1.5707963267948966,0.39269908169872414,3.141592653589793) q[0];", 3),
            ("rz(pi/4) q[0]; rz(0.25*pi) q[0]; rz(0) q[0]; rz(0.0) q[0]; rz(-0.0) q[0];", 0),
            ("rz(0.785398163) q[0];", 1),       # 4e-10 away
            ("rz(0.78539816) q[0];", 0),        # 3.4e-9 away
            ("rz(0.3) q[0]; rz(pi/16) q[0];", 0),
            ("rz(2*0.39269908169872414) q[0]; rz(1e-12) q[0]; rz(-6.283185307179586) q[0];", 3),
            ("gate turn(x) a { rz(x) a; rz(0.7853981633974483) a; } turn(0.39269908169872414) q[0];", 2),
            ("if(c==1) rz(0.7853981633974483) q[0]; measure q[0] -> c[0];", 1),
            ("u0(3.141592653589793) q[0]; // rz(0.7853981633974483)", 0),
        ):
            with self.subTest(body=body):
                text = f"{HEAD}qreg q[1]; creg c[1]; {body}\n"
                self.assertEqual(prepare(text).rounded, count)
                self.assertEqual(prepare(text, within=1e-9).rounded, 0)
                self.assertEqual(prepare(prepare(text, within=1e-9).text).rounded, 0)


class Command(unittest.TestCase):
    """The command `prepare`."""

    def test_tells_of_rounded_angles(self) -> None:
        with tempfile.TemporaryDirectory() as folder:
            file = os.path.join(folder, "a.qasm")
            Path(file).write_text(f"{HEAD}qreg q[1]; rz(0.785398163397) q[0]; rx(1.570796326795) q[0];", encoding="utf-8")
            target = Path(folder, "b.qasm")
            with redirect_stdout(io.StringIO()) as out, redirect_stderr(io.StringIO()) as said:
                self.assertEqual(prepare_module.main([file, "--to", str(target)]), 0)
            self.assertEqual((out.getvalue(), target.read_text(encoding="utf-8")), ("", Path(file).read_text(encoding="utf-8")))
            self.assertEqual(
                said.getvalue(), "prepare: 2 angles lie within 1e-9 of a multiple of pi/8: --within 1e-9 takes them for that\n"
            )

    def test_a_file(self) -> None:
        with tempfile.TemporaryDirectory() as folder:
            file = os.path.join(folder, "a.qasm")
            Path(file).write_text("qreg q[1]; rz(0.785398163397) q[0]; // \u03c0\n", encoding="utf-8")
            out = io.TextIOWrapper(io.BytesIO(), encoding="utf-8")
            with redirect_stdout(out), redirect_stderr(io.StringIO()) as said:
                self.assertEqual(prepare_module.main(["--within", "1e-9", file]), 0)
            self.assertEqual(out.buffer.getvalue().decode(), f"{V} {Q} qreg q[1]; rz(pi/4) q[0]; // \u03c0\n")  # type: ignore[attr-defined]
            self.assertIn("prepare: 1: 0.785398163397 is taken for pi/4, moved by 4.5e-13 radians\n", said.getvalue())
            self.assertIn("at most 4.48e-13 radians", said.getvalue())

    def test_what_can_not_be_prepared(self) -> None:
        with tempfile.TemporaryDirectory() as folder:
            file = os.path.join(folder, "a.qasm")
            Path(file).write_text("OPENQASM 3.0;\n")
            with redirect_stderr(io.StringIO()) as said:
                self.assertEqual(prepare_module.main([file]), 1)
            self.assertIn(f"{file}:1: the text is OpenQASM 3", said.getvalue())


if __name__ == "__main__":
    unittest.main()
