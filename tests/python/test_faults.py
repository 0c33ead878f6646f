"""Tests of the table of faults, and of the exception that tells one."""
from __future__ import annotations

import pickle
import re
import shutil
import subprocess
import unittest

from support import HEAD, TOP, InRoom, absolute_program

import zxopt
from zxopt.faults import FAULTS, NoFlow, Refused


class Tables(unittest.TestCase):
    def test_all(self) -> None:
        self.assertEqual(sorted(FAULTS), list(range(1, 27)))
        for fault in FAULTS.values():
            self.assertTrue(fault.sentence and fault.remedy)

    def test_same_names_as_the_documents(self) -> None:
        text = (TOP / "docs" / "LANGUAGE.md").read_text(encoding="utf-8")
        told = {int(number): name for number, name in re.findall(r"^\| (\d+) \| ([A-Z]\w+) \|", text, re.MULTILINE)}
        self.assertEqual(told, {number: fault.name for number, fault in FAULTS.items()})

    def test_keys_are_numbers(self) -> None:
        for number, fault in FAULTS.items():
            self.assertEqual(fault.number, number)


class Refusals(InRoom):
    def refused(self, text: str) -> Refused:
        with self.assertRaises(Refused) as caught:
            zxopt.optimise(text)
        return caught.exception

    def test_fields(self) -> None:
        refused = self.refused(HEAD + "qreg q[1];\n// ein Größeres\n  reset q[0];\nh q[0];\n")
        self.assertEqual((refused.number, refused.name), (6, "Unsupported"))
        self.assertEqual((refused.line, refused.column, refused.place), (5, 3, 67))
        self.assertEqual(refused.sentence, FAULTS[6].sentence)
        self.assertEqual(refused.excerpt, "reset q[0];")
        self.assertIsInstance(refused, ValueError)
        self.assertEqual(str(refused), f"5:3: {FAULTS[6].sentence} (fault 6 Unsupported): reset q[0];")

    def test_without_place(self) -> None:
        refused = self.refused("qreg q[1];\n")
        self.assertEqual((refused.number, refused.place, refused.line, refused.column), (4, None, None, None))
        self.assertEqual(str(refused), f"{FAULTS[4].sentence} (fault 4 Version)")

    def test_line_of_a_graph_file(self) -> None:
        with self.assertRaises(Refused) as caught:
            zxopt.run(["flow"], "zxg 2\nvertex 0 XY 16\nend\n")
        refused = caught.exception
        self.assertEqual((refused.number, refused.place, refused.line, refused.column), (21, 2, 2, None))
        self.assertEqual(refused.excerpt, "vertex 0 XY 16")

    def test_missing_line_of_a_graph_file(self) -> None:
        with self.assertRaises(Refused) as caught:
            zxopt.run(["flow"], "zxg 2\n")
        self.assertEqual((caught.exception.line, caught.exception.excerpt), (2, ""))

    def test_as_where_tells(self) -> None:
        """Line, column, sentence, the name at fault and the hint are those of the script `where`."""
        shutil.copy(TOP / "where", self.room / "where")
        shutil.copy(TOP / "python/zxopt/faults.tsv", self.room / "faults.tsv")
        (self.room / "zxopt").symlink_to(absolute_program()["ZXOPT"])
        for text in (
            HEAD + "qreg q[1];\nh r[0];\n",
            HEAD + "qreg q[1]; // é\nh q[0]; /* */ h q[0];",
            HEAD + "qreg q[1];\n\n\n   rz(pi/16) q[0];\n",
            "qreg q[1];\n",
            HEAD + "qreg q[2];\r\ncx q[0],q[0];\r\n",
            HEAD + "Qreg q[1];",
            HEAD + "qreg q[1];\ngate g(x) a { rz(y) a; }",
            HEAD + "qreg q[1];\ngate g a,b,a { }",
            HEAD + "qreg q[1];\nqreg q[2];",
            HEAD + "qreg q[1]; // cu3\ncu3(pi,0,1e3) q[0],q[0];",
            "OPENQASM 2.0;\nqreg q[1];\nh q[0];\n",
        ):
            with self.subTest(text=text):
                file = self.room / "text"
                file.write_bytes(text.encode("utf-8"))
                told = subprocess.run(["./where", "text"], cwd=self.room, stderr=subprocess.PIPE, check=False)
                refused = self.refused(text)
                where = f":{refused.where}" if refused.where else ""
                lines = told.stderr.decode("utf-8").splitlines()
                identifier = f": {refused.identifier}" if refused.identifier else ""
                self.assertEqual(lines[0], f"text{where}: {refused.sentence}{identifier}")
                self.assertEqual(lines[-1], f"hint: {refused.hint}")

    def test_identifier(self) -> None:
        """The name that is declared twice, or isn't declared as what is needed."""
        rows = [
            ("r", "cx q[0],r[0];"), ("cu3", "cu3(pi,0,0) q[0],q[0];"), ("x1", "rz(x1) q[0];"), ("h", "h h;"),
            ("foo", "gate g a { h a; foo a; }"), ("y", "gate g(x) a { rz(y) a; }"), ("q", "qreg q[2];"),
            ("cx", "gate cx c,t { CX c,t; }"), ("b", "gate g(a) b,b { }"), ("", "rz(pi/16) q[0];"),
        ]
        for identifier, statement in rows:
            with self.subTest(statement=statement):
                self.assertEqual(self.refused(f"{HEAD}qreg q[1];\n{statement}\n").identifier, identifier)

    def test_pickled(self) -> None:
        for error in (self.refused(HEAD + "h q[0];\n"), NoFlow((1, 2))):
            again = pickle.loads(pickle.dumps(error))
            self.assertEqual((str(again), vars(again)), (str(error), vars(error)))

    def test_unknown_fault(self) -> None:
        refused = Refused(99, "Newer", 3, 1, 4)
        self.assertIn("fault 99 Newer", str(refused))
        self.assertIn("newer", refused.hint)

    def test_long_and_odd_lines_are_shown_short(self) -> None:
        refused = Refused.at(2, "BadByte", 1, b"a\x1b" + b"x" * 100)
        self.assertEqual(refused.excerpt, "?" + "x" * 59 + "...")
        self.assertIsNone(Refused.told("zxopt: no memory", b""))


if __name__ == "__main__":
    unittest.main()
