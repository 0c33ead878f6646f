"""Tests of 85 texts as Qiskit, PyZX, tket, Cirq, RevLib, QASMBench, MQT Bench and people write them.

The file `texts/TABLE` says of each text how the program comes to take it. A change that alters this has to update the table:
with ZXOPT_UPDATE_TABLE set in the environment, the test writes it anew.
"""
from __future__ import annotations

import os
import sys
import unittest
from pathlib import Path
from typing import Optional

sys.path.insert(0, str(Path(__file__).parent))
import simulator

from zxopt.faults import Refused
from zxopt.parts import Parts, optimise_parts
from zxopt.prepare import CannotPrepare, prepare
from zxopt.program import run

FOLDER = Path(__file__).parent / "texts"
TABLE = FOLDER / "TABLE"
WITHIN = 1e-9
# A text that only the program compares: it has too many qubits for matrices.
WIDE = "qasmbench_bigadder_n18.qasm"


def is_taken(text: object) -> bool:
    """Whether the program takes a text as it is."""
    try:
        run(["opt"], text)  # type: ignore[arg-type]
        return True
    except Refused:
        return False


class Way:
    """How a text goes through."""

    def __init__(self, data: bytes) -> None:
        self.prepared: Optional[str] = None
        self.parts: Optional[Parts] = None
        try:
            self.prepared = prepare(data).text
            self.rounded = prepare(data, within=WITHIN).text
            self.parts = optimise_parts(self.prepared)
        except CannotPrepare as why:
            self.name = f"refused: {why.sentence}"
            return
        if is_taken(data):
            self.name = "as it is"
        elif is_taken(self.prepared):
            self.name = "behind prepare"
        elif is_taken(self.rounded):
            self.name = f"behind prepare --within {WITHIN:g}, or parts that leave {self.parts.kept} statements"
        else:
            self.name = f"behind parts, which leave {self.parts.kept} statements"


class Texts(unittest.TestCase):
    """The table, and maps."""

    @classmethod
    def setUpClass(cls) -> None:
        cls.data = {it.name: it.read_bytes() for it in sorted(FOLDER.glob("*.qasm"))}
        cls.ways = {name: Way(data) for name, data in cls.data.items()}

    def test_table(self) -> None:
        found = "".join(f"{name}: {way.name}\n" for name, way in self.ways.items())
        if os.environ.get("ZXOPT_UPDATE_TABLE"):
            TABLE.write_text(found, encoding="utf-8")
        self.assertEqual(TABLE.read_text(encoding="utf-8").splitlines(), found.splitlines())

    def test_shares(self) -> None:
        self.assertEqual(len(self.ways), 85)
        self.assertGreaterEqual(sum(way.parts is not None for way in self.ways.values()), 80)

    def test_maps(self) -> None:
        for name, way in self.ways.items():
            if way.parts is None or name == WIDE:
                continue
            data = self.data[name]
            with self.subTest(name=name):
                self.assertTrue(simulator.is_same(data, way.prepared))
                self.assertTrue(simulator.is_same(data, way.parts.text))
                self.assertTrue(simulator.is_same(data, way.rounded))

    def test_a_wide_text(self) -> None:
        both = f"{self.data[WIDE].decode()}\n//// second\n{self.ways[WIDE].parts.text}"  # type: ignore[union-attr]
        self.assertEqual(run(["same"], both), ("same\n", 0))

    def test_parts_read_what_they_write(self) -> None:
        for name, way in self.ways.items():
            if way.parts is not None:
                with self.subTest(name=name):
                    self.assertLessEqual(way.parts.after, way.parts.before)
                    self.assertFalse(prepare(way.parts.text).changes)
                    self.assertEqual(optimise_parts(way.parts.text).kept, way.parts.kept)

    def test_prepared_texts_stay(self) -> None:
        for name, way in self.ways.items():
            if way.prepared is not None:
                with self.subTest(name=name):
                    again = prepare(way.prepared)
                    self.assertEqual((again.text, again.changes), (way.prepared, ()))
                    raw = self.data[name].decode("utf-8-sig")
                    self.assertEqual(way.prepared.count("\n"), raw.count("\n"))


if __name__ == "__main__":
    unittest.main()
