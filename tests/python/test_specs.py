"""The reader of definitions, on a small file, and what the book of definitions is checked for."""
from __future__ import annotations

import sys
import unittest

from support import TOP, InRoom

if str(TOP / "tools") not in sys.path:
    sys.path.insert(0, str(TOP / "tools"))

from specs import book, library  # noqa: E402
from specs.reader import Import, Specs, cited  # noqa: E402

TEXT = """-- What a file is about.
use Rattle.std.specs.Prelude.{ℕ, Bool,
    ◌+◌ as ◌plus◌}
use Rattle.zx_model.specs.Phase as phases

-- a pair
pub record Pair : Type 0 where
  -- its first part
  pub left : ℕ
  pub right : ℕ

abbrev pub left_of : Pair → ℕ
-- whatever the other is
left_of (a , b) = a
left_of other =
    0

pub data Side : Type 0 where
  Left Right : Side
"""


class Reader(InRoom):
    def setUp(self) -> None:
        super().setUp()
        self.file = Specs(self.write("File.antt", TEXT))

    def test_definitions_have_their_comments_and_places(self) -> None:
        told = [(one.name, one.lines[0].number, [line.text for line in one.comment]) for one in self.file.definitions]
        self.assertEqual(told, [("Pair", 7, ["-- a pair"]), ("left_of", 12, []), ("Side", 18, [])])
        self.assertEqual([line.text for line in self.file.head], ["-- What a file is about."])

    def test_lines_of_code_are_counted_without_comments(self) -> None:
        self.assertEqual([len(one.code) for one in self.file.definitions], [3, 4, 2])

    def test_imports(self) -> None:
        self.assertEqual(self.file.imports["◌plus◌"], Import("Rattle.std.specs.Prelude", "◌+◌", False))
        self.assertEqual(self.file.imports["phases"], Import("Rattle.zx_model.specs.Phase", None, False))

    def test_constructors_are_names_and_fields_are_none(self) -> None:
        self.assertEqual(set(self.file.by_name), {"Pair", "left_of", "Side", "Left", "Right"})
        self.assertEqual(self.file.fields, {"left", "right"})

    def test_equations(self) -> None:
        equations = list(self.file.by_name["left_of"].equations)
        self.assertEqual(equations, [("left_of (a , b)", "a"), ("left_of other", "0")])

    def test_citing(self) -> None:
        names = ["left", "◌plus◌", "f", "◌>>=◌"]
        self.assertEqual(cited("f p.left (record { left = a plus b })", names), {"f", "◌plus◌"})
        self.assertEqual(cited("do x ← y", names), {"◌>>=◌"})


class Book(unittest.TestCase):
    """Of a page that prints two lines of a file."""

    PATH = library.CRATES / "zx_model/specs/Phase.antt"

    def page(self, change: str = "") -> str:
        lines = self.PATH.read_text(encoding="utf-8").splitlines()[4:6]
        printed = [f"    {number:4}  {line}{change}" for number, line in enumerate(lines, 5)]
        return "\n".join(["### zx_model/specs/Phase.antt", "", *printed])

    def test_what_stands_in_the_sources(self) -> None:
        self.assertEqual(book.misprints(self.page(), []), [])

    def test_a_line_that_is_another_one(self) -> None:
        self.assertEqual(len(book.misprints(self.page("0"), [])), 2)

    def test_a_definition_that_is_left_out(self) -> None:
        file = library.Library().file_at(self.PATH)
        found = [library.Found(file, file.by_name[name]) for name in ("turn", "is_odd")]
        self.assertEqual(book.misprints(self.page(), found), ["zx_model/specs/Phase.antt:27 isn't printed"])


if __name__ == "__main__":
    unittest.main()
