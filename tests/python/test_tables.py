"""The tables of the benchmarks: how they are measured and written, and that they stand in the documents as they are."""
from __future__ import annotations

import io
import re
import sys
import unittest
from typing import Dict, List, Tuple
from unittest import mock

import zxopt
from support import TOP, InRoom
from zxopt import find_program
from zxopt.counting import Measures

if str(TOP) not in sys.path:
    sys.path.insert(0, str(TOP))

from benchmarks import __main__ as commands  # noqa: E402
from benchmarks import families, picture, sets, table, tools  # noqa: E402
from benchmarks.tools import Ran, Tool  # noqa: E402

# A cell's place: the circuit, what is told of it, and by what.
Cells = Dict[Tuple[str, str, str], str]
LABELS = ("Qubits", "T", "T-depth", "CX, CZ", "gates", "seconds", "MB")
SHORT_HEADS = {"`opt`": table.OPT, "`--best`": table.BEST}


def placed(name: str) -> str:
    """The table of this name as it stands in its document."""
    return table.placed((TOP / table.DOCUMENTS[name]).read_text(encoding="utf-8"), name)


def cells(text: str) -> Cells:
    """The cells of a table. A head without a label tells the same as the one before it, and one that is a label alone
    tells what was read. The short table leaves out words."""
    lines = [[cell.strip() for cell in line.strip("|").split("|")] for line in text.splitlines() if line[:1] == "|"]
    heads: List[Tuple[str, str]] = []
    for head in lines[0][1:]:
        label = next((it for it in LABELS if head == it or head.startswith(f"{it} ")), None)
        by = SHORT_HEADS.get(head, head)
        heads.append((label, head[len(label) + 1 :] or table.READ) if label else (heads[-1][0], by))
    out: Cells = {}
    for name, *line in lines[2:]:
        found = re.search(r"`(\w+)`", name)
        assert found and len(line) == len(heads), name
        out.update({(found[1], *head): cell for head, cell in zip(heads, line)})
    return out


class Documents(unittest.TestCase):
    """README has the short table, PERFORMANCE the long ones."""

    def test_the_short_table_stands_in_the_long_ones(self) -> None:
        long = {**cells(placed("T")), **cells(placed("gates")), **cells(placed("seconds"))}
        short = cells(placed("short"))
        self.assertEqual({name for name, *_ in short}, set(table.SHORT))
        self.assertEqual(short, {place: long.get(place, "") for place in short})

    def test_the_summary_is_that_of_the_shares(self) -> None:
        row = next(line for line in placed("shares").splitlines() if line.startswith(f"| {table.BEST} |"))
        parts = re.findall(r"[0-9.]+ \([0-9.]+ to [0-9.]+\)", row)
        self.assertEqual(len(parts), 4)
        self.assertEqual(re.findall(r"[0-9.]+ \([0-9.]+ to [0-9.]+\)", " ".join(placed("short").split())), parts)

    def test_each_circuit_has_its_row(self) -> None:
        names = [it.name for set_name in sets.IN_TABLES for it in sets.SETS[set_name]()]
        for name in ("T", "gates", "seconds"):
            self.assertEqual(re.findall(r"^\| `(\w+)` \|", placed(name), re.M), names, name)

    def test_the_program_writes_these_counts(self) -> None:
        """Of the quick ones: `python3 -m benchmarks table --write` renews the tables where the program has changed."""
        those = table.program_tools(find_program())
        quick = [it for it in sets.published() if len(it.gates) < 30]
        rows = [table.measured(circuit, those, 60) for circuit in quick]
        self.assertGreater(len(rows), 6)
        made = table.tables(rows)
        for name in ("T", "gates"):
            told, wanted = cells(placed(name)), cells(made[name])
            self.assertEqual({place: told.get(place, "") for place in wanted}, wanted)


class Picture(unittest.TestCase):
    """README's picture of a circuit before and after."""

    def test_it_shows_what_the_program_writes(self) -> None:
        """`python3 -m benchmarks picture` draws it again where the program has changed."""
        text = (TOP / picture.EXAMPLE).read_text(encoding="utf-8")
        drawn = (TOP / picture.DOCUMENT).read_text(encoding="utf-8")
        self.assertEqual(drawn, picture.picture(text))
        for title, circuit in ("read", text), ("written by opt --best", zxopt.optimise(text)):
            counts = zxopt.measures(circuit)
            self.assertIn(f"{title}: {counts.t_count} T, {counts.two_qubit} CX and CZ", drawn)


class Tables(unittest.TestCase):
    """A table of rows whose numbers are told here."""

    def row(self) -> table.Row:
        read, written = Measures(5, 1_045, 21, 11, 30, 18, 0, 0), Measures(5, 43, 15, 12, 20, 18, 0, 0)
        return table.Row(families.tof(3), {table.READ: read, table.OPT: written}, {table.OPT: Ran("", 1.996, 9.96)})

    def test_what_failed_is_a_dash(self) -> None:
        got = cells(table.tables([self.row()])["T"])
        want = {"read": "21", "by `opt`": "15", "by `opt --best`": "-", "by `teleport`": "-", "published": "15"}
        self.assertEqual({by: cell for (_, label, by), cell in got.items() if label == "T"}, want)

    def test_numbers(self) -> None:
        made = table.tables([self.row()])
        self.assertEqual(cells(made["gates"])["tof_3", "gates", "read"], "1,045")
        self.assertEqual(cells(made["seconds"])["tof_3", "seconds", "by `opt`"], "2.0")
        self.assertEqual(cells(made["seconds"])["tof_3", "MB", "by `opt`"], "10")

    def test_another_tool_has_columns(self) -> None:
        row = self.row()
        row.counts["by copy"] = row.counts[table.READ]
        got = cells(table.tables([row], ["by copy"])["T"])
        self.assertEqual((got["tof_3", "T", "by copy"], got["tof_3", "T-depth", "by copy"]), ("21", "11"))

    def test_shares(self) -> None:
        """The median of three circuits, of which one has no T."""
        rows = []
        for t, left, gates in ((20, 10, 30), (30, 9, 40), (0, 0, 10)):
            read, written = Measures(5, 40, t, t, 40, 0, 0, 0), Measures(5, gates, left, t, 40, 0, 0, 0)
            rows.append(table.Row(families.tof(3), {table.READ: read, table.BEST: written}, {}))
        made = table.tables(rows)
        told = "| by `opt --best` | 0.40 (0.30 to 0.50) | 1.00 (1.00 to 1.00) | - | 0.75 (0.25 to 1.00) |"
        self.assertIn(told, made["shares"])
        self.assertIn("| by `opt` | - | - | - | - |", made["shares"])
        self.assertIn("leaves a median of 0.40 (0.30 to 0.50) of the T gates.", " ".join(made["short"].split()))

    def test_replaced(self) -> None:
        text = "a\n<!-- table T of benchmarks -->\nold\nrows\n<!-- end of table T -->\nb\n"
        want = "a\n<!-- table T of benchmarks -->\nnew\n<!-- end of table T -->\nb\n"
        self.assertEqual(table.replaced(text, "T", "new\n"), want)
        self.assertEqual((table.placed(text, "T"), table.placed(want, "T")), ("old\nrows\n", "new\n"))
        for missing in ("", text.replace("end of", ""), text + text):
            with self.assertRaises(ValueError):
                table.replaced(missing, "T", "new\n")


class Command(InRoom):
    """`python3 -m benchmarks table`, with a program that copies what it reads."""

    def setUp(self) -> None:
        super().setUp()
        self.program = self.stand_in("cat")
        for name, document in table.DOCUMENTS.items():
            file = self.room / document
            before = file.read_text(encoding="utf-8") if file.is_file() else ""
            self.write(document, f"{before}<!-- table {name} of benchmarks -->\n<!-- end of table {name} -->\n")

    def run_command(self, *words: str) -> Tuple[int, str]:
        """Its exit status and output in the room, where the tables have two circuits."""
        said = io.StringIO()
        with mock.patch.multiple(commands, TOP=self.room, IN_TABLES=("tof_10", "aqft_3")):
            with mock.patch.multiple("sys", stdout=said, stderr=said):
                return commands.main(["table", "--program", self.program, *words]), said.getvalue()

    def test_write(self) -> None:
        self.assertEqual(self.run_command("--write"), (0, "tof_10\naqft_3\n"))
        readme = (self.room / "README.md").read_text(encoding="utf-8")
        self.assertEqual(cells(table.placed(readme, "short"))["tof_10", "gates", "by `opt --best`"], "255")
        performance = (self.room / "docs/PERFORMANCE.md").read_text(encoding="utf-8")
        self.assertEqual(cells(table.placed(performance, "T"))["aqft_3", "T", "by `teleport`"], "9")

    def test_a_place_that_is_missing_is_told_before_anything_is_measured(self) -> None:
        self.write("README.md", "")
        said = "benchmarks: the document has no place for the table short\n"
        self.assertEqual(self.run_command("--write"), (1, said))

    def test_print(self) -> None:
        status, said = self.run_command("barenco_tof_3", "--tool", "nothing=false")
        self.assertEqual(status, 0)
        self.assertTrue(said.startswith("barenco_tof_3, nothing by nothing\nshort\n\n| Circuit |"), said)
        self.assertIn("| `barenco_tof_3` | 5 | 28 | 28 | 28 | 28 | - | 16 |", said)

    def test_refused(self) -> None:
        said = "benchmarks: --write renews whole tables, so it takes no names\n"
        self.assertEqual(self.run_command("--write", "tof_3"), (1, said))
        said = "benchmarks: there is no program missing\n"
        self.assertEqual(self.run_command("tof_3", "--tool", "it=missing"), (1, said))
        for words in (("--tool", "name"), ("--tool", "name="), ("--seconds", "0"), ("--seconds", "1.5")):
            with self.assertRaises(SystemExit):
                self.run_command(*words)


class Tools(InRoom):
    """Programs that stand in for other tools."""

    TEXT = "OPENQASM 2.0;\nqreg q[1];\n"

    def test_standard_streams(self) -> None:
        ran = tools.run(Tool("copy", ["cat"]), self.TEXT, 10)
        self.assertEqual(ran and ran.text, self.TEXT)

    def test_files(self) -> None:
        copy = self.stand_in('[ "$1" = -i ] && cat "$2" >"${3#--to=}"; echo no circuit')
        ran = tools.run(Tool("copy", [copy, "-i", "{read}", "--to={written}"]), self.TEXT, 10)
        self.assertEqual(ran and ran.text, self.TEXT)

    def test_what_it_took(self) -> None:
        """A tool that holds 30 MB, and computes."""
        words = [sys.executable, "-S", "-c", "held = b'x' * 30_000_000; sum(range(3_000_000))"]
        ran = tools.run(Tool("holds", words), self.TEXT, 10)
        assert ran is not None
        self.assertGreater(ran.seconds, 0.02)
        if ran.megabytes is not None:
            self.assertTrue(30 < ran.megabytes < 60, ran.megabytes)

    def test_failures(self) -> None:
        self.assertIsNone(tools.run(Tool("fails", ["false"]), self.TEXT, 10))
        self.assertIsNone(tools.run(Tool("writes nothing", ["true", "{written}"]), self.TEXT, 10))
        self.assertIsNone(tools.run(Tool("loops", ["bash", "-c", "while :; do :; done"]), self.TEXT, 1))
        with self.assertRaises(FileNotFoundError):
            tools.run(Tool("missing", [str(self.room / "missing")]), self.TEXT, 10)

    def test_installed(self) -> None:
        """A program of a tool's name on the path is taken."""
        self.stand_in("exit 1", "feynopt")
        with mock.patch.dict("os.environ", PATH=str(self.room)):
            self.assertIn("by Feynman", [tool.name for tool in tools.installed()])
            self.assertNotIn("by quizx", [tool.name for tool in tools.installed()])


if __name__ == "__main__":
    unittest.main()
