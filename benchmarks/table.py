"""The tables of what the program makes of the benchmark circuits, in Markdown."""
from __future__ import annotations

import textwrap
from functools import partial
from statistics import median
from typing import Any, Callable, Dict, List, NamedTuple, Sequence, Tuple

from zxopt.counting import Measures, measures

from .circuit import Circuit
from .sets import PUBLISHED_T
from .tools import Ran, Tool, run

__all__ = [
    "BEST",
    "COUNTS",
    "DOCUMENTS",
    "OPT",
    "READ",
    "Row",
    "SHORT",
    "TELEPORT",
    "measured",
    "placed",
    "program_tools",
    "replaced",
    "tables",
]

READ = "read"
OPT, BEST, TELEPORT = "by `opt`", "by `opt --best`", "by `teleport`"

# The document in which each table stands, by the table's name.
DOCUMENTS = {
    "short": "README.md",
    "shares": "docs/PERFORMANCE.md",
    "T": "docs/PERFORMANCE.md",
    "gates": "docs/PERFORMANCE.md",
    "seconds": "docs/PERFORMANCE.md",
}

# What is counted, by its label: the fields of `Measures`.
COUNTS = {"T": "t_count", "T-depth": "t_depth", "CX, CZ": "two_qubit", "gates": "gates"}

# The circuits of the short table, with what they are.
SHORT = {
    "tof_10": "a NOT with 10 controls",
    "barenco_tof_10": "on any ancillas",
    "vbe_adder_3": "an adder of 3 bits",
    "rc_adder_6": "an adder of 6 bits",
    "gf2_8_mult": "a multiplier in GF(2^8)",
    "random_50_10000": "random gates",
}


class Row(NamedTuple):
    """A circuit with the counts of the text that is read and of what each tool wrote, and with what each tool took.

    Both are by the tool's name, and the counts of the text that is read by `READ`. A tool that failed is missing, and
    so is one whose text can't be counted.
    """

    circuit: Circuit
    counts: Dict[str, Measures]
    used: Dict[str, Ran]


class Column(NamedTuple):
    """A column: its head, and the cell of what a row is about."""

    head: str
    cell: Callable[[Any], str]


def program_tools(program: str) -> List[Tool]:
    """The program's commands that write a circuit for a circuit."""
    return [Tool(OPT, [program, "opt"]), Tool(BEST, [program, "opt", "--best"]), Tool(TELEPORT, [program, "teleport"])]


def measured(circuit: Circuit, tools: Sequence[Tool], seconds: int) -> Row:
    """Runs tools on a circuit, each for at most so many seconds of processor time."""
    text = circuit.text()
    row = Row(circuit, {READ: measures(text)}, {})
    for tool in tools:
        ran = run(tool, text, seconds)
        if ran is None:
            continue
        try:
            row.counts[tool.name] = measures(ran.text)
        except ValueError:
            continue
        row.used[tool.name] = ran._replace(text="")
    return row


def tables(rows: Sequence[Row], others: Sequence[str] = ()) -> Dict[str, str]:
    """The tables by their names, with columns for other tools of these names. Behind the short one stands a summary."""
    tools = [OPT, BEST, TELEPORT, *others]
    shares = [Column("Part of what was read that is left", str)]
    shares += [Column(label, partial(_share, rows, label)) for label in COUNTS]
    qubits = Column("Qubits", lambda row: f"{row.circuit.width:,}")
    t, t_depth, pairs, gates = (_counts(label, [READ, *tools]) for label in COUNTS)
    name = Column("Circuit", lambda row: f"`{row.circuit.name}`")
    return {
        "short": _table(_short_columns(), [row for row in rows if row.circuit.name in SHORT]) + "\n" + _summary(rows),
        "shares": _table(shares, tools),
        "T": _table([name, qubits, *t, _PUBLISHED, *t_depth], rows),
        "gates": _table([name, *pairs, *gates], rows),
        "seconds": _table([name, *_used("seconds", _seconds, tools), *_used("MB", _megabytes, tools)], rows),
    }


def placed(document: str, name: str) -> str:
    """The table of this name as it stands in a document. ValueError as `replaced` has it."""
    return _parted(document, name)[1]


def replaced(document: str, name: str, table: str) -> str:
    """A document with a table in the place of the one of this name, which stands between two comments. ValueError where
    these are missing, or stand there twice."""
    before, _, behind = _parted(document, name)
    return before + table + behind


def _parted(document: str, name: str) -> Tuple[str, str, str]:
    """What stands before a table, the table, and what stands behind."""
    begin, end = f"<!-- table {name} of benchmarks -->\n", f"<!-- end of table {name} -->\n"
    before, is_begun, rest = document.partition(begin)
    table, is_ended, behind = rest.partition(end)
    if not is_begun or not is_ended or begin in behind:
        raise ValueError(f"the document has no place for the table {name}")
    return before + begin, table, end + behind


# -- columns ----------------------------------------------------------------------------------------------------------


_PUBLISHED = Column("published", lambda row: str(PUBLISHED_T.get(row.circuit.name, "-")))


def _short_columns() -> List[Column]:
    """Of the short table, whose lines have to stay short, too."""
    t, t_depth = _counts("T", [READ, OPT, BEST]), _counts("T-depth", [READ, BEST])
    pairs, gates = _counts("CX, CZ", [READ, OPT, BEST]), _counts("gates", [READ, BEST])
    name = Column("Circuit", lambda row: f"`{row.circuit.name}`, {SHORT[row.circuit.name]}")
    return [name, *(it._replace(head=_short_head(it.head)) for it in (*t, _PUBLISHED, *t_depth, *pairs, *gates))]


def _short_head(head: str) -> str:
    return head.replace("by `opt --best`", "`--best`").replace("by `", "`").replace(f" {READ}", "")


def _counts(label: str, names: Sequence[str]) -> List[Column]:
    """A column of a count for each of these texts. Its label stands in the first column's head."""

    def column(name: str, head: str) -> Column:
        return Column(head, lambda row: f"{_count(row, name, label):,}" if name in row.counts else "-")

    return [column(name, name if at else f"{label} {name}") for at, name in enumerate(names)]


def _count(row: Row, name: str, label: str) -> int:
    return int(getattr(row.counts[name], COUNTS[label]))


def _used(label: str, cell: Callable[[Ran], str], names: Sequence[str]) -> List[Column]:
    """A column of what each of these tools took."""

    def column(name: str, head: str) -> Column:
        return Column(head, lambda row: cell(row.used[name]) if name in row.used else "-")

    return [column(name, name if at else f"{label} {name}") for at, name in enumerate(names)]


def _seconds(ran: Ran) -> str:
    return f"{ran.seconds:.2f}" if ran.seconds < 1.995 else f"{ran.seconds:.1f}"


def _megabytes(ran: Ran) -> str:
    if ran.megabytes is None:
        return "-"
    return f"{ran.megabytes:.1f}" if ran.megabytes < 9.95 else f"{ran.megabytes:.0f}"


def _table(columns: Sequence[Column], rows: Sequence[Any]) -> str:
    head, *lines = [[column.head for column in columns], *([column.cell(row) for column in columns] for row in rows)]
    rule = f"|{'---|' * len(columns)}\n"
    return "".join([_line(head), rule, *map(_line, lines)])


def _line(cells: Sequence[str]) -> str:
    return f"| {' | '.join(cells)} |\n"


# -- shares -----------------------------------------------------------------------------------------------------------


def _share(rows: Sequence[Row], label: str, name: str) -> str:
    """The part of a count that a tool leaves: the median over circuits that have some, the least and the greatest."""
    counted = [row for row in rows if name in row.counts and _count(row, READ, label)]
    parts = [_count(row, name, label) / _count(row, READ, label) for row in counted]
    return f"{median(parts):.2f} ({min(parts):.2f} to {max(parts):.2f})" if parts else "-"


def _summary(rows: Sequence[Row]) -> str:
    """The parts that `opt --best` leaves of each count, in words."""
    t, t_depth, pairs, gates = (_share(rows, label, BEST) for label in COUNTS)
    said = (
        f"Over the {len(rows)} circuits in [PERFORMANCE](docs/PERFORMANCE.md), `opt --best` leaves a median of {t} of "
        f"the T gates. Of T-depth it leaves {t_depth}, of CX and CZ {pairs}, of all gates {gates}."
    )
    return textwrap.fill(said, 120, break_long_words=False, break_on_hyphens=False) + "\n"
