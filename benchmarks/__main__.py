"""The commands of the benchmarks: `python3 -m benchmarks generate`, `table` and `picture`."""
from __future__ import annotations

import argparse
import shlex
import sys
from pathlib import Path
from typing import List, Optional, Sequence

TOP = Path(__file__).resolve().parents[1]
sys.path.insert(0, str(TOP / "python"))  # the package zxopt need not be installed

from zxopt import find_program  # noqa: E402

from . import picture, table  # noqa: E402
from .circuit import Circuit  # noqa: E402
from .sets import IN_TABLES, SETS, multipliers, named  # noqa: E402
from .tools import Tool, installed  # noqa: E402


def main(arguments: Optional[Sequence[str]] = None) -> int:
    """Runs the command that these words ask for, and answers its exit status."""
    parser = argparse.ArgumentParser(prog="python3 -m benchmarks", description=__doc__)
    commands = parser.add_subparsers(dest="command", required=True)

    generate = commands.add_parser("generate", help="write the circuits as OpenQASM 2.0")
    generate.add_argument("folder", type=Path)
    generate.add_argument("names", nargs="*", metavar="NAME", help=f"a circuit or a set ({', '.join(SETS)})")
    generate.add_argument("--order", type=int, metavar="SEED",
                          help="the multipliers alone, their Toffoli gates in an order drawn by this seed")  # fmt: skip
    generate.set_defaults(run=_generate)

    tabulate = commands.add_parser("table", help="measure, and print the tables")
    tabulate.add_argument("names", nargs="*", metavar="NAME", help=f"a circuit or a set ({', '.join(IN_TABLES)})")
    tabulate.add_argument("--program", help="the program, in place of the one of this clone")
    tabulate.add_argument("--seconds", type=_seconds, default=300, help="the most processor time for a run (300)")
    tabulate.add_argument("--tool", action="append", default=[], type=_tool, metavar="NAME=COMMAND",
                          help="one more tool: `{read}` and `{written}` stand for its files")  # fmt: skip
    tabulate.add_argument("--write", action="store_true", help="put the tables into README.md and docs/PERFORMANCE.md")
    tabulate.set_defaults(run=_tabulate)

    draw = commands.add_parser("picture", help=f"draw {picture.EXAMPLE}, before and after, into {picture.DOCUMENT}")
    draw.set_defaults(run=_draw)

    options = parser.parse_args(arguments)
    try:
        return int(options.run(options))
    except (OSError, ValueError) as error:
        print(f"benchmarks: {error}", file=sys.stderr)
        return 1


def _tool(text: str) -> Tool:
    """A tool that is told on the command line."""
    name, is_told, command = text.partition("=")
    if not is_told or not shlex.split(command):
        raise argparse.ArgumentTypeError(f"{text} is no NAME=COMMAND")
    return Tool(f"by {name}", shlex.split(command))


def _seconds(text: str) -> int:
    """A whole number of seconds from 1 on."""
    if not text.isdecimal() or int(text) < 1:
        raise argparse.ArgumentTypeError(f"{text} is no whole number of seconds from 1 on")
    return int(text)


def _circuits(names: Sequence[str]) -> List[Circuit]:
    return [circuit for name in names for circuit in named(name)]


def _generate(options: argparse.Namespace) -> int:
    if options.order is not None and options.names:
        raise ValueError("--order writes the multipliers, so it takes no names")
    options.folder.mkdir(parents=True, exist_ok=True)
    for circuit in _circuits(options.names or list(SETS)) if options.order is None else multipliers(options.order):
        (options.folder / f"{circuit.name}.qasm").write_text(circuit.text(), encoding="utf-8")
    return 0


def _tabulate(options: argparse.Namespace) -> int:
    if options.write and options.names:
        raise ValueError("--write renews whole tables, so it takes no names")
    for name in table.DOCUMENTS if options.write else ():
        table.placed(_document(name).read_text(encoding="utf-8"), name)
    others = [*installed(), *options.tool]
    tools = [*table.program_tools(options.program or find_program()), *others]
    rows = [_row(circuit, tools, options.seconds) for circuit in _circuits(options.names or IN_TABLES)]
    for name, text in table.tables(rows, [tool.name for tool in others]).items():
        if options.write:
            document = _document(name)
            document.write_text(table.replaced(document.read_text(encoding="utf-8"), name, text), encoding="utf-8")
        else:
            print(f"{name}\n\n{text}")
    return 0


def _draw(options: argparse.Namespace) -> int:
    read = (TOP / picture.EXAMPLE).read_text(encoding="utf-8")
    (TOP / picture.DOCUMENT).write_text(picture.picture(read), encoding="utf-8")
    return 0


def _document(name: str) -> Path:
    """The document in which the table of this name stands."""
    return TOP / table.DOCUMENTS[name]


def _row(circuit: Circuit, tools: Sequence[Tool], seconds: int) -> table.Row:
    """The row of a circuit; a line on standard error tells that it is measured, and which tools failed."""
    row = table.measured(circuit, tools, seconds)
    failed = [f", nothing {tool.name}" for tool in tools if tool.name not in row.used]
    print(circuit.name + "".join(failed), file=sys.stderr)
    return row


if __name__ == "__main__":
    sys.exit(main())
