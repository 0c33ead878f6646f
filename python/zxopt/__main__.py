"""The commands of `python3 -m zxopt`. Each one imports what it needs alone."""
from __future__ import annotations

import argparse
import importlib
import json
import os
import sys
from dataclasses import asdict
from typing import Callable, Dict, Optional, Sequence, Tuple

from . import arguments, cli
from .program import CALLED

_ABOUT = """\
usage: python3 -m zxopt COMMAND .. [FILE | < FILE]      (COMMAND --help tells its words)

  opt [FILE]               optimises a text: fewer T gates, the same linear map up to a nonzero scalar
  teleport [FILE]          changes phases alone
  same FILE FILE           says whether it can show that two texts have one map; exit status 6 where it can't
  counts [FILE]            tells the counts of gates before and after as JSON
  measures FILE..          tells T-count, T-depth, depth and gates of texts as they are written
  spell [FILE]             writes what the program wrote by other gates: --only-t or --by-cx
  prepare [FILE]           puts a text of the usual tools into the form that the program reads
  parts [FILE]             optimises what can be of a text that the program refuses for a statement
  batch FILE.. --to FOLDER optimises many files on all processors
  stream FILE --to FILE    optimises a text of any size in constant memory, and goes on where it was interrupted
  compile [FILE]           writes a circuit for a diagram file
  graph [FILE]             writes a diagram file's graph-like form
  flow [FILE]              says whether the table of a graph file is a flow; exit status 6 where it isn't
  reduce [FILE]            writes a graph file, simplified along its flow

`opt` makes one circuit unless --best is given, as the program does. `counts`, `parts` and `batch` take the best of
several circuits unless --no-best is given.

  python3 -m zxopt opt --best read.qasm --to written.qasm
  python3 -m zxopt prepare read.qasm | python3 -m zxopt parts > written.qasm
  python3 -m zxopt --version           which program this runs

This package stands outside of the proved program `zxopt`, and runs it: what is proved is about the text that the
program reads and the text that it writes. The manual page zxopt(1) is the program's: man -l docs/zxopt.1 in a clone.
"""


def main(argv: Optional[Sequence[str]] = None) -> int:
    """Runs a command with its words, and answers its exit status. Wrong words end the interpreter with status 2."""
    words = list(sys.argv[1:] if argv is None else argv)
    if os.environ.get(CALLED):
        print("zxopt: the program would be this command itself; set ZXOPT to the program's file", file=sys.stderr)
        return cli.UNABLE
    if words == ["--version"]:
        return cli.guarded(_version)
    if not words or words[0] in ("-h", "--help", "help"):
        about = _ABOUT.replace("python3 -m zxopt", arguments.called())
        print(about, end="", file=sys.stdout if words else sys.stderr)
        return 0 if words else 2
    command, rest = words[0], words[1:]
    if command not in (*_COMMANDS, *_MODULES):
        print(f"zxopt: {command} is no command; {arguments.called()} --help tells them", file=sys.stderr)
        return 2
    asked = parser_of(command).parse_args(rest)
    file = getattr(asked, "file", None)
    return cli.guarded(lambda: _described(command)[1](asked), f"zxopt {command}", file if file != "-" else None)


def _version() -> int:
    from .identity import version

    print(version())
    return 0


def parser_of(command: str) -> argparse.ArgumentParser:
    """The parser of a command's words. Raises KeyError where there is no such command."""
    return _described(command)[0](command)


def _described(command: str) -> _Command:
    """What makes the parser of a command, and does its work."""
    if command in _COMMANDS:
        return _COMMANDS[command]
    module = importlib.import_module(f"zxopt.{_MODULES[command]}")
    return module.command_parser, module.command


def _opt_parser(command: str) -> argparse.ArgumentParser:
    about = "Optimises a text of OpenQASM 2.0. Where a time limit is met with --best, `teleport` takes it in windows."
    parser = arguments.writes_one(arguments.parser(command, about))
    arguments.spellings(arguments.takes_seconds(arguments.takes_best(parser, False)))
    parser.add_argument("--report", action="store_true", help="add the counts of gates as two comment lines")
    parser.add_argument("--scalar", action="store_true", help="add the scalar between both maps as a comment line")
    return parser


def _opt(asked: argparse.Namespace) -> int:
    from .commands import optimise

    text = cli.read_text(asked.file)

    def made(best: bool) -> str:
        return optimise(text, best, report=asked.report, scalar=asked.scalar, timeout=asked.seconds)

    try:
        written = made(asked.best)
    except TimeoutError as late:
        if not asked.best or asked.scalar:
            raise
        print(f"zxopt opt: {late}; teleport in windows:", file=sys.stderr)
        written = _in_windows(text, asked)
    cli.write_text(_respelled(written, asked.spelled), asked.to)
    return 0


def _in_windows(text: bytes, asked: argparse.Namespace) -> str:
    """What `opt` writes where the best circuit takes too long: two-qubit gates don't become more by that."""
    from .parts import teleport_in_windows
    from .windows import report

    made = teleport_in_windows(text, timeout=asked.seconds)
    for it in made.late:
        print(f"zxopt opt: {it}", file=sys.stderr)
    return made.text + (report(made.counts) if asked.report else "")


def _teleport_parser(command: str) -> argparse.ArgumentParser:
    about = "Writes the circuit of a text of OpenQASM 2.0 with other phases alone."
    parser = _takes_a_text(command, about)
    arguments.spellings(parser)
    return parser


def _teleport(asked: argparse.Namespace) -> int:
    from .commands import teleport

    written = teleport(cli.read_text(asked.file), timeout=asked.seconds)
    cli.write_text(_respelled(written, asked.spelled), asked.to)
    return 0


def _same_parser(command: str) -> argparse.ArgumentParser:
    about = (
        "Says `same` where the program shows that two texts have one map, which is always right; `widths` or "
        "`measures` where they differ for sure; and else `not shown`."
    )
    parser = arguments.parser(command, about)
    parser.add_argument("one", metavar="FILE", help="a file; - for standard input")
    parser.add_argument("other", metavar="FILE", help="another")
    return arguments.takes_seconds(parser)


def _same(asked: argparse.Namespace) -> int:
    from .commands import same

    found = same(cli.read_text(asked.one), cli.read_text(asked.other), timeout=asked.seconds)
    print(found)
    return 0 if found else cli.NO


def _counts_parser(command: str) -> argparse.ArgumentParser:
    about = "Tells the counts of gates of a text, and of what is made of it, as JSON."
    parser = arguments.reads_one(arguments.parser(command, about))
    return arguments.takes_seconds(arguments.takes_best(parser, True))


def _counts(asked: argparse.Namespace) -> int:
    from .commands import counts

    print(json.dumps(asdict(counts(cli.read_text(asked.file), asked.best, timeout=asked.seconds)), indent=4))
    return 0


def _spell_parser(command: str) -> argparse.ArgumentParser:
    parser = arguments.writes_one(arguments.parser(command, "Writes by other gates what the program wrote."))
    arguments.spellings(parser, True)
    return parser


def _spell(asked: argparse.Namespace) -> int:
    cli.write_text(_respelled(cli.read_text(asked.file).decode("utf-8"), asked.spelled), asked.to)
    return 0


def _respelled(text: str, spelled: Optional[str]) -> str:
    from .spelling import by_cx, only_t

    return {"only-t": only_t, "by-cx": by_cx}[spelled](text) if spelled else text


def _takes_a_text(command: str, about: str) -> argparse.ArgumentParser:
    """The parser of a command that reads one text, writes one, and may have a time limit."""
    return arguments.takes_seconds(arguments.writes_one(arguments.parser(command, about)))


def _compile_parser(command: str) -> argparse.ArgumentParser:
    return _takes_a_text(command, "Writes a circuit for a diagram file, where it has a flow.")


def _graph_parser(command: str) -> argparse.ArgumentParser:
    return _takes_a_text(command, "Writes the graph-like form of a diagram file.")


def _reduce_parser(command: str) -> argparse.ArgumentParser:
    return _takes_a_text(command, "Writes a graph file, simplified along its flow until it is reduced.")


def _of_diagram(name: str) -> Callable[[argparse.Namespace], int]:
    """The work of a command that makes one text of another by the function of this name."""

    def work(asked: argparse.Namespace) -> int:
        make: Callable[..., str] = getattr(importlib.import_module("zxopt.commands"), name)
        cli.write_text(make(cli.read_text(asked.file), timeout=asked.seconds), asked.to)
        return 0

    return work


def _flow_parser(command: str) -> argparse.ArgumentParser:
    about = "Says `flow` where the table of a graph file is a flow, and else the first condition that fails."
    return arguments.takes_seconds(arguments.reads_one(arguments.parser(command, about)))


def _flow(asked: argparse.Namespace) -> int:
    from .commands import flow

    found = flow(cli.read_text(asked.file), timeout=asked.seconds)
    print(found)
    return 0 if found else cli.NO


_Command = Tuple[Callable[[str], argparse.ArgumentParser], Callable[[argparse.Namespace], int]]

_COMMANDS: Dict[str, _Command] = {
    "opt": (_opt_parser, _opt),
    "teleport": (_teleport_parser, _teleport),
    "same": (_same_parser, _same),
    "counts": (_counts_parser, _counts),
    "spell": (_spell_parser, _spell),
    "compile": (_compile_parser, _of_diagram("compile")),
    "graph": (_graph_parser, _of_diagram("graph")),
    "reduce": (_reduce_parser, _of_diagram("reduce")),
    "flow": (_flow_parser, _flow),
}

# Commands with a module of their own, which has `command_parser` and `command`.
_MODULES = {"measures": "counting", "prepare": "prepare", "parts": "parts", "batch": "batch", "stream": "stream"}

if __name__ == "__main__":
    sys.exit(main())
