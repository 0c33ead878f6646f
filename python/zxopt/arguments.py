"""The parser of arguments: what several commands take is named, read and refused alike.

Wrong words end the interpreter with status 2, and a line tells why.
"""
from __future__ import annotations

import argparse
import os
import sys
from math import inf

__all__ = [
    "called",
    "distance",
    "function_of_module",
    "parser",
    "positive_int",
    "positive_seconds",
    "reads_one",
    "spellings",
    "takes_best",
    "takes_executor",
    "takes_jobs",
    "takes_seconds",
    "takes_within",
    "writes_one",
]

# How many tasks an executor has at most, unless it is told.
AHEAD = 64


def called() -> str:
    """How this command is called: by the name that pip installs, or as a module of the interpreter."""
    return "zxopt" if os.path.basename(sys.argv[0] or "") == "zxopt" else "python3 -m zxopt"


def parser(command: str, about: str, epilog: str = "") -> argparse.ArgumentParser:
    """The parser of a command's words."""
    return argparse.ArgumentParser(prog=f"{called()} {command}", description=about, epilog=epilog)


def reads_one(parser: argparse.ArgumentParser) -> argparse.ArgumentParser:
    """A command that reads one text."""
    parser.add_argument("file", nargs="?", metavar="FILE", help="what is read; else standard input")
    return parser


def writes_one(parser: argparse.ArgumentParser) -> argparse.ArgumentParser:
    """A command that reads one text and writes one."""
    reads_one(parser).add_argument("--to", metavar="FILE", help="what is written; else standard output")
    return parser


def takes_best(parser: argparse.ArgumentParser, default: bool) -> argparse.ArgumentParser:
    """A command that may take the best of several circuits, and does so unless it is told, or where it is told."""
    told = "take the best of several circuits in place of one" + (", as is done unless --no-best" if default else "")
    parser.add_argument("--best", action="store_true", default=default, help=told)
    parser.add_argument("--no-best", dest="best", action="store_false", help="make one circuit")
    return parser


def takes_seconds(parser: argparse.ArgumentParser, told: str = "a time limit") -> argparse.ArgumentParser:
    """A command with a time limit."""
    parser.add_argument("--seconds", type=positive_seconds, metavar="N", help=told)
    return parser


def takes_jobs(parser: argparse.ArgumentParser, what: str) -> argparse.ArgumentParser:
    """A command that works on many things side by side."""
    told = f"how many {what} at a time; else one for each processor"
    parser.add_argument("--jobs", type=positive_int, metavar="N", help=told)
    return parser


def takes_executor(parser: argparse.ArgumentParser, what: str) -> argparse.ArgumentParser:
    """A command whose work other machines may do, by `zxopt.executors`."""
    either = parser.add_mutually_exclusive_group()
    told = "let the workers of this scheduler of Dask do it: tcp://HOST:PORT"
    either.add_argument("--dask", metavar="ADDRESS", help=told)
    told = "let the concurrent.futures.Executor do it that this function answers"
    either.add_argument("--executor", type=function_of_module, metavar="MODULE:FUNCTION", help=told)
    told = f"how many {what} these have at most; else {AHEAD}"
    parser.add_argument("--ahead", type=positive_int, default=AHEAD, metavar="N", help=told)
    return parser


def takes_within(parser: argparse.ArgumentParser) -> argparse.ArgumentParser:
    """A command that may round angles."""
    told = "take angles that lie so close to a multiple of pi/8 for it (1e-9, say); the greatest move is told"
    parser.add_argument("--within", type=distance, metavar="RADIANS", help=told)
    return parser


def spellings(parser: argparse.ArgumentParser, required: bool = False) -> argparse._MutuallyExclusiveGroup:
    """A command that may write by other gates; answers the group of these words, one of which may stand."""
    either = parser.add_mutually_exclusive_group(required=required)
    for name, told in (("only-t", "write u1(3*pi/4) as s and t, and the like"), ("by-cx", "write by U and CX alone")):
        either.add_argument(f"--{name}", dest="spelled", action="store_const", const=name, help=told)
    return either


def function_of_module(word: str) -> str:
    """A function by its module and its name."""
    module, _, function = word.partition(":")
    if not (all(it.isidentifier() for it in module.split(".")) and function.isidentifier()):
        raise argparse.ArgumentTypeError(f"{word} isn't MODULE:FUNCTION")
    return word


def positive_int(word: str) -> int:
    """A whole number above 0."""
    number = int(word)
    if number < 1:
        raise argparse.ArgumentTypeError(f"{word} isn't above 0")
    return number


def positive_seconds(word: str) -> float:
    """A number of seconds above 0."""
    number = float(word)
    if not 0 < number < inf:
        raise argparse.ArgumentTypeError(f"{word} isn't above 0, or isn't a number of seconds")
    return number


def distance(word: str) -> float:
    """A distance of angles in radians, from 0 to 0.1."""
    from .prepare import GREATEST_WITHIN

    number = float(word)
    if not 0 <= number <= GREATEST_WITHIN:
        raise argparse.ArgumentTypeError(f"{word} isn't from 0 to {GREATEST_WITHIN}")
    return number
