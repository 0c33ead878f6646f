"""The command `zxopt` that pip installs.

Where its words are some that the program takes, this process becomes the program, so what comes out and the exit status
are the program's. All else is a command of `python3 -m zxopt`, which takes files besides.
"""
from __future__ import annotations

import os
import signal
import sys

from . import __main__, cli
from .program import CALLED, find_program

# The program's commands and flags; `--` may end the flags.
_PROGRAM_COMMANDS = frozenset("opt teleport same compile graph reduce flow gen".split())
_PROGRAM_FLAGS = frozenset(("--best", "--report", "--scalar", "--"))


def main() -> int:
    """Runs the command with the words of this process, and answers its exit status."""
    command, *rest = sys.argv[1:] or [""]
    if os.environ.get(CALLED) or command not in _PROGRAM_COMMANDS:
        return __main__.main()
    if command == "gen" or _PROGRAM_FLAGS.issuperset(rest):
        return cli.guarded(_become_program)
    return __main__.main()


def _become_program() -> int:
    """Runs the program in the place of this process, with its words."""
    words = sys.argv[1:]
    if words[0] != "gen":
        cli.tell_terminal()
    program = find_program()
    for ignored in (signal.SIGPIPE, signal.SIGXFSZ):  # by the interpreter
        signal.signal(ignored, signal.SIG_DFL)
    os.environ[CALLED] = "1"
    os.execvp(program, [program, *words])
