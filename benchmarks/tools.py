"""Runs programs that optimise circuits, each in a process of its own, and tells what that took."""
from __future__ import annotations

import importlib.util
import resource
import shutil
import subprocess
import sys
import tempfile
from pathlib import Path
from typing import Callable, List, NamedTuple, Optional, Sequence

__all__ = ["Ran", "Tool", "installed", "run"]


class Tool(NamedTuple):
    """A program that reads a circuit and writes another.

    command: its words, in which `{read}` and `{written}` stand for files. Without `{read}` the circuit goes to standard
    input, and without `{written}` the other one comes from standard output.
    """

    name: str
    command: Sequence[str]


class Ran(NamedTuple):
    """What a tool wrote, its seconds of user time, and the most megabytes that it had, None where that isn't known."""

    text: str
    seconds: float
    megabytes: Optional[float]


# The diagram is simplified, a circuit is extracted, and its gates are optimised.
_PYZX = """
import sys
import pyzx
graph = pyzx.Circuit.load(sys.argv[1]).to_graph()
pyzx.full_reduce(graph)
circuit = pyzx.optimize.basic_optimization(pyzx.extract_circuit(graph).to_basic_gates())
open(sys.argv[2], "w").write(circuit.to_basic_gates().to_qasm())
"""

# Other tools, by the module or program that shows that they are installed.
_OTHERS = {
    "pyzx": Tool("by PyZX", [sys.executable, "-c", _PYZX, "{read}", "{written}"]),
    "quizx": Tool("by quizx", ["quizx", "opt", "{read}", "-o", "{written}"]),
    "voqc": Tool("by VOQC", ["voqc", "-i", "{read}", "-o", "{written}"]),
    "feynopt": Tool("by Feynman", ["feynopt", "-O2", "{read}"]),
}


def installed() -> List[Tool]:
    """Those of PyZX, quizx, VOQC and Feynman that are installed."""
    return [tool for name, tool in _OTHERS.items() if shutil.which(name) or _is_module(name, tool)]


def _is_module(name: str, tool: Tool) -> bool:
    return tool.command[0] == sys.executable and importlib.util.find_spec(name) is not None


def run(tool: Tool, text: str, seconds: int) -> Optional[Ran]:
    """Runs a tool on a text; None where it failed, or took more than so many seconds of processor time.

    Memory is told where GNU `time` is installed. FileNotFoundError where the tool isn't there.
    """
    if shutil.which(tool.command[0]) is None:
        raise FileNotFoundError(f"there is no program {tool.command[0]}")
    with tempfile.TemporaryDirectory() as folder:
        read, written, clock = (Path(folder, name) for name in ("read.qasm", "written.qasm", "clock"))
        read.write_text(text, encoding="utf-8")
        words = [word.replace("{read}", str(read)).replace("{written}", str(written)) for word in tool.command]
        to_file = any("{written}" in word for word in tool.command)
        took = _timed(words, read, Path(folder, "output") if to_file else written, clock, seconds)
        if took is None or not written.is_file():
            return None
        return took._replace(text=written.read_text(encoding="utf-8", errors="replace"))


def _timed(words: List[str], source: Path, sink: Path, clock: Path, seconds: int) -> Optional[Ran]:
    """Runs these words from one file to another, and tells what that took."""
    timer = shutil.which("time")
    if timer is not None:
        words = [timer, "-f", "%U %M", "-o", str(clock), *words]
    before = _user_seconds()
    with open(source, "rb") as reader, open(sink, "wb") as writer:
        ended = subprocess.run(
            words, stdin=reader, stdout=writer, stderr=subprocess.DEVNULL, preexec_fn=_limit(seconds)
        )
    if ended.returncode != 0:
        return None
    if timer is None:
        return Ran("", _user_seconds() - before, None)
    user, kibibytes = clock.read_text(encoding="utf-8").split()
    return Ran("", float(user), int(kibibytes) / 1024)


def _user_seconds() -> float:
    """The user time of all processes that were run from here and have ended."""
    return resource.getrusage(resource.RUSAGE_CHILDREN).ru_utime


def _limit(seconds: int) -> Callable[[], None]:
    """What a process does before it begins, so that it ends after so many seconds of processor time."""
    return lambda: resource.setrlimit(resource.RLIMIT_CPU, (seconds, seconds))
