"""What the commands of `python3 -m zxopt` have in common: texts in and out, and an exit status for each exception.

The statuses are those of the program: 1 where a text is refused, 2 where the words are no command, 4 where standard
output is closed, 5 where memory ran out, 6 where the answer is no, and 70 where the program couldn't be run, took
too long, or a file couldn't be read or written. Where a signal ends a command, no program runs on and no file is left
that has a part of its text; the status is 128 and the signal's number.
"""
from __future__ import annotations

import os
import platform
import re
import signal
import sys
from pathlib import Path
from typing import Callable, Dict, Iterable, Optional, Set, Union

from .commands import FlowFails
from .faults import NoFlow, Refused
from .processes import Stopped, ending_children
from .qasm import QasmError

__all__ = ["guarded", "placed", "read_text", "remove_leftovers", "tell_terminal", "write_file", "write_text"]

# The name of a temporary file: that of the file, a host, a process.
_TEMPORARY = re.compile(r"\.(.+)\.\d+\.new", re.S)

REFUSED, NO_OUTPUT, NO_MEMORY, NO, UNABLE, BY_SIGNAL = 1, 4, 5, 6, 70, 128


def guarded(work: Callable[[], int], name: str = "zxopt", file: Optional[str] = None) -> int:
    """Does some work, and answers its exit status; an exception is told on standard error instead, with its status.

    name: what stands before what is told. file: which text may be refused, by its place.
    """
    if sys.stdout is None:
        return _told(f"{name}: standard output is closed", NO_OUTPUT)
    try:
        with ending_children():
            status = work()
            sys.stdout.flush()
        return status
    except BrokenPipeError:
        # nothing more can be written, not even at the interpreter's end
        os.dup2(os.open(os.devnull, os.O_WRONLY), sys.stdout.fileno())
        return NO_OUTPUT
    except (NoFlow, FlowFails) as no:
        return _told(f"{name}: {no}", NO)
    except ValueError as refused:
        hint = f"\nhint: {refused.hint}" if isinstance(refused, Refused) else ""
        return _told((placed(file, refused) if file else f"{name}: {refused}") + hint, REFUSED)
    except MemoryError as none:
        return _told(str(none) or f"{name}: no memory", NO_MEMORY)
    except OSError as failed:
        return _told(f"{name}: {failed}", UNABLE)
    except KeyboardInterrupt as stopped:
        number = stopped.number if isinstance(stopped, Stopped) else signal.SIGINT
        return _told(f"{name}: ended by {signal.Signals(number).name}", BY_SIGNAL + number)


def read_text(file: Optional[str]) -> bytes:
    """The bytes of a file, or of standard input for None and `-`."""
    if file is None or file == "-":
        if sys.stdin is None:
            raise OSError("standard input is closed")
        tell_terminal()
        return sys.stdin.buffer.read()
    return Path(file).read_bytes()


def tell_terminal() -> None:
    """Tells who sits before a terminal that a text is read from there."""
    if sys.stdin is not None and sys.stdin.isatty():
        print("zxopt: the text is read from this terminal; Ctrl-D in a new line ends it", file=sys.stderr)


def write_text(text: str, file: Optional[str]) -> None:
    """Writes a text as UTF-8 to a file, or to standard output for None and `-`."""
    if file is not None and file != "-":
        write_file(Path(file), text)
    elif hasattr(sys.stdout, "buffer"):
        sys.stdout.buffer.write(text.encode("utf-8", "replace"))
    else:
        sys.stdout.write(text)


def write_file(file: Path, text: str) -> int:
    """Writes a file such that it has all of the text, or stays as it was; answers the number of its bytes."""
    data = text.encode("utf-8", "replace")
    beside = file.with_name(f".{file.name}.{platform.node()[:30]}.{os.getpid()}.new")
    try:
        beside.write_bytes(data)
        os.replace(beside, file)
    except BaseException:
        beside.unlink(missing_ok=True)
        raise
    return len(data)


def remove_leftovers(files: Iterable[Path]) -> None:
    """Removes what `write_file` leaves beside these files where its process is killed."""
    names: Dict[Path, Set[str]] = {}
    for file in files:
        names.setdefault(file.parent, set()).add(file.name)
    for folder, wanted in names.items():
        for found in folder.glob(".*.new"):
            parts = _TEMPORARY.fullmatch(found.name)
            if parts and any(parts[1].startswith(f"{name}.") for name in wanted):
                found.unlink(missing_ok=True)


def placed(file: Union[str, Path], refused: ValueError) -> str:
    """What is told of a text that is refused, as `FILE:LINE:COLUMN: ..` where there is a place."""
    if isinstance(refused, QasmError):
        return f"{file}:{refused.line}: {refused.sentence}"
    is_placed = isinstance(refused, Refused) and refused.where
    return f"{file}:{refused}" if is_placed else f"{file}: {refused}"


def _told(line: str, status: int) -> int:
    print(line, file=sys.stderr)
    return status
