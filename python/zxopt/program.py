"""Runs the program `zxopt`: words and a text in, a text out, and an exception for each way in which that can fail.

Where that can be, a call of the shared library answers the same, in this process. Else no shell stands between; the
text goes to the program's standard input. Calls keep nothing between them, so they may be made from several threads at
once: each that runs the program has a process of its own, and threads wait for theirs side by side.
"""
from __future__ import annotations

import atexit
import os
import shutil
import signal
import subprocess
import tempfile
from functools import lru_cache
from importlib import resources
from pathlib import Path
from threading import Lock
from typing import TYPE_CHECKING, Optional, Sequence, Union

from .faults import FAULTS, WITHOUT_PLACE, Refused
from .processes import CALLED, communicate, ends_children
from .texts import Circuit, Text, as_bytes

if TYPE_CHECKING:
    from .calls import Answer, Library

__all__ = ["CALLED", "Program", "Text", "as_bytes", "find_library", "find_program", "run"]

# A file that can be run, or a name to be looked for on the path.
Program = Union[str, "os.PathLike[str]"]

# The exit statuses of the program that bring an output: all was written, and the answer is no.
_ANSWERS = (0, 6)
_IS_REFUSED = 1
_NO_MEMORY = 5
# Those of the program without words: they are no command, or there is no memory for them. A loader has 1 or 127.
_WITHOUT_WORDS = (2, 5, 7)

# Texts of more bytes may take long, and go to the program, which Ctrl-C ends.
_GREATEST_CALL = 1 << 16
_LIBRARY = "libzxopt.so.1"

# The program that was copied out of a zip file, and who copies it.
_copied = ""
_copying = Lock()


def run(
    words: Sequence[str],
    text: Circuit,
    *,
    timeout: Optional[float] = None,
    program: Optional[Program] = None,
) -> tuple[str, int]:
    """What the program answers for these words and a text.

    It is run, unless `find_library` has a library: this is called with a text of 64 KiB at most where neither `timeout`
    nor `program` is given, but not by a command of `python3 -m zxopt`, which signals have to end.

    words: a command and its flags, such as ["opt", "--best"].
    text: what the program reads, in a form that `zxopt.texts.as_bytes` takes.
    timeout: how many seconds the program may take, above 0; None for any number.
    program: the program; None for that of `find_program`.

    Answers what the program wrote, and its exit status: 0, or 6 where its answer is no (of `same`, `flow`, `reduce`
    and `compile`).

    Raises Refused where the text is refused, MemoryError where the program's memory ran out, TimeoutError where it
    took too long (it is ended then), and OSError for all else: there is no program, or it can't be run, it was ended by
    a signal, or has another exit status. UnicodeEncodeError, a ValueError, where characters have no UTF-8, TypeError
    where the text is of no such form, and ValueError where the timeout isn't above 0.
    """
    data = as_bytes(text)
    if timeout is None and program is None:
        called = _called(words, data)
        if called is not None:
            return called
    command = [os.fspath(program) if program is not None else find_program(), *words]
    try:
        out, err, status = communicate(command, data, timeout)
    except subprocess.TimeoutExpired:
        raise TimeoutError(f"{' '.join(command)} took longer than {timeout:g} seconds") from None
    if status in _ANSWERS:
        return out.decode("utf-8", "replace"), status
    raise _failure(command, status, err.decode("utf-8", "replace").strip(), data)


def find_program() -> str:
    """The program: $ZXOPT where that is set; else, where this package lies in a clone of the repository, the first of
    `out/zxopt`, `dist/zxopt` and `dist/zxopt-static` that this system loads; else the one that the package's wheel
    holds; else `zxopt` on the path, unless that is a script, as the command is that pip installs for this package; else
    the script `zxopt` of a clone, which proves and builds the program when it is called first.

    Raises FileNotFoundError, an OSError, where there is none.
    """
    found = os.environ.get("ZXOPT") or _in_clone() or _in_package() or _on_path() or _script_of_clone()
    if not found:
        raise FileNotFoundError(
            "no program zxopt: set ZXOPT to it, put its folder on the path, or install a wheel that was built in a clone"
        )
    return found


def find_library() -> Optional[Library]:
    """The shared library: none where $ZXOPT names a program; that of $ZXOPT_LIBRARY where this is set, and none where
    it is empty; else, where this package lies in a clone of the repository, that in `dist`, but none where the clone's
    program was built there; else the one that the package's wheel holds; else the system's.

    Raises OSError where $ZXOPT_LIBRARY names no library of this package's version. Others that are none are passed
    over.
    """
    if os.environ.get("ZXOPT"):
        return None
    named = os.environ.get("ZXOPT_LIBRARY")
    return _own_library() if named is None else _library(named) if named else None


@lru_cache(maxsize=16)
def _library(file: str) -> Library:
    """The library of a file. Raises OSError where it is none, and where this Python can't call libraries."""
    try:
        from .calls import Library
    except ImportError as missing:
        raise OSError(f"this Python has no ctypes: {missing}") from None
    return Library(file)


@lru_cache(maxsize=1)
def _own_library() -> Optional[Library]:
    top, packed = _clone(), resources.files("zxopt").joinpath("lib").joinpath(_LIBRARY)
    if top and (top / "out/zxopt").exists() and not (top / "out/zxopt.taken").exists():
        return None  # the sources may be others than those of the library
    files = [top / "dist" / _LIBRARY] if top else []
    files += [packed] if isinstance(packed, Path) else []
    for file in (*map(str, filter(Path.is_file, files)), _LIBRARY):
        try:
            return _library(file)
        except OSError:
            continue
    return None


def _called(words: Sequence[str], data: bytes) -> Optional[tuple[str, int]]:
    """What `run` answers by a call of the library, or None where the program has to be run."""
    library = None if len(data) > _GREATEST_CALL or ends_children() else find_library()
    answer = library and library.answer(words, data)
    if not answer:
        return None
    if answer.status in _ANSWERS:
        return answer.written.decode("utf-8", "replace"), answer.status
    raise _refusal(answer, data)


def _refusal(answer: Answer, data: bytes) -> Exception:
    """The exception for a call that wrote nothing."""
    if answer.status == _IS_REFUSED:
        place = None if answer.fault in WITHOUT_PLACE else answer.place
        return Refused.at(answer.fault, FAULTS[answer.fault].name, place, data)
    return MemoryError("zxopt: no memory")


def _clone() -> Optional[Path]:
    """The clone of the repository in which this package lies, if it does."""
    top = Path(__file__).resolve().parents[2]
    return top if (top / "crates.txt").is_file() else None


def _in_clone() -> Optional[str]:
    top = _clone()
    if top is None:
        return None
    built = (top / name for name in ("out/zxopt", "dist/zxopt", "dist/zxopt-static"))
    return next((str(file) for file in built if _can_be_run(file) and _is_loaded(file, file.stat().st_mtime_ns)), None)


def _in_package() -> Optional[str]:
    """The program that the wheel holds. Out of a zip file, or where it can't be run in its place, it is copied once into a
    folder of this process, which goes with the process."""
    own = resources.files("zxopt").joinpath("bin").joinpath("zxopt")
    if isinstance(own, Path) and _can_be_run(own):
        return str(own)
    if not own.is_file():
        return None
    global _copied
    with _copying:
        if not _can_be_run(Path(_copied)):
            folder = tempfile.mkdtemp(prefix="zxopt-")
            atexit.register(_remove_of, os.getpid(), folder)
            copy = Path(folder, "zxopt")
            copy.write_bytes(own.read_bytes())
            copy.chmod(0o700)
            _copied = str(copy)
        return _copied


def _remove_of(process: int, folder: str) -> None:
    """Removes a folder at the end of the process that made it, and not of others that were forked off."""
    if os.getpid() == process:
        shutil.rmtree(folder, ignore_errors=True)


def _on_path() -> Optional[str]:
    files = (Path(os.path.abspath(folder), "zxopt") for folder in os.get_exec_path())
    return next((str(file) for file in files if _can_be_run(file) and _is_binary(file)), None)


def _script_of_clone() -> Optional[str]:
    top = _clone()
    return str(top / "zxopt") if top and _can_be_run(top / "zxopt") else None


def _can_be_run(file: Path) -> bool:
    return file.is_file() and os.access(file, os.X_OK)


def _is_binary(file: Path) -> bool:
    """Whether a file is a program of the machine, and no script."""
    with file.open("rb") as stream:
        return stream.read(4) == b"\x7fELF"


@lru_cache(maxsize=16)
def _is_loaded(file: Path, changed: int) -> bool:
    """Whether this system loads a program, which was changed at this time: it answers a call without words then."""
    try:
        _, _, status = communicate([str(file)], b"")
        return status in _WITHOUT_WORDS
    except OSError:
        return False


def _failure(command: Sequence[str], status: int, said: str, data: bytes) -> Exception:
    """The exception for an exit status that brings no output."""
    if status == _IS_REFUSED:
        refused = Refused.told(said, data)
        if refused is not None:
            return refused
    if status == _NO_MEMORY:
        return MemoryError(said or "zxopt: no memory")
    if status < 0:
        end = f"was ended by the signal {_signal_name(-status)}"
    else:
        end = f"ended with status {status}"
    return OSError(f"{' '.join(command)} {end}{': ' if said else ''}{said}")


def _signal_name(number: int) -> str:
    try:
        return signal.Signals(number).name
    except ValueError:
        return str(number)
