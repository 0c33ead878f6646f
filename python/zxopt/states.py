"""The file that `stream` writes, and the state beside it, by which a run goes on.

The state of WRITTEN is the file WRITTEN.state, which stands there as long as WRITTEN isn't finished. It is replaced
atomically, when all that it counts is on the disk: a run goes on with WRITTEN cut to the length that the state has.
"""
from __future__ import annotations

import gzip
import json
import os
import stat
from contextlib import suppress
from types import TracebackType
from typing import IO, Any, NamedTuple, Optional, Type

try:
    import fcntl
except ImportError:  # there are other systems
    fcntl = None  # type: ignore[assignment]

__all__ = ["State", "Target"]

_FORMAT = 1


class State(NamedTuple):
    """What a run goes on from: its totals, and the state of its reader as a text."""

    totals: dict[str, Any]
    reader: str


class Target:
    """The file that is written, which no other run writes at the same time.

    `state` is what the run goes on from, or none where it begins. `is_packed` tells whether the file is a gz file.
    """

    def __init__(self, name: str, what: Any, anew: bool, is_read_once: bool) -> None:
        self.name = name
        self.state_name = f"{name}.state"
        self.what = json.loads(json.dumps(what))
        self.is_packed = name.endswith(".gz")
        self.state: Optional[State] = None
        self.lines: list[bytes] = []
        self.file = self.locked()
        try:
            self.begin(anew, is_read_once)
        except BaseException:
            self.file.close()
            raise

    def locked(self) -> IO[bytes]:
        """The file, which is made if there is none."""
        number = os.open(self.name, os.O_RDWR | os.O_CREAT, 0o666)
        file = open(number, "r+b")
        try:
            if not stat.S_ISREG(os.fstat(number).st_mode):
                raise ValueError(f"{self.name} is no file")
            if fcntl is not None:
                fcntl.lockf(number, fcntl.LOCK_EX | fcntl.LOCK_NB)
        except (BlockingIOError, PermissionError):
            file.close()
            raise BlockingIOError(f"another run writes {self.name}") from None
        except BaseException:
            file.close()
            raise
        return file

    def begin(self, anew: bool, is_read_once: bool) -> None:
        """Goes on where there is a state, or begins."""
        if os.path.exists(self.state_name) and not anew:
            with open(self.state_name, encoding="utf-8") as file:
                told = self.checked(file.readline())
                reader = file.read()
            if is_read_once:
                raise ValueError(f"{self.name} isn't finished, and standard input can't go on: begin anew")
            if reader:
                self.go_on(told["length"], State(told["totals"], reader))
                return
        self.replace_state(json.dumps({"format": _FORMAT, "what": self.what}) + "\n")
        self.file.truncate(0)

    def checked(self, line: str) -> Any:
        """The first line of a state; ValueError where it is of another run."""
        try:
            told = json.loads(line)
        except ValueError:
            told = {}
        if not isinstance(told, dict) or told.get("format") != _FORMAT:
            raise ValueError(f"{self.state_name} is no state that this version reads: begin anew")
        for key, name in (("source", "another text"), ("settings", "other settings"), ("program", "another program")):
            if told["what"][key] != self.what[key]:
                raise ValueError(f"{self.name} was begun with {name}: begin anew, or name another file")
        return told

    def go_on(self, length: int, state: State) -> None:
        if os.fstat(self.file.fileno()).st_size < length:
            raise ValueError(f"{self.name} is shorter than its state says: begin anew")
        self.file.truncate(length)
        self.file.seek(length)
        self.state = state

    def __enter__(self) -> Target:
        return self

    def __exit__(
        self, kind: Optional[Type[BaseException]], value: Optional[BaseException], trace: Optional[TracebackType]
    ) -> None:
        if kind is None:
            self.file.close()
            return
        with suppress(OSError):
            self.file.close()

    # -- writing ------------------------------------------------------------------------------------------------------

    def write(self, data: bytes) -> None:
        """Writes what is packed already, where it has to be."""
        self.write_lines()
        self.file.write(data)

    def write_plain(self, data: bytes) -> None:
        """Writes lines that aren't packed."""
        if self.is_packed:
            self.lines.append(data)
        else:
            self.file.write(data)

    def write_lines(self) -> None:
        if self.lines:
            self.file.write(gzip.compress(b"".join(self.lines), 6, mtime=0))
            self.lines.clear()

    def keep(self, state: State) -> None:
        """Replaces the state by one of all that was written so far."""
        length = self.on_disk()
        told = {"format": _FORMAT, "what": self.what, "length": length, "totals": state.totals}
        self.replace_state(f"{json.dumps(told)}\n{state.reader}")

    def on_disk(self) -> int:
        """Brings all to the disk, and answers the length."""
        self.write_lines()
        self.file.flush()
        os.fsync(self.file.fileno())
        return self.file.tell()

    def end(self) -> None:
        """Ends the file, which needs no state any more."""
        self.on_disk()
        os.unlink(self.state_name)
        self.folder_on_disk()

    def drop(self) -> None:
        """Removes the file and its state, as that of a text that no run can read to its end."""
        os.unlink(self.state_name)
        os.unlink(self.name)

    def replace_state(self, text: str) -> None:
        new = f"{self.state_name}.new"
        try:
            with open(new, "w", encoding="utf-8") as file:
                file.write(text)
                file.flush()
                os.fsync(file.fileno())
            os.replace(new, self.state_name)
        except BaseException:
            with suppress(OSError):
                os.unlink(new)
            raise
        self.folder_on_disk()

    def folder_on_disk(self) -> None:
        """Brings a name that was changed to the disk, where the system can."""
        with suppress(OSError):
            number = os.open(os.path.dirname(os.path.abspath(self.name)), os.O_RDONLY)
            try:
                os.fsync(number)
            finally:
                os.close(number)
