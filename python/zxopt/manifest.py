"""What `batch` did, in a file of its target folder, by which a run goes on.

The file has a row for each file that was written or refused: the SHA-256 of what was read, the settings with the
version and the program, and what was answered. Rows are kept when the file is done, so a run that is killed loses none;
a file that was under way is named there, too, so that what was left of it can be removed. While a run goes on, no other
one writes to the folder.
"""
from __future__ import annotations

import json
import os
import sqlite3
from contextlib import closing, contextmanager, suppress
from dataclasses import asdict
from pathlib import Path
from typing import Any, Dict, Iterator, NamedTuple, Optional, Tuple

from .cli import remove_leftovers
from .executors import Stamp
from .files import Job, Outcome, Settings
from .identity import sum_of

__all__ = ["NAME", "Done", "Manifest", "opened"]

# The manifest's name in the target folder.
NAME = ".zxopt-batch.sqlite3"
_FORMAT = 1
_STATES = ("written", "refused")
_PRAGMAS = ("locking_mode = EXCLUSIVE", "journal_mode = WAL", "synchronous = NORMAL", "wal_autocheckpoint = 4000")
_TABLES = """
    CREATE TABLE settings (number INTEGER PRIMARY KEY, told TEXT UNIQUE NOT NULL);
    CREATE TABLE done (
        file BLOB PRIMARY KEY, read BLOB NOT NULL, settings INTEGER NOT NULL, state INTEGER NOT NULL,
        length INTEGER, t_before INTEGER, t_after INTEGER, two_qubit_before INTEGER, two_qubit_after INTEGER,
        checked TEXT, told TEXT
    ) WITHOUT ROWID;
    CREATE TABLE under_way (file BLOB PRIMARY KEY) WITHOUT ROWID;
"""


class Done(NamedTuple):
    """What the manifest tells of a file that was done: its state, its counts before and after, what `same` said, and
    why it was refused."""

    state: str
    t: Optional[Tuple[int, int]]
    two_qubit: Optional[Tuple[int, int]]
    check: str
    told: str


@contextmanager
def opened(to: str, settings: Settings, stamp: Stamp, anew: bool = False) -> Iterator["Manifest"]:
    """The manifest of a target folder, which is made where there is none; with `anew` nothing is done yet.

    Raises BlockingIOError where another run writes to the folder, ValueError where the manifest is one of another
    version, and OSError where it can't be read or written; so do its calls.
    """
    os.makedirs(to, exist_ok=True)
    name = os.path.join(to, NAME)
    with _as_file(name), closing(sqlite3.connect(name, timeout=0, isolation_level=None)) as data:
        manifest = Manifest(data, name, to, settings, stamp, anew)
        manifest.remove_leftovers()
        try:
            yield manifest
        finally:
            with suppress(sqlite3.Error):
                manifest.remove_leftovers()


class Manifest:
    """A manifest that is open."""

    def __init__(
        self, data: sqlite3.Connection, name: str, to: str, settings: Settings, stamp: Stamp, anew: bool
    ) -> None:
        self.data, self.to = data, to
        # one process alone has it open; a row is written at once, and brought to the disk with many others
        for pragma in _PRAGMAS:
            data.execute(f"PRAGMA {pragma}")
        data.execute("BEGIN EXCLUSIVE")
        (found,) = data.execute("PRAGMA user_version").fetchone()
        if found == 0:
            for table in _TABLES.split(";"):
                data.execute(table)
            data.execute(f"PRAGMA user_version = {_FORMAT}")
        elif found != _FORMAT:
            raise ValueError(f"{name} is the manifest of another version: name another folder")
        if anew:
            data.execute("DELETE FROM done")
        told = json.dumps([_told(settings), stamp.package, stamp.sha256])
        data.execute("INSERT OR IGNORE INTO settings (told) VALUES (?)", (told,))
        (self.number,) = data.execute("SELECT number FROM settings WHERE told = ?", (told,)).fetchone()
        data.execute("COMMIT")

    def done(self, job: Job) -> Optional[Done]:
        """What became of a file, if it was done with these settings and has the same bytes, and what was written is
        there."""
        found = self.data.execute("SELECT * FROM done WHERE file = ?", (self.name(job),)).fetchone()
        if found is None or found[2] != self.number or found[1] != _bytes_of(job):
            return None
        _, _, _, state, length, *t, two_qubit_before, two_qubit_after, check, told = found
        if length is None:
            return Done(_STATES[state], None, None, "", told)
        if not _has_length(job.target, length):
            return None
        return Done(_STATES[state], (t[0], t[1]), (two_qubit_before, two_qubit_after), check or "", "")

    def begin(self, job: Job) -> None:
        """Takes note of a file before it is handed out."""
        self.data.execute("INSERT OR IGNORE INTO under_way VALUES (?)", (self.name(job),))

    def end(self, outcome: Outcome) -> None:
        """Takes note of what became of a file. What failed, or couldn't be checked, may go otherwise the next time."""
        name = self.name(outcome.job)
        with self.data:
            self.data.execute("BEGIN")
            self.data.execute("DELETE FROM under_way WHERE file = ?", (name,))
            if outcome.state in _STATES and outcome.check != "not checked":
                self.data.execute(f"INSERT OR REPLACE INTO done VALUES ({','.join('?' * 11)})", self.row(name, outcome))

    def row(self, name: bytes, outcome: Outcome) -> Tuple[Any, ...]:
        is_written = outcome.state == "written"
        counts = (outcome.length, *(outcome.t or ()), *(outcome.two_qubit or ())) if is_written else (None,) * 5
        told = None if is_written else outcome.told[len(str(outcome.job.source)) :]
        read = bytes.fromhex(outcome.read)
        return (name, read, self.number, _STATES.index(outcome.state), *counts, outcome.check or None, told)

    def name(self, job: Job) -> bytes:
        """The file that is written, below the target folder."""
        return os.fsencode(os.path.relpath(job.target, self.to))

    def remove_leftovers(self) -> None:
        """Removes what a run that was killed left of the files that were under way."""
        names = [name for (name,) in self.data.execute("SELECT file FROM under_way")]
        remove_leftovers(Path(self.to, os.fsdecode(name)) for name in names)
        self.data.execute("DELETE FROM under_way")


@contextmanager
def _as_file(name: str) -> Iterator[None]:
    """Tells errors of the manifest as those of a file."""
    try:
        yield
    except sqlite3.OperationalError as failed:
        if "locked" in str(failed):
            folder = os.path.dirname(name)
            raise BlockingIOError(f"another run writes to {folder}") from None
        raise OSError(f"{name}: {failed}") from None
    except sqlite3.DatabaseError as failed:
        raise OSError(f"{name}: {failed}: remove it, and all files are done again") from None


def _told(settings: Settings) -> Dict[str, Any]:
    """The settings without the program, of which the sum is told."""
    return {name: value for name, value in asdict(settings).items() if name != "program"}


def _bytes_of(job: Job) -> Optional[bytes]:
    try:
        return bytes.fromhex(sum_of(job.source))
    except OSError:
        return None


def _has_length(file: Path, length: int) -> bool:
    try:
        return file.stat().st_size == length
    except OSError:
        return False
