"""Which zxopt this is: the package's version, which program it runs, and which library it calls."""
from __future__ import annotations

import hashlib
import os
import shutil
from typing import NamedTuple, Optional

from .program import Program, find_library, find_program
from .release import VERSION

__all__ = ["Version", "sum_of", "version"]


class Version(NamedTuple):
    """The package's version, the file of the program that it runs, and that file's SHA-256, as dist/RECORD tells it;
    and the shared library that its functions call where they can, or None where there is none."""

    package: str
    program: str
    sha256: str
    library: Optional[str] = None

    def __str__(self) -> str:
        return f"zxopt {self.package}\nprogram {self.program}\nsha256 {self.sha256}\nlibrary {self.library or 'none'}"


def version(program: Optional[Program] = None) -> Version:
    """The package's version with the path and the sum of a program. None stands for that of `find_program`; the library
    is told besides then.

    Raises OSError where there is no such program, or it can't be read, and where the library that is named isn't one.
    """
    named = os.fspath(program) if program is not None else find_program()
    file = shutil.which(named)
    if file is None:
        raise FileNotFoundError(f"no program {named}")
    library = find_library() if program is None else None
    return Version(VERSION, os.path.abspath(file), sum_of(file), library.file if library else None)


def sum_of(file: Program) -> str:
    """The SHA-256 of a file's bytes."""
    found = hashlib.sha256()
    with open(file, "rb") as data:
        for block in iter(lambda: data.read(1 << 20), b""):
            found.update(block)
    return found.hexdigest()
