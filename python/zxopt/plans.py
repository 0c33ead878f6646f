"""Which files `batch` reads, and which one is written for each, one by one: memory doesn't grow with their number.

Each file is written below the target folder as it stands below the deepest folder that all named files and folders
share; a folder that is named alone is that one. So no two files have one target.
"""
from __future__ import annotations

import os
from itertools import islice
from pathlib import Path
from typing import Dict, Iterable, Iterator, List

from .files import Job

__all__ = ["jobs_of", "plan"]

# Names of a folder that are sorted at a time.
_BLOCK = 1_000


def plan(files: Iterable[str], to: str) -> List[Job]:
    """Which file is written for each, in the order in which they are named: it stands below the folder `to` as it
    stands below the deepest folder that all named files and folders share. Of a folder all files `*.qasm` below it are
    taken, but for those below `to`.

    Raises ValueError where there is no file, or one of them would be written over; FileNotFoundError where one
    is missing.
    """
    return list(jobs_of(files, to))


def jobs_of(files: Iterable[str], to: str) -> Iterator[Job]:
    """The same, one by one as they are found. What is named is looked at now."""
    return _Named(files, to).jobs()


class _Named:
    """What is named: files, and folders that lie in no other one."""

    def __init__(self, files: Iterable[str], to: str) -> None:
        self.to, self.real_to = to, os.path.realpath(to)
        # the whole paths, once each
        self.named: Dict[str, None] = {}
        for file in files:
            if not os.path.exists(file):
                raise FileNotFoundError(f"there is no file {file}")
            self.named[os.path.abspath(file)] = None
        folders = {it for it in self.named if os.path.isdir(it)}
        self.folders = {it for it in folders if not any(_is_below(it, other) for other in folders)}
        self.real_folders = [os.path.realpath(it) for it in self.folders]
        self.files = {it for it in self.named if it not in folders}
        self.real_files = {os.path.realpath(it) for it in self.files}
        shared = [*self.folders, *(os.path.dirname(it) for it in self.files)]
        self.shared = os.path.commonpath(shared) if shared else ""
        for file in self.files:
            self.target(file)

    def target(self, source: str) -> str:
        """The file that is written for one that is read; ValueError where it is one that is named."""
        target = os.path.join(self.to, os.path.relpath(source, self.shared))
        if self.real_files and os.path.realpath(target) in self.real_files:
            raise ValueError(f"{target} is a file that is read: name another folder")
        return target

    def jobs(self) -> Iterator[Job]:
        job = None
        for source in self.sources():
            job = Job(Path(source), Path(self.target(source)))
            yield job
        if job is None:
            raise ValueError("there is no file to read")

    def sources(self) -> Iterator[str]:
        for path in self.named:
            if path in self.files:
                yield path
            elif path in self.folders:
                yield from self.below(path)

    def below(self, folder: str) -> Iterator[str]:
        """The files below a folder, but for those below the target folder and those that are named themselves. Names
        are sorted, many at a time."""
        if _is_at(os.path.realpath(folder), self.real_to):
            return
        self.check_target(folder)
        with os.scandir(folder) as entries:
            while True:
                block = sorted(islice(entries, _BLOCK), key=lambda it: it.name)
                if not block:
                    return
                for it in block:
                    if it.is_dir(follow_symlinks=False):
                        yield from self.below(it.path)
                    elif it.name.endswith(".qasm") and it.path not in self.files and it.is_file():
                        if not (it.is_symlink() and _is_below(os.path.realpath(it), self.real_to)):
                            yield it.path

    def check_target(self, folder: str) -> None:
        """Refuses a target folder that a link leads back to what is read."""
        target = os.path.join(self.to, os.path.relpath(folder, self.shared))
        real = os.path.realpath(target)
        if not _is_at(real, self.real_to) and any(_is_at(real, it) for it in self.real_folders):
            raise ValueError(f"{target} is a folder that is read: name another folder")


def _is_below(path: str, folder: str) -> bool:
    return path.startswith(folder.rstrip(os.sep) + os.sep)


def _is_at(path: str, folder: str) -> bool:
    return path == folder or _is_below(path, folder)
