"""The text that `stream` reads: a file, a gz file, standard input, or a slice of a file by bytes.

A slice goes from the first end of a statement behind the end of the line in which its first byte stands up to that of
its last one, so that slices whose bytes meet have each statement once. None begins within the head, which is the
declarations before the first gate: each slice reads it again.
"""
from __future__ import annotations

import gzip
import hashlib
import os
import sys
from contextlib import contextmanager
from typing import IO, Any, Iterator, Optional, Union

from .cli import tell_terminal
from .qasm import split
from .windows import GREATEST_BYTES

__all__ = ["Source", "opened"]

# How many bytes at the begin of a source tell it from others, with its length.
_TELLING = 1 << 20
_BLOCK = 1 << 20
_DECLARING = frozenset(("OPENQASM", "include", "gate", "opaque", "qreg", "creg"))
_File = Union[IO[bytes], gzip.GzipFile]
_MARK = b"\xef\xbb\xbf"


class Source:
    """A text that is read once, from some place on. `identity` tells it from others; `head` is what a slice reads
    before its own text, or none where all is read; `is_first` tells whether the head is to be written."""

    def __init__(self, file: _File, identity: Any, is_read_once: bool = False) -> None:
        self.file = file
        self.identity = identity
        self.is_read_once = is_read_once
        self.head: Optional[bytes] = None
        self.is_first = True
        self.begin = 0
        self.end: Optional[int] = None
        self.place = 0

    def cut(self, begin: int, end: Optional[int]) -> None:
        """Makes it a slice of bytes."""
        at = _head_end(self.file)
        self.file.seek(0)
        self.head = _without_mark(self.file.read(at))
        self.is_first = begin == 0
        self.begin = max(at, _border(self.file, begin)) if begin else at
        if end is not None:
            self.end = max(at, _border(self.file, end)) if end else at
        self.go_to(0)

    def go_to(self, place: int) -> None:
        """Goes to a byte of the slice, from 0."""
        self.file.seek(self.begin + place)
        self.place = place

    def chunks(self, size: int) -> Iterator[bytes]:
        """What is left, so many bytes at a time; a byte order mark is left out."""
        while True:
            left = size if self.end is None else min(size, self.end - self.begin - self.place)
            chunk = self.file.read(left) if left > 0 else b""
            if not chunk:
                return
            if self.place == 0 and chunk.startswith(_MARK):
                chunk = b"   " + chunk[len(_MARK) :]
            self.place += len(chunk)
            yield chunk


@contextmanager
def opened(name: str, begin: Optional[int] = None, end: Optional[int] = None) -> Iterator[Source]:
    """The text of a file, of a gz file by its name's end, or of standard input for `-`; slices are of files alone, and
    ValueError is raised else. OSError where the file can't be read."""
    is_slice = begin is not None or end is not None
    if name == "-":
        if is_slice:
            raise ValueError("standard input has no slices")
        if sys.stdin is None:
            raise OSError("standard input is closed")
        tell_terminal()
        yield Source(sys.stdin.buffer, "-", is_read_once=True)
        return
    with open(name, "rb") as file:
        told = {"bytes": os.fstat(file.fileno()).st_size, "sum": hashlib.sha256(file.read(_TELLING)).hexdigest()}
        file.seek(0)
        if name.endswith(".gz"):
            if is_slice:
                raise ValueError("a gz file has no slices")
            with gzip.GzipFile(fileobj=file) as unpacked:
                yield Source(unpacked, told)
            return
        source = Source(file, told)
        if is_slice:
            source.cut(begin or 0, end)
        yield source


def _head_end(file: _File) -> int:
    """The byte at which the last declaration before the first gate ends."""
    size = 1 << 16
    while True:
        file.seek(0)
        data = file.read(size)
        code = _without_mark(data)
        at = len(data) - len(code)
        statements = split(code.decode("latin-1"))[0]
        for it in statements:
            if it.head() not in _DECLARING:
                return at
            at += len(it.space) + len(it.text)
        if len(data) < size:
            return at
        if size > GREATEST_BYTES:
            raise ValueError("the declarations before the first gate take more than 16 MB")
        size *= 2


def _without_mark(data: bytes) -> bytes:
    """A text without its byte order mark."""
    return data[len(_MARK) :] if data.startswith(_MARK) else data


def _border(file: _File, byte: int) -> int:
    """Where slices meet: behind the first semicolon outside of a comment, behind the end of the line of a byte."""
    file.seek(byte)
    _skip_line(file)
    while True:
        block = file.read(_BLOCK)
        at = file.tell() - len(block)
        end, comment = block.find(b";"), block.find(b"/")
        if not block:
            return at
        if end >= 0 and not 0 <= comment < end:
            return at + end + 1
        if comment >= 0:
            file.seek(at + comment)
            if file.read(2) == b"//":
                _skip_line(file)
            else:
                file.seek(at + comment + 1)


def _skip_line(file: _File) -> None:
    while True:
        part = file.readline(_BLOCK)
        if not part or part.endswith(b"\n"):
            return
