"""The program's commands as calls of the shared library `libzxopt.so.1`, in this process.

No process is begun, so a small circuit takes a fraction of the time. The library keeps nothing between calls: several
threads may call at once, and so may a process that was forked off. A call can't be cut off, and Python hears of a
signal, as that of Ctrl-C, only at its end.
"""
from __future__ import annotations

import ctypes
from typing import NamedTuple, Optional, Sequence

from .release import VERSION, VERSION_NUMBER

__all__ = ["Answer", "Library"]

_NO_ROOM = 8
# The flags of `opt`, in the order of the call's parameters.
_FLAGS = ("--best", "--report", "--scalar")
_WITHOUT_FLAGS = ("teleport", "same", "compile", "reduce", "flow", "graph")


class _Told(ctypes.Structure):
    """`zxopt_told` of `zxopt.h`."""

    _fields_ = [("length", ctypes.c_size_t), ("place", ctypes.c_size_t), ("fault", ctypes.c_uint8)]


_TEXT_AND_ROOM = (ctypes.c_char_p, ctypes.c_size_t, ctypes.c_void_p, ctypes.c_size_t, ctypes.POINTER(_Told))


class Answer(NamedTuple):
    """What a command answers: its exit status, what it writes, the number of the first fault and its place, or 0."""

    status: int
    written: bytes
    fault: int
    place: int


class Library:
    """The shared library of a file, in this process.

    Raises OSError where the system doesn't load it, or it is none of this package's version.
    """

    def __init__(self, file: str) -> None:
        self.file = file
        loaded = ctypes.CDLL(file)  # lets other threads run during a call
        try:
            loaded.zxopt_version.restype = ctypes.c_uint32
            number = loaded.zxopt_version()
            if number != VERSION_NUMBER:
                raise OSError(f"{file} is of version {number}, and this package is of {VERSION_NUMBER}")
            self._optimise = loaded.zxopt_optimise
            self._others = {name: getattr(loaded, f"zxopt_{name}") for name in _WITHOUT_FLAGS}
        except AttributeError as missing:
            raise OSError(f"{file} isn't the library of zxopt {VERSION}: {missing}") from None
        self._optimise.argtypes = [*[ctypes.c_bool] * len(_FLAGS), *_TEXT_AND_ROOM]
        for call in self._others.values():
            call.argtypes = _TEXT_AND_ROOM
        for call in (self._optimise, *self._others.values()):
            call.restype = ctypes.c_uint8

    def answer(self, words: Sequence[str], text: bytes) -> Optional[Answer]:
        """What the command of these words answers for a text; None where there is no such call."""
        command, *flags = words or [""]
        if command == "opt" and len(set(flags)) == len(flags) and set(flags) <= set(_FLAGS):
            call, given = self._optimise, [flag in flags for flag in _FLAGS]
        elif command in self._others and not flags:
            call, given = self._others[command], []
        else:
            return None
        told, room = _Told(), 2 * len(text) + 4096
        while True:
            out = ctypes.create_string_buffer(room)
            status = call(*given, text, len(text), out, room, ctypes.byref(told))
            if status != _NO_ROOM:
                return Answer(status, ctypes.string_at(out, told.length), told.fault, told.place)
            room = told.length
