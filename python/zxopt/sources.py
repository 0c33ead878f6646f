"""Bytes and letters of a text as tools and editors leave them: encodings, line ends, block comments, odd signs."""
from __future__ import annotations

import re
import unicodedata
from typing import NamedTuple

from .qasm import QasmError
from .texts import Text, as_bytes

_MARKS = (
    (b"\xef\xbb\xbf", "utf-8"),
    (b"\xff\xfe\x00\x00", "utf-32-le"),
    (b"\x00\x00\xfe\xff", "utf-32-be"),
    (b"\xff\xfe", "utf-16-le"),
    (b"\xfe\xff", "utf-16-be"),
)
_BLOCKS = re.compile(r"//[^\n]*|\"[^\"\n]*\"|/\*.*?\*/|/\*", re.S)
_STRANGE = re.compile(r"//[^\n]*|[^\x00-\x7f]+|[\x00\x0b\x0c\x1a\x1c-\x1f]+")
_SIGNS = {"\u03c0": "pi", "\U0001d70b": "pi", "\u2212": "-", "\u201c": '"', "\u201d": '"', "\u201e": '"', "\uff1b": ";"}


class Change(NamedTuple):
    """What was changed in a line of a text, lines counted from 1."""

    line: int
    what: str


def decoded(text: Text, changes: list[Change]) -> str:
    """The letters of a text: by its byte order mark, else UTF-8, UTF-16 without a mark, or Latin-1."""
    if isinstance(text, str):
        if text.startswith("\ufeff"):
            changes.append(Change(1, "a byte order mark is left out"))
        return text.lstrip("\ufeff")
    data = as_bytes(text)
    for mark, name in _MARKS:
        if data.startswith(mark):
            changes.append(Change(1, f"a byte order mark ({name}) is left out"))
            return data[len(mark) :].decode(name, errors="replace")
    name = _guessed(data)
    if name != "utf-8":
        changes.append(Change(1, f"the text is read as {name}"))
    return data.decode(name, errors="replace")


def _guessed(data: bytes) -> str:
    if data[:2].isascii() and len(data) > 3 and data.count(0) * 3 > len(data):
        return "utf-16-le" if data[1] == 0 else "utf-16-be"
    try:
        data.decode("utf-8")
    except UnicodeDecodeError:
        return "latin-1"
    return "utf-8"


def plain(text: str, changes: list[Change]) -> str:
    """The text with line ends, comments and signs that the language has; lines keep their numbers."""
    if "\r" in text and "\n" not in text:
        changes.append(Change(1, "lines end with a line feed in place of a carriage return"))
        text = text.replace("\r", "\n")
    if "/*" in text:
        text = _without_blocks(text, changes)
    if "#" in text:
        text = _without_hashes(text, changes)
    if not text.isascii() or _STRANGE.search(text):
        text = _with_plain_signs(text, changes)
    return text


def _without_blocks(text: str, changes: list[Change]) -> str:
    line, at = 1, 0

    def mended(found: re.Match[str]) -> str:
        nonlocal line, at
        if not found[0].startswith("/*"):
            return found[0]
        line, at = line + text.count("\n", at, found.start()), found.start()
        if found[0] == "/*":
            raise QasmError("a comment begins with /* and doesn't end", line)
        changes.append(Change(line, "a block comment is left out"))
        return " " + "\n" * found[0].count("\n")

    return _BLOCKS.sub(mended, text)


def _without_hashes(text: str, changes: list[Change]) -> str:
    """Lines that begin with # as comments."""
    line, at = 1, 0

    def mended(found: re.Match[str]) -> str:
        nonlocal line, at
        line, at = line + text.count("\n", at, found.end()), found.end()
        changes.append(Change(line, "# is written as //"))
        return f"{found[1]}//"

    return re.sub(r"^([ \t]*)#", mended, text, flags=re.M)


def _with_plain_signs(text: str, changes: list[Change]) -> str:
    """White space, minus signs, quotes and pi of other alphabets as ASCII has them; other letters stay."""
    line, at = 1, 0

    def mended(found: re.Match[str]) -> str:
        nonlocal line, at
        if found[0].startswith("//"):
            return found[0]
        said = "".join(_plain_sign(it) for it in found[0])
        if said != found[0]:
            line, at = line + text.count("\n", at, found.start()), found.start()
            names = ", ".join(sorted({_name(it) for it in found[0] if _plain_sign(it) != it}))
            changes.append(Change(line, f"{names} replaced by what OpenQASM 2 has"))
        return said

    return _STRANGE.sub(mended, text)


def _plain_sign(letter: str) -> str:
    if letter in _SIGNS:
        return _SIGNS[letter]
    is_space = letter.isspace() or unicodedata.category(letter) in ("Zs", "Zl", "Zp", "Cf", "Cc")
    return " " if is_space else letter


def _name(letter: str) -> str:
    return unicodedata.name(letter, f"the sign {ord(letter)}").lower()
