"""Angles that a tool wrote as rounded numbers: how many of a text are meant to be multiples of pi/8.

The program reads exact angles alone, so an angle such as 0.7853981633974483 stays as it is, or has the text refused,
though pi/4 was meant. Only a distance that is given, `--within`, takes such angles for what they are close to.
"""
from __future__ import annotations

import re
from functools import lru_cache
from typing import Iterable, Iterator, Optional

from . import angles, names
from .qasm import Statement, comma_parts

__all__ = ["NEAR", "angle_lists", "angles_begin", "rounded_angles", "told"]

# How close to a multiple of pi/8 an angle is taken for one that was rounded, in radians.
NEAR = 1e-9
# Numbers that stand as angles of these gates aren't angles.
NOT_ANGLES = frozenset(("u0", "rzq", "delay"))
_LIST = re.compile(r"//[^\n]*|([^\W\d]\w*)\s*\(")
_SIGNS = re.compile(r"[();{}]")
_DECIMAL = re.compile(r"[-+]?(?:\d+\.\d*|\.\d+|\d+)(?:[eE][-+]?\d{1,3})?")


def rounded_angles(statements: Iterable[Statement]) -> int:
    """How many angles of statements lie within 1e-9 radians of a multiple of pi/8, and aren't one."""
    count = 0
    known: dict[str, int] = {}
    for it in statements:
        end = it.text.rfind(")")
        if end < 0:
            continue
        key = it.text[:end]
        if key not in known:
            known[key] = _rounded_in(it)
        count += known[key]
    return count


def told(count: int) -> str:
    """What is said of so many such angles."""
    lie = "1 angle lies" if count == 1 else f"{count} angles lie"
    return f"{lie} within 1e-9 of a multiple of pi/8: --within 1e-9 takes {'it' if count == 1 else 'them'} for that"


def angles_begin(it: Statement) -> Optional[int]:
    """The place in a statement from which on lists of angles stand, or none where there are none."""
    head = it.head()
    if head in names.STATEMENTS and head not in ("gate", "if"):
        return None
    begin = it.text.find("{") if head == "gate" else it.text.find(")") if head == "if" else 0
    return begin if begin >= 0 and it.text.find("(", begin) >= 0 else None


def angle_lists(text: str) -> Iterator[tuple[str, int, int]]:
    """The lists in a piece of applications: each gate's name, and where its list begins and ends within parentheses."""
    at = 0
    for found in _LIST.finditer(text):
        if found.start() < at or found[1] is None:
            continue
        end = _closing(text, found.end())
        if end is None:
            return
        yield found[1], found.end(), end
        at = end


def _closing(text: str, at: int) -> Optional[int]:
    """The place of the parenthesis that closes one that is open at a place, within the statement."""
    depth = 1
    for found in _SIGNS.finditer(text, at):
        depth += {"(": 1, ")": -1}.get(found[0], 0)
        if found[0] in ";{}":
            return None
        if depth == 0:
            return found.start()
    return None


def _rounded_in(it: Statement) -> int:
    begin = angles_begin(it)
    if begin is None:
        return 0
    text = it.text[begin:]
    lists = [text[start:end] for name, start, end in angle_lists(text) if name not in NOT_ANGLES]
    return sum(_is_rounded(angle) for one in lists if "//" not in one for angle in comma_parts(one))


@lru_cache(maxsize=1 << 14)
def _is_rounded(text: str) -> bool:
    """Whether an angle lies so close to a multiple of pi/8, and isn't one."""
    if _DECIMAL.fullmatch(text):
        value = float(text)
        return value != 0 and angles.distance(angles.Value(None, angles.NOTHING, value)) <= NEAR
    node = angles.read(text)
    if node is None or node.value is None or node.value.is_sixteenths():
        return False
    return angles.distance(node.value) <= NEAR
