"""Exact values of OpenQASM 2 expressions, and their spellings that the program `zxopt` reads.

A value is exact where it is `r + s*pi` with fractions r and s. `mend` respells an expression that the program
wouldn't read (powers, functions, signs `+`, long numbers) where its value is exact, and never changes its value, but
where a distance is given: then a value that lies so close to a multiple of pi/8 becomes that multiple. All angles are
in radians.
"""
from __future__ import annotations

import math
import re
from fractions import Fraction
from functools import lru_cache
from types import MappingProxyType
from typing import Callable, Mapping, NamedTuple, Optional

from .qasm import Token, tokens

GREATEST_PART = 1 << 60
GREATEST_DIGITS = 38
GREATEST_LENGTH = 4000
GREATEST_EXPONENT = 400
STEP = math.pi / 8
NOTHING = Fraction(0)
PI = Fraction("3.14159265358979323846264338327950288419716939937510")
_NATURAL = re.compile(r"0|[1-9]\d*")
_MORE_FUNCTIONS = ("asin", "acos", "atan")
_HALVES = {Fraction(0): 0, Fraction(1, 2): 1, Fraction(1): 3, Fraction(-1, 2): -1, Fraction(-1): -3}


class Unreadable(Exception):
    """An expression that has no value here: a parameter in it, a wrong form, a division by 0."""


class Value(NamedTuple):
    """The value `r + s*pi` where both fractions are known, and its nearest number."""

    r: Optional[Fraction]
    s: Fraction
    near: float

    def is_exact(self) -> bool:
        """Whether `r` and `s` are known."""
        return self.r is not None

    def is_sixteenths(self) -> bool:
        """Whether the value is exactly a whole multiple of pi/8."""
        return self.r == 0 and (8 * self.s).denominator == 1


class Node(NamedTuple):
    """A piece of an expression: its text as the program reads it, how tightly that binds (1 a sum, 2 a product, 3 a
    sign, 4 whole), its value unless it has parameters, and whether the program reads it as it was written."""

    text: str
    binds: int
    value: Optional[Value]
    is_plain: bool


def _exact(r: Fraction, s: Fraction = Fraction(0)) -> Value:
    return Value(r, s, float(r) + float(s) * math.pi)


def _inexact(near: float) -> Value:
    if math.isnan(near) or math.isinf(near):
        raise Unreadable
    return Value(None, Fraction(0), near)


def add(a: Value, b: Value, sign: int) -> Value:
    """The sum, or with sign -1 the difference."""
    if a.r is not None and b.r is not None:
        return _exact(a.r + sign * b.r, a.s + sign * b.s)
    return _inexact(a.near + sign * b.near)


def multiply(a: Value, b: Value) -> Value:
    """The product, exact unless both have a part of pi."""
    if a.r is not None and b.r is not None and (a.s == 0 or b.s == 0):
        return _exact(a.r * b.r, a.r * b.s + a.s * b.r)
    return _inexact(a.near * b.near)


def divide(a: Value, b: Value) -> Value:
    """The quotient, exact where the divisor has no part of pi, or both are multiples of pi."""
    if a.r is not None and b.r is not None:
        if b.s == 0:
            if b.r == 0:
                raise Unreadable
            return _exact(a.r / b.r, a.s / b.r)
        if a.r == 0 and b.r == 0:
            return _exact(a.s / b.s)
    if b.near == 0:
        raise Unreadable
    return _inexact(a.near / b.near)


def power(a: Value, b: Value) -> Value:
    """The power, exact for small whole exponents."""
    if b.r is not None and b.s == 0 and b.r.denominator == 1 and abs(b.r) <= 64 and a.r is not None:
        if b.r == 1:
            return a
        if b.r == 0:
            return _exact(Fraction(1))
        if a.s == 0 and (a.r != 0 or b.r > 0):
            return _exact(a.r ** int(b.r))
    if a.near < 0 or (a.near == 0 and b.near <= 0):
        raise Unreadable
    return _inexact(a.near**b.near)


def apply(name: str, a: Value) -> Value:
    """The value of a function: exact where it is a whole number, a half, or an angle of twelve in pi."""
    if a.r is not None:
        exact = _apply_exactly(name, a.r, a.s)
        if exact is not None:
            return exact
    functions: dict[str, Callable[[float], float]] = {
        "sin": math.sin, "cos": math.cos, "tan": math.tan, "exp": math.exp, "ln": math.log, "sqrt": math.sqrt,
        "asin": math.asin, "acos": math.acos, "atan": math.atan,
    }
    return _inexact(functions[name](a.near))


def _apply_exactly(name: str, r: Fraction, s: Fraction) -> Optional[Value]:
    if name == "sqrt" and s == 0 and r >= 0:
        top, bottom = math.isqrt(r.numerator), math.isqrt(r.denominator)
        return _exact(Fraction(top, bottom)) if top * top == r.numerator and bottom * bottom == r.denominator else None
    if s == 0 and ((name == "exp" and r == 0) or (name == "ln" and r == 1)):
        return _exact(Fraction(name == "exp"))
    if name in ("sin", "cos", "tan") and r == 0:
        return _circular(name, s)
    if name in ("asin", "acos") and s == 0 and r in _HALVES:
        sixths = _HALVES[r]
        return _exact(Fraction(0), Fraction(sixths if name == "asin" else 3 - sixths, 6))
    if name == "atan" and s == 0 and r in (0, 1, -1):
        return _exact(Fraction(0), r / 4)
    return None


def _circular(name: str, s: Fraction) -> Optional[Value]:
    """sin, cos or tan of s*pi, where that is 0, a half or 1 in size."""
    if name == "tan":
        quarters = 4 * s % 4
        return _exact(Fraction({0: 0, 1: 1, 3: -1}[int(quarters)])) if quarters in (0, 1, 3) else None
    sixths = 6 * (s if name == "sin" else s + Fraction(1, 2)) % 12
    sines = {0: 0, 1: 1, 3: 2, 5: 1, 6: 0, 7: -1, 9: -2, 11: -1}
    return _exact(Fraction(sines[int(sixths)], 2)) if sixths in sines else None


def number(text: str) -> Value:
    """The exact value of a number as it is written."""
    head, _, tail = text.lower().partition("e")
    if tail and (len(tail) > 6 or abs(int(tail)) > GREATEST_EXPONENT):
        raise Unreadable
    return _exact(Fraction(text))


def is_plain_number(text: str) -> bool:
    """Whether the program reads a number as it is written."""
    head = text.lower().partition("e")[0]
    if "." not in text:
        return bool(_NATURAL.fullmatch(text)) and len(text.rstrip("0")) <= GREATEST_DIGITS
    return len(head.replace(".", "").strip("0")) <= GREATEST_DIGITS


def spelled(r: Fraction, s: Fraction) -> str:
    """`r + s*pi` as the program reads it: 0, 3*pi/8, -pi, 1/3, 1+pi/2."""
    if s == 0:
        return str(r)
    top = {1: "pi", -1: "-pi"}.get(s.numerator, f"{s.numerator}*pi")
    turn = top if s.denominator == 1 else f"{top}/{s.denominator}"
    return turn if r == 0 else f"{r}{'' if turn[0] == '-' else '+'}{turn}"


def _binding(text: str) -> int:
    return 1 if re.search(r".[+-]", text) else 2 if re.search(r"[*/]", text) else 3 if text[0] == "-" else 4


class _Reader:
    """Reads an expression by the language's grammar.

    Signs bind most, then `^` from the right, then `* /`, then `+ -`.
    """

    def __init__(self, text: str, known: Mapping[str, Value]) -> None:
        self.tokens = [it for it in tokens(text) if it.kind != "space"]
        self.known = known
        self.at = 0

    def take(self, *wanted: str) -> str:
        if self.at < len(self.tokens) and self.tokens[self.at].text in wanted:
            self.at += 1
            return self.tokens[self.at - 1].text
        return ""

    def whole(self) -> Node:
        node = self.sum()
        if self.at < len(self.tokens):
            raise Unreadable
        return node

    def sum(self) -> Node:
        node = self.product()
        sign = self.take("+", "-")
        while sign:
            node = _join(node, sign, self.product())
            sign = self.take("+", "-")
        return node

    def product(self) -> Node:
        node = self.power()
        sign = self.take("*", "/")
        while sign:
            node = _join(node, sign, self.power())
            sign = self.take("*", "/")
        return node

    def power(self) -> Node:
        is_signed = self.at < len(self.tokens) and self.tokens[self.at].text == "-"
        node = self.factor()
        return _raise(node, self.power(), is_signed) if self.take("^") else node

    def factor(self) -> Node:
        if self.take("-"):
            return _negate(self.factor())
        if self.take("+"):
            return self.factor()._replace(is_plain=False)
        if self.take("("):
            node = self.sum()
            if not self.take(")"):
                raise Unreadable
            return node if node.binds == 4 else Node(f"({node.text})", 4, node.value, node.is_plain)
        if self.at == len(self.tokens):
            raise Unreadable
        token = self.tokens[self.at]
        self.at += 1
        return self.named(token)

    def named(self, token: Token) -> Node:
        if token.kind == "number":
            value = number(token.text)
            return _settle(Node(token.text, 4, value, is_plain_number(token.text)))
        if token.text == "pi":
            return Node("pi", 4, _exact(Fraction(0), Fraction(1)), True)
        if token.kind != "word":
            raise Unreadable
        if not self.take("("):
            return Node(token.text, 4, self.known.get(token.text), True)
        inner = self.sum()
        if not self.take(")") or inner.value is None or token.text not in (
            "sin", "cos", "tan", "exp", "ln", "sqrt", *_MORE_FUNCTIONS
        ):
            raise Unreadable
        return _settle(Node(f"{token.text}({inner.text})", 4, apply(token.text, inner.value), False))


def _settle(node: Node) -> Node:
    """Respells a node with an exact value where the program wouldn't read it as it is."""
    value = node.value
    if value is None or value.r is None:
        return node
    if max(abs(it) for part in (value.r, value.s) for it in (part.numerator, part.denominator)) > GREATEST_PART:
        return node._replace(is_plain=False)
    if node.is_plain:
        return node
    text = spelled(value.r, value.s)
    return Node(text, _binding(text), value, False)


def _within(node: Node, least: int) -> str:
    return node.text if node.binds >= least else f"({node.text})"


def _join(a: Node, sign: str, b: Node) -> Node:
    binds = 1 if sign in "+-" else 2
    value = None
    is_plain = a.is_plain and b.is_plain
    if a.value is not None and b.value is not None:
        if sign in "+-":
            value = add(a.value, b.value, 1 if sign == "+" else -1)
        else:
            value = (multiply if sign == "*" else divide)(a.value, b.value)
        is_plain = is_plain and not (sign == "/" and b.value.s != 0)
    return _settle(Node(f"{_within(a, binds)}{sign}{_within(b, binds + 1)}", binds, value, is_plain))


def _negate(a: Node) -> Node:
    value = None if a.value is None else multiply(_exact(Fraction(-1)), a.value)
    return _settle(Node(f"-{_within(a, 3)}", 3, value, a.is_plain))


def _raise(a: Node, b: Node, is_signed: bool) -> Node:
    """A power. Where a sign stands before it, tools differ in what it binds: such a power has no value here unless both
    readings agree, as for odd exponents."""
    if b.value is None or b.value.r is None or b.value.s != 0:
        raise Unreadable
    exponent = b.value.r
    if is_signed and (exponent.denominator != 1 or exponent % 2 == 0):
        raise Unreadable
    if a.value is not None:
        return _settle(Node(f"{_within(a, 4)}^{_within(b, 4)}", 2, power(a.value, b.value), False))
    if exponent.denominator != 1 or not 0 <= exponent <= 8:
        raise Unreadable
    if exponent == 0:
        return Node("1", 4, _exact(Fraction(1)), False)
    text = "*".join([_within(a, 4)] * int(exponent))
    return Node(text, a.binds if exponent == 1 else 2, None, False)


class Mended(NamedTuple):
    """An expression's text as it is to be written, and by how many radians its value was moved, if it was."""

    text: str
    move: Optional[float]


def read(text: str, known: Mapping[str, Value] = MappingProxyType({})) -> Optional[Node]:
    """An expression, or none where it isn't one of the language, is too long, or has no value where it needs one.

    `known` has the values of parameters.
    """
    if len(text) > GREATEST_LENGTH:
        return None
    try:
        return _Reader(text, known).whole()
    except (Unreadable, ValueError, OverflowError, ZeroDivisionError, RecursionError):
        return None


@lru_cache(maxsize=1 << 14)
def mend(text: str, within: Optional[float] = None) -> Optional[Mended]:
    """The expression respelled so that the program reads it, or none where it stays as it is.

    `within`, in radians, is the distance from a multiple of pi/8 at which a value is taken for it; without it no value
    changes.
    """
    node = read(text)
    if node is None:
        return None
    if node.value is not None and not node.value.is_sixteenths() and within is not None:
        move = distance(node.value)
        if move <= within:
            return Mended(spelled(Fraction(0), Fraction(round(node.value.near / STEP), 8)), move)
    if node.is_plain or (node.value is not None and not node.value.is_exact()) or _is_refused(node.text):
        return None
    return Mended(node.text, None)


def distance(value: Value) -> float:
    """How far a value is from the closest multiple of pi/8, in radians."""
    eighths = round(value.near / STEP)
    if value.r is None:
        return abs(value.near - eighths * STEP)
    return abs(float(value.r + (value.s - Fraction(eighths, 8)) * PI))


def _is_refused(text: str) -> bool:
    """Whether what the program refuses is left in a respelled expression."""
    return "^" in text or any(f"{it}(" in text for it in ("sin", "cos", "tan", "exp", "ln", "sqrt"))
