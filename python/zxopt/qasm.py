"""Tokens and statements of OpenQASM 2: what `prepare` and `parts` read texts with.

A text is cut into statements without reading each token, so that long texts take linear and little time; only where
a statement has to be looked at closely is it cut into tokens. Nothing here judges whether a text has a meaning: that is
left to the program `zxopt`, which stands proved beside this package.
"""
from __future__ import annotations

import re
from functools import lru_cache
from typing import Iterator, NamedTuple, Optional

# The gates that the program's header `qelib1.inc` declares, and that no text may declare again beside it.
FIRST = frozenset("u3 u2 u1 cx id x y z h s sdg t tdg rx ry rz cz cy ch ccx crz cu1".split())
# Those that it declares too, and that a text may declare anew.
FURTHER = frozenset("p u swap sx sxdg cp cswap ccz crx cry rzz".split())
HEADER = FIRST | FURTHER
FUNCTIONS = frozenset("sin cos tan exp ln sqrt".split())
KEYWORDS = frozenset("include qreg creg gate opaque if barrier measure reset pi".split()) | FUNCTIONS
BUILT_IN = frozenset(("OPENQASM", "U", "CX"))

_TOKEN = re.compile(
    r"(?P<space>\s+|//[^\n]*)"
    r"|(?P<string>\"[^\"\n]*\")"
    r"|(?P<number>(?:\d+\.\d*|\.\d+|\d+)(?:[eE][-+]?\d+)?)"
    r"|(?P<word>[^\W\d]\w*)"
    r"|(?P<sign>->|==|[;,()\[\]{}+\-*/^])"
    r"|(?P<bad>.)",
    re.S,
)
_ENDS = re.compile(r"//[^\n]*|\"[^\"\n]*\"|[;{}]")
_SIMPLE = re.compile(r"[^;{}\"/]*(?:/(?!/)[^;{}\"/]*)*;")
_SPACE = re.compile(r"(?:\s+|//[^\n]*)*")
_COMMENT = re.compile(r"//[^\n]*|\"[^\"\n]*\"")
_CALL = re.compile(r"([^\W\d]\w*)\s*(?:\((.*)\)\s*|(?=\s))([^()]*);", re.S)
_HEAD = re.compile(r"[^\W\d]\w*")


class QasmError(ValueError):
    """A text can't be worked on: `sentence` says why, `line` where, from 1 on."""

    def __init__(self, sentence: str, line: int) -> None:
        super().__init__(f"line {line}: {sentence}")
        self.sentence = sentence
        self.line = line


class Token(NamedTuple):
    """A piece of a text: `kind` is space (comments too), string, number, word, sign or bad."""

    kind: str
    text: str


class Call(NamedTuple):
    """An application of a gate: its name, the texts of its angles, and of its qubits or registers."""

    name: str
    angles: tuple[str, ...]
    places: tuple[str, ...]


class Statement:
    """A statement: `space` and comments before it, its `text` up to its `;` or `}`, and the `line` of its first letter.

    `lead` is what a rewrite puts before the text, in the same line.
    """

    __slots__ = ("space", "lead", "text", "line")

    def __init__(self, space: str, text: str, line: int) -> None:
        self.space = space
        self.lead = ""
        self.text = text
        self.line = line

    def head(self) -> str:
        """The first word, or an empty text where none stands there."""
        found = _HEAD.match(self.text)
        return found[0] if found else ""

    def blank(self) -> None:
        """Takes the statement out, its line ends aside."""
        self.text = "\n" * self.text.count("\n")


def split(text: str) -> tuple[list[Statement], Statement]:
    """The statements of a text in their order, and what is left behind the last one.

    A statement ends at its first `;` outside braces, or at the brace that closes its first one. Joined, the spaces and
    texts of all give the text that was read. Block comments have to be out.
    """
    out: list[Statement] = []
    start, line = 0, 1
    while True:
        begin = _space_end(text, start)
        space = text[start:begin]
        line += 1 if space == "\n" else space.count("\n")
        found = _SIMPLE.match(text, begin)
        end = found.end() if found else _long_end(text, begin)
        if end is None:
            return out, Statement(space, text[begin:], line)
        said = text[begin:end]
        out.append(Statement(space, said, line))
        line += said.count("\n")
        start = end


def _space_end(text: str, at: int) -> int:
    found = _SPACE.match(text, at)
    return found.end() if found else at


def _long_end(text: str, at: int) -> Optional[int]:
    """The end of a statement that has braces, strings or comments in it, or none where it has no end."""
    depth = 0
    for found in _ENDS.finditer(text, at):
        sign = found[0]
        if sign == "{":
            depth += 1
        elif sign == "}":
            depth -= 1
        elif sign != ";":
            continue
        if depth <= 0:
            return found.end()
    return None


def tokens(text: str) -> Iterator[Token]:
    """The tokens of a text, which they make up whole."""
    for found in _TOKEN.finditer(text):
        yield Token(found.lastgroup or "bad", found[0])


def code(text: str) -> list[str]:
    """The tokens of a text but for white space and comments, as texts."""
    return [found[0] for found in _TOKEN.finditer(text) if found.lastgroup != "space"]


def without_comments(text: str) -> str:
    """A statement's text with a space in place of each comment."""
    if "//" not in text:
        return text
    return _COMMENT.sub(lambda it: " " if it[0][0] == "/" else it[0], text)


def squeezed(text: str) -> str:
    """A statement in one line, without comments."""
    return " ".join(without_comments(text).split())


def call(text: str) -> Optional[Call]:
    """A statement as the application of a gate, or none where it isn't one.

    Names that aren't gates' (`measure`, `if` and the like) are taken for none; angles and places aren't looked at.
    """
    found = _CALL.fullmatch(without_comments(text).strip())
    if not found or found[1] in KEYWORDS or found[1] == "OPENQASM":
        return None
    angles = tuple(comma_parts(found[2])) if found[2] and found[2].strip() else ()
    return Call(found[1], angles, tuple(it.strip() for it in found[3].split(",")))


def comma_parts(text: str) -> list[str]:
    """The pieces of a list at its commas outside of parentheses, without white space around them."""
    if "(" not in text:
        return [it.strip() for it in text.split(",")]
    out, start, depth = [], 0, 0
    for at, letter in enumerate(text):
        if letter == "(":
            depth += 1
        elif letter == ")":
            depth -= 1
        elif letter == "," and depth == 0:
            out.append(text[start:at].strip())
            start = at + 1
    return [*out, text[start:].strip()]


class Declaration(NamedTuple):
    """A declared gate: its name, the names of its angles and qubits, and its body's statements (none if opaque)."""

    name: str
    angles: tuple[str, ...]
    qubits: tuple[str, ...]
    body: tuple[Call, ...]
    is_opaque: bool


_DECLARED = re.compile(r"(gate|opaque)\s+([^\W\d]\w*)\s*(?:\(([^()]*)\))?([^{;]*)(?:\{(.*)\}|;)", re.S)


@lru_cache(maxsize=1 << 14)
def declaration(text: str) -> Optional[Declaration]:
    """The parts of a `gate` or an `opaque` statement, or none where it doesn't have the form of one.

    Barriers of the body are left out. A body with another statement than applications and barriers gives none.
    """
    found = _DECLARED.fullmatch(without_comments(text).strip())
    if not found:
        return None
    body = []
    for statement in (found[5] or "").split(";")[:-1]:
        one = call(statement.strip() + ";")
        if one:
            body.append(one)
        elif not statement.split() or statement.split()[0] != "barrier":
            return None
    names = [tuple(it.strip() for it in (part or "").split(",") if it.strip()) for part in (found[3], found[4])]
    return Declaration(found[2], names[0], names[1], tuple(body), found[1] == "opaque")


_REGISTER = re.compile(r"(qreg|creg)\s+([^\W\d]\w*)\s*\[\s*(\d+)\s*\]\s*;")


def register(text: str) -> Optional[tuple[str, str, int]]:
    """`qreg` or `creg`, the name and the size of a register's declaration, or none where the text isn't one."""
    found = _REGISTER.fullmatch(without_comments(text).strip())
    return (found[1], found[2], int(found[3])) if found and len(found[3]) < 12 else None
