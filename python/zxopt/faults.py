"""The faults for which the program refuses a text, and the exception that tells one.

The file `faults.tsv` has them all, with what each means and what to do; the script `where` reads it too.
"""
from __future__ import annotations

import re
from typing import AbstractSet, Iterator, Mapping, NamedTuple, Optional, Sequence

from .data import read_data
from .qasm import BUILT_IN, HEADER, KEYWORDS

__all__ = ["Fault", "FAULTS", "NoFlow", "Refused"]

# How many characters of the line are shown from the place of a fault on.
SHOWN = 60


class Fault(NamedTuple):
    """A reason for which the program refuses a text: what it means, and what to do then."""

    number: int
    name: str
    sentence: str
    remedy: str


def _faults() -> Iterator[Fault]:
    for line in read_data("faults.tsv").splitlines()[1:]:
        number, name, sentence, remedy = line.split("\t")
        yield Fault(int(number), name, sentence, remedy)


FAULTS: Mapping[int, Fault] = {fault.number: fault for fault in _faults()}

# Those that have no place.
WITHOUT_PLACE = frozenset((1, 4, 25, 26))
# The fault whose place is the number of a line, and not a byte.
_BAD_LINE = 21
# Those that are of one name: it is declared twice, or isn't declared.
_REDECLARED = 7
_UNKNOWN = 10

_DECLARED = re.compile(r"\b(gate|qreg|creg|opaque)\s+(\w+)")
_IDENTIFIER = re.compile(r"(?<![\w.])[A-Za-z]\w*")


class Refused(ValueError):
    """The program refuses a text.

    number: the fault's number, a key of `FAULTS` unless the program is newer than this package.
    name: its name, such as "Unsupported".
    place: where it is, in bytes from 0 in the text as UTF-8; of a file of a graph or a diagram (fault 21)
        the number of the line, from 1; None where the fault has no place.
    line, column: the same as numbers from 1, the column counted in bytes; None where there is none.
    which: 1 or 2 where two texts were compared, for the one that is refused, to which the place belongs; else None.
    excerpt: what stands in the line from that place on, 60 characters of it at most.
    identifier: the name at fault, where one is declared twice or isn't declared and the statement shows which; else "".
    sentence: what the fault means, in words.
    hint: what to do.
    """

    def __init__(
        self,
        number: int,
        name: str,
        place: Optional[int] = None,
        line: Optional[int] = None,
        column: Optional[int] = None,
        which: Optional[int] = None,
        excerpt: str = "",
        identifier: str = "",
    ) -> None:
        super().__init__(number, name, place, line, column, which, excerpt, identifier)
        self.number = number
        self.name = name
        self.place = place
        self.line = line
        self.column = column
        self.which = which
        self.excerpt = excerpt
        self.identifier = identifier
        known = FAULTS.get(number)
        self.sentence = known.sentence if known else "a fault that this package doesn't know"
        self.hint = known.remedy if known else "this program is newer than the package: install that of its version"

    @classmethod
    def at(cls, number: int, name: str, place: Optional[int], text: bytes, which: Optional[int] = None) -> "Refused":
        """The refusal of these bytes with a fault at a place, as the program tells it."""
        if place is None:
            return cls(number, name, which=which)
        if number == _BAD_LINE:
            lines = text.split(b"\n", place)
            shown = lines[place - 1] if 0 < place <= len(lines) else b""
            return cls(number, name, place, place, None, which, _shown(shown))
        begin = text.rfind(b"\n", 0, place) + 1
        line = text.count(b"\n", 0, place) + 1
        rest = text[place : place + 4 * SHOWN].split(b"\n", 1)[0]
        identifier = _identifier_at_fault(number, text, place)
        return cls(number, name, place, line, place - begin + 1, which, _shown(rest), identifier)

    @classmethod
    def told(cls, said: str, text: bytes) -> Optional["Refused"]:
        """The refusal that a line of the program's standard error tells of these bytes, or None if it tells none."""
        found = re.fullmatch(r"zxopt: fault ([0-9]+) ([A-Za-z]+)(?: at ([0-9]+))?", said)
        if found is None:
            return None
        place = None if found[3] is None else int(found[3])
        return cls.at(int(found[1]), found[2], place, text)

    @property
    def where(self) -> str:
        """The place as `LINE:COLUMN`, `LINE`, or nothing; of two texts, `first` or `second` stands before it."""
        parts = [str(part) for part in (self.line, self.column) if part is not None]
        text = {1: ["first"], 2: ["second"]}.get(self.which or 0, [])
        return ":".join(text + parts)

    def __str__(self) -> str:
        place = self.where
        identifier = f": {self.identifier}" if self.identifier else ""
        shown = f": {self.excerpt}" if self.excerpt else ""
        return f"{place}{': ' if place else ''}{self.sentence}{identifier} (fault {self.number} {self.name}){shown}"


class NoFlow(ValueError):
    """A diagram's graph-like form has no flow, so there is no circuit to be taken off it.

    vertices: those of the form that show it, by rising number: the largest set that no flow can bring into an order.
    """

    def __init__(self, vertices: tuple[int, ...]) -> None:
        super().__init__(vertices)
        self.vertices = vertices

    def __str__(self) -> str:
        return "no flow; left are the vertices " + " ".join(map(str, self.vertices))


def _identifier_at_fault(number: int, text: bytes, place: int) -> str:
    """The name at fault in the statement at a place: the first one that isn't declared before as a gate or a register, or
    that is declared again. Nothing for faults of other kinds, and where the statement doesn't show it."""
    if number not in (_REDECLARED, _UNKNOWN):
        return ""
    before, statement = _code(text[:place]), _code(text[place:])
    gates = BUILT_IN | KEYWORDS | (HEADER if re.search(r"\binclude\b", before) else frozenset())
    registers = KEYWORDS
    for kind, name in _DECLARED.findall(before):
        if kind in ("gate", "opaque"):
            gates |= {name}
        else:
            registers |= {name}
    head = re.split(r"[;{]", statement, maxsplit=1)[0]
    first, *others = _IDENTIFIER.findall(head) or [""]
    if number == _REDECLARED:
        return _twice(others, gates | registers)
    if first == "gate":
        body = statement[len(head) + 1 :].split("}", 1)[0]
        return next(filter(None, (_unknown(it, gates, KEYWORDS | set(others[1:])) for it in body.split(";"))), "")
    return _unknown(head, gates, registers)


def _unknown(statement: str, gates: AbstractSet[str], places: AbstractSet[str]) -> str:
    """The first name of an application that is none of these gates or, behind the gate, none of these places."""
    names: list[str] = _IDENTIFIER.findall(statement)
    known = [gates, *[places] * len(names)]
    return next((name for name, declared in zip(names, known) if name not in declared), "")


def _twice(names: Sequence[str], declared: AbstractSet[str]) -> str:
    """The first name of a declaration if that is declared already, or else the first one that stands twice."""
    if names and names[0] in declared:
        return names[0]
    return next((name for at, name in enumerate(names) if name in names[:at]), "")


def _code(text: bytes) -> str:
    """A text without its comments."""
    return re.sub(r"//[^\n]*", "", text.decode("utf-8", "replace"))


def _shown(line: bytes) -> str:
    """What is shown of a line: its first characters, with a mark for what can't be printed."""
    text = line.decode("utf-8", "replace").rstrip("\r")
    shown = "".join(char if char.isprintable() else "?" for char in text[:SHOWN])
    return shown + ("..." if len(text) > SHOWN else "")
