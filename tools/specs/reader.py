"""Reads a file of definitions, `specs/*.antt`: its first comment, its imports, and each definition with its place."""
from __future__ import annotations

import re
from dataclasses import dataclass, field
from pathlib import Path
from typing import Iterable, Iterator, NamedTuple, Optional

# What can stand before the name of a definition, in any number, and what begins a line that defines nothing.
KEYWORDS = {"abbrev", "pub", "unfoldable", "data", "record", "abstract", "opaque"}
NO_DEFINITION = {"module", "use", "mod", "infix", "infixl", "infixr", "ruleset", "open"}
# `use M.{a, b as c}`, which may stand over several lines, and `use M as c`.
IMPORT = re.compile(r"^(?:ghost )?(pub )?use ([^{;\s]+?)(?:\.\{([^}]*)\}|[ ]as[ ](\w+))?;?[ \t]*$", re.M)
COMMENT = re.compile(r"(?m)(^|[ \t])--+([ \t].*)?$")
SIGNATURE = re.compile(r"\S+( \{[^}]*\}| \([^)]*\))* :(\s|$)")
TOKEN = re.compile(r"[^\s()\[\]{}.,;]+")
# Names of fields: `.field` of a value, `field = ` in a value, and `field : ` in a record.
FIELD = re.compile(r"(?<=[\w)])\.\w+|(?<=[{;])\s*\w+(?= =)|(?m:^  (?:pub )?[\w ]+(?= : ))")


class Import(NamedTuple):
    """Where a name comes from: the module, the name there (none for a whole module), and whether it is passed on."""

    module: str
    name: Optional[str]
    is_public: bool


class Line(NamedTuple):
    """A line of a file, by its number from 1, as it stands there."""

    number: int
    text: str


@dataclass
class Definition:
    """A definition: the lines that it stands on, and the comment above it."""

    name: str
    lines: list[Line] = field(default_factory=list)
    comment: list[Line] = field(default_factory=list)
    names: list[str] = field(default_factory=list)

    @property
    def code(self) -> list[str]:
        """Its lines without comments and blank ones."""
        stripped = (COMMENT.sub("", line.text) for line in self.lines)
        return [text for text in stripped if text.strip()]

    @property
    def equations(self) -> Iterator[tuple[str, str]]:
        """The two sides of each equation, on one line each."""
        for equation in re.split(r"\n(?=\S)", "\n".join(self.code))[1:]:
            left, _, right = equation.partition(" =")
            yield left, " ".join(right.split())


def imports_of(text: str) -> dict[str, Import]:
    """What the names that a text takes from elsewhere stand for, whole modules too."""
    taken: dict[str, Import] = {}
    for is_public, module, names, alias in IMPORT.findall(text):
        if alias:
            taken[alias] = Import(module, None, False)
        for name in names.split(","):
            there, _, here = name.strip().partition(" as ")
            if there:
                taken[here.strip() or there] = Import(module, there, bool(is_public))
    return taken


def first_comment(path: Path) -> list[Line]:
    """The lines of the comment that a file begins with."""
    lines = []
    for number, text in enumerate(path.read_text(encoding="utf-8").splitlines(), 1):
        if not text.startswith("--"):
            break
        lines.append(Line(number, text))
    return lines


class Specs:
    """A file of definitions. `definitions` has them in their order, and `by_name` by the names that they declare.

    Fields of records are none of these: who uses one has a value of the record, whose type is written where the value
    comes from.
    """

    def __init__(self, path: Path) -> None:
        text = path.read_text(encoding="utf-8")
        self.path = path
        self.head = first_comment(path)
        self.imports = imports_of(COMMENT.sub("", text))
        self.definitions: list[Definition] = []
        self.by_name: dict[str, Definition] = {}
        self.fields: set[str] = set()
        self._read(IMPORT.sub(lambda found: "\n" * found.group(0).count("\n"), text))

    def _read(self, text: str) -> None:
        """Takes the lines in. Comments and blank lines wait until it is known to which definition they belong."""
        definition: Optional[Definition] = None
        waiting: list[Line] = []
        is_inside = False  # of a `module _ .. where`, whose definitions stand two columns to the right
        for number, raw in enumerate(text.split("\n"), 1):
            line = COMMENT.sub("", raw)
            if not line.strip():
                waiting.append(Line(number, raw))
                continue
            if line[0] != " ":
                is_inside = line.startswith("module ")
            if is_inside:
                line = line[2:]
            if self._begins(line):
                definition = self._add(line, waiting)
            elif line.split()[0] in NO_DEFINITION and not line[0].isspace():
                definition = None
            elif definition is not None:
                definition.lines += waiting
                if line[0].isspace():
                    self._declare_inside(definition, line)
            if definition is not None:
                definition.lines.append(Line(number, raw))
            waiting = []

    @staticmethod
    def _begins(line: str) -> bool:
        """Whether a line begins a definition."""
        word = line.split()[0] if not line[0].isspace() else ""
        return word in KEYWORDS or word == "mutual" or bool(
            word and word not in NO_DEFINITION and SIGNATURE.match(line))

    def _add(self, line: str, above: list[Line]) -> Definition:
        """A new definition, whose comment is what stands right above it."""
        name = next((word for word in line.split() if word not in KEYWORDS), "")
        comment: list[Line] = []
        for before in reversed(above):
            if not before.text.strip():
                break
            comment.insert(0, before)
        definition = Definition(name, comment=comment)
        self.definitions.append(definition)
        self._declare(definition, name)
        return definition

    def _declare(self, definition: Definition, name: str) -> None:
        definition.names.append(name)
        self.by_name.setdefault(name, definition)

    def _declare_inside(self, definition: Definition, line: str) -> None:
        """Constructors, fields, and the definitions of a `mutual` block."""
        first = definition.lines[0].text.split()
        if not {"data", "record", "mutual"} & set(first):
            return
        named = re.match(r"\s+(?:(?:%s) )*((?:[^\s:(){}]+ )+): ?" % "|".join(KEYWORDS), line)
        for name in named.group(1).split() if named else ():
            if "record" in first:
                self.fields.add(name)
            else:
                self._declare(definition, name)
        block = re.match(r"\s+(?:pub |data |record )+(\S+)", line)
        if block and "mutual" in first:
            self._declare(definition, block.group(1))


def spelled(names: Iterable[str]) -> dict[str, set[str]]:
    """Of each sign or word that a text may have, the names that it is a part of: `++` of `◌++◌`."""
    parts: dict[str, set[str]] = {}
    for name in names:
        for part in name.split("◌"):
            if part:
                parts.setdefault(part, set()).add(name)
    return parts


def cited(text: str, names: Iterable[str]) -> set[str]:
    """Those of the names that occur in a text, other than as the names of fields. An arrow `←` of `do` is `◌>>=◌`."""
    parts = spelled(names)
    tokens = TOKEN.findall(FIELD.sub("", text).replace("←", ">>="))
    return {name for token in tokens for name in parts.get(token, ())}
