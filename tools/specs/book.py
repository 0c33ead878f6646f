"""Makes docs/BOOK.md: all definitions behind a call, in an order in which each stands on what came before it.

The hand-written text is `book.md`, beside this file. There `[definitions: NAME ..]` stands for what is behind the
call in the files of these names, `crate` or `crate/File`; `[code: FILE NAME ..]` for items of a file of code;
`[places: NAME ..]` for a table of definitions `crate/File.name`; and `[counts]` for a sentence.
"""
from __future__ import annotations

import difflib
import re
import textwrap
from dataclasses import dataclass, field
from pathlib import Path
from typing import Iterable

from .library import (CRATES, Clause, CodeType, Found, Library, clauses_of, code_lines, code_types, is_own,
                      path_shown, shown, worked_laws)
from .reader import Definition, Line, Specs, imports_of

TEMPLATE = Path(__file__).with_name("book.md")
# The heading of the chapter that can't be made where the toolchain isn't at hand.
CHAPTER_OF_TOOLCHAIN = "\n## 8. "
# Files of names for what worked examples speak of.
EXAMPLES = {"Worked.antt", "Examples.antt", "Constants.antt"}
# What worked examples may name besides: the text of the chapters says what it is.
EXPLAINED = {"after", "allowed", "table_after", "swap_two", "exchange_gates"}


@dataclass
class Section:
    """What the book shows of a file: its first comment and its definitions, and worked examples behind them."""

    path: Path
    blocks: list[list[Line]]
    definitions: list[Definition] = field(default_factory=list)
    worked: list[Clause] = field(default_factory=list)


def listing(lines: Iterable[Line]) -> list[str]:
    """Lines with their numbers in front, as a block."""
    return [f"    {line.number:4}  {line.text}".rstrip() for line in lines]


def wrapped(text: str) -> list[str]:
    """Running text in lines of at most 118 columns."""
    return textwrap.wrap(text, 118, break_long_words=False, break_on_hyphens=False)


def block_of(definition: Definition, values: dict[str, str]) -> list[Line]:
    """The comment and the lines of a definition; of a value whose type says all, only the line with its type."""
    lines = definition.lines[:1] if definition.name in values else definition.lines
    return definition.comment + [line for line in lines if line.text.strip()]


class Book:
    """The sections of the definitions behind some others, ordered, each with the worked examples that end there."""

    def __init__(self, library: Library, found: list[Found], values: dict[str, str]) -> None:
        self.library = library
        self.files: dict[Path, Specs] = {}
        taken: dict[Path, list[Definition]] = {}
        for one in found:
            self.files[one.file.path] = one.file
            taken.setdefault(one.file.path, []).append(one.definition)
        self.sections = {path: self._section(path, definitions, values) for path, definitions in taken.items()}
        self._types: set[CodeType] = set()
        self._order: list[Path] = []
        self._helpers: set[int] = set()

    def _section(self, path: Path, definitions: list[Definition], values: dict[str, str]) -> Section:
        definitions = sorted(definitions, key=lambda one: one.lines[0].number)
        blocks = [self.files[path].head] if is_own(path) else []
        return Section(path, blocks + [block_of(one, values) for one in definitions], definitions)

    def needs(self, path: Path) -> list[Path]:
        """The other files of the book that a file's definitions name. Of its own they only name those before them."""
        cited = set()
        for definition in self.sections[path].definitions:
            for one in self.library.cited_by(Found(self.files[path], definition)):
                cited.add(one.file.path)
                if one.file.path == path and one.definition.lines[0].number > definition.lines[0].number and is_own(path):
                    raise LookupError(f"{shown(path)}: {definition.name} stands on {one.definition.name}, below it")
        return sorted((cited & self.sections.keys()) - {path})

    def chapter(self, named: list[str]) -> list[Path]:
        """The files of a chapter, in the order in which they are named, but each behind those that it stands on."""
        wanted = [path for name in named for path in sorted(self.sections) if self._is_of(path, name)]
        begun = len(self._order)
        for path in wanted:
            self._place(path, set(wanted))
        return self._order[begun:]

    @staticmethod
    def _is_of(path: Path, name: str) -> bool:
        if not is_own(path):
            return name == "toolchain"
        return name in (path.relative_to(CRATES).parts[0], f"{path.relative_to(CRATES).parts[0]}/{path.stem}")

    def _place(self, path: Path, within: set[Path]) -> None:
        if path in self._order:
            return
        for needed in self.needs(path):
            if needed in within:
                self._place(needed, within)
            elif needed not in self._order and is_own(path) and is_own(needed):
                raise LookupError(f"book.md: {shown(path)} stands on {shown(needed)}, which comes later")
        self._order.append(path)

    def add_worked_examples(self) -> None:
        """Puts each clause of a worked law behind the last file that it is about, where it is about nothing else."""
        places = {path: number for number, path in enumerate(self._order) if is_own(path)}
        for path, law in worked_laws():
            for clause in clauses_of(path, law):
                cited = self._cited_by(clause)
                about = self.library.behind(one for one in cited if self._is_helper(one))
                known = [places[one.file.path] for one in cited + about if self._has(one)]
                others = {one.definition.name for one in cited if not self._has(one) and not self._is_helper(one)}
                if known and others <= EXPLAINED:
                    self.sections[self._order[max(known)]].worked.append(clause)

    def _cited_by(self, clause: Clause) -> list[Found]:
        """The definitions of this repository that a clause names."""
        imports = imports_of(clause.path.read_text(encoding="utf-8"))
        return [one for one in self.library.cited_in(clause.text, imports) if is_own(one.file.path)]

    def _has(self, one: Found) -> bool:
        """Whether the book has a definition in its own place, among those of this repository."""
        section = self.sections.get(one.file.path)
        return section is not None and is_own(one.file.path) and any(one.definition is it for it in section.definitions)

    def _is_helper(self, one: Found) -> bool:
        """Whether a definition is shown with the examples that name it."""
        return is_own(one.file.path) and not self._has(one) and one.file.path.name in EXAMPLES

    def helpers(self, clauses: list[Clause]) -> list[Found]:
        """The names for examples in these clauses, those aside that the book had before."""
        named = [one for clause in clauses for one in self._cited_by(clause) if self._is_helper(one)]
        found = [one for one in self.library.behind(named)
                 if self._is_helper(one) and id(one.definition) not in self._helpers]
        self._helpers |= {id(one.definition) for one in found}
        return sorted(found, key=lambda one: (one.file.path, one.definition.lines[0].number))

    def types_before(self, path: Path) -> list[CodeType]:
        """The types of the code that a file's definitions name and no file before it."""
        named = {one for definition in self.sections[path].definitions
                 for one in code_types("\n".join(definition.code), self.files[path].imports)}
        new = named - self._types
        self._types |= new
        return sorted(new)


def text_of_types(types: list[CodeType]) -> list[str]:
    """The sections of types of the code."""
    lines: list[str] = []
    for path in sorted({one.path for one in types}):
        names = ", ".join(f"`{one.name}`" for one in types if one.path == path)
        lines += [f"### {shown(path)}", "", f"Types of the code: {names}.", ""]
        for one in types:
            if one.path == path:
                lines += listing(code_lines(path, one.name)) + [""]
    return lines


def text_of_worked(book: Book, clauses: list[Clause]) -> list[str]:
    """The worked examples of a section: the names that they use, and the clauses."""
    lines: list[str] = []
    helpers = book.helpers(clauses)
    for path in sorted({one.file.path for one in helpers}):
        lines += [f"Names for the examples below, {shown(path)}:", ""]
        for one in helpers:
            if one.file.path == path:
                lines += listing(block_of(one.definition, {})) + [""]
    for path, law in dict.fromkeys((clause.path, clause.law) for clause in clauses):
        lines += [f"Worked, `{law}` of {shown(path)}:", ""]
        for clause in clauses:
            if (clause.path, clause.law) == (path, law):
                lines += listing(clause.lines)
        lines.append("")
    return lines


def text_of_section(book: Book, section: Section) -> list[str]:
    """A section: the types of the code that come first in it, the file's name, its lines, and worked examples."""
    lines = text_of_types(book.types_before(section.path))
    lines += [f"### {shown(section.path)}", ""]
    for block in section.blocks:
        lines += listing(block) + [""]
    return lines + text_of_worked(book, section.worked)


def text_of_code(words: list[str]) -> list[str]:
    """Public items of a file of code."""
    path = CRATES / words[0]
    lines = [f"### {words[0]}", ""]
    for name in words[1:]:
        lines += listing(code_lines(path, name)) + [""]
    return lines


def text_of_places(book: Book, rows: list[str]) -> list[str]:
    """A table of definitions, from rows `crate/File.name: what it says`, each with its place."""
    lines = ["| | Definition | Place | What it says |", "|---|---|---|---|"]
    for number, row in enumerate(rows, 1):
        named, what = row.split(": ", 1)
        file, name = named.split(".")
        path = (CRATES / file).parent / "specs" / (file.split("/")[1] + ".antt")
        definition = book.files[path].by_name[name]
        lines.append(f"| {number} | `{name}` | {shown(path)}:{definition.lines[0].number} | {what} |")
    return lines


def text_of_counts(found: list[Found], values: dict[str, str]) -> list[str]:
    """How much there is to read."""
    own = [one.definition for one in found if is_own(one.file.path) and one.definition.name not in values]
    lines = sum(len(definition.code) for definition in own)
    files = {one.file.path for one in found if is_own(one.file.path) and one.definition.name not in values}
    return wrapped(f"There are {len(own)} definitions of this repository, in {lines:,} lines of {len(files)} files, "
                   "comments aside. Chapter 8 has those of the toolchain's libraries.")


class Page:
    """The text of the book, made of the hand-written one by its directives."""

    def __init__(self, library: Library, found: list[Found], values: dict[str, str]) -> None:
        self.book, self.found, self.values = Book(library, found, values), found, values
        template = TEMPLATE.read_text(encoding="utf-8")
        self.parts = re.split(r"(?ms)^\[(definitions|code|places|counts)(?::\s(.*?))?\]$", template)
        self.chapters = {number: self.book.chapter(self.parts[number + 1].split())
                         for number, part in enumerate(self.parts) if part == "definitions"}
        left = set(self.book.sections) - {path for chapter in self.chapters.values() for path in chapter}
        if left:
            raise LookupError("book.md: no chapter has " + ", ".join(sorted(map(shown, left))))
        self.book.add_worked_examples()

    def directive(self, number: int) -> list[str]:
        """The lines for the directive at a place among the parts."""
        kind, text = self.parts[number], self.parts[number + 1] or ""
        words = text.split()
        if kind == "code":
            return text_of_code(words)
        if kind == "places":
            return text_of_places(self.book, text.strip().splitlines())
        if kind == "counts":
            return text_of_counts(self.found, self.values)
        return [line for path in self.chapters[number] for line in text_of_section(self.book, self.book.sections[path])]

    def text(self) -> str:
        """All of it."""
        made = ""
        for number in range(0, len(self.parts), 3):
            made += self.parts[number]
            if number + 1 < len(self.parts):
                made += "\n".join(self.directive(number + 1))
        return re.sub(r"\n{3,}", "\n\n", made).rstrip() + "\n"


def differences(committed: str, made: str) -> list[str]:
    """The first lines in which the committed book isn't the made one."""
    return list(difflib.unified_diff(committed.splitlines(), made.splitlines(), "docs/BOOK.md", "the sources", n=0,
                                     lineterm=""))[:12]


def misprints(committed: str, found: list[Found]) -> list[str]:
    """What the book prints otherwise than the file that a heading names, and which first lines it doesn't print."""
    wrong: list[str] = []
    printed: set[tuple[Path, int]] = set()
    path = CRATES
    lines: list[str] = []
    for text in committed.splitlines():
        heading = re.search(r"^### (\S+)$|(?: of |, )([\w/]+/\w+\.(?:antt|rt)):$", text)
        line = re.fullmatch(r"    +(\d+)  ?(.*)", text)
        if heading:
            path = path_shown(heading[1] or heading[2])
            lines = path.read_text(encoding="utf-8").splitlines() if path.is_file() else []
        elif line and path.is_file():
            printed.add((path, int(line[1])))
            if lines[int(line[1]) - 1].rstrip() != line[2]:
                wrong.append(f"{shown(path)}:{line[1]} isn't: {line[2]}")
    firsts = {(one.file.path, one.definition.lines[0].number) for one in found}
    return wrong + [f"{shown(path)}:{number} isn't printed" for path, number in sorted(firsts - printed)]
