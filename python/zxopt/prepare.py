"""Makes of an OpenQASM 2 text of the usual tools one that the program `zxopt` reads: `python3 -m zxopt prepare`.

The map and the measurements of a text stay exactly the same, with one exception that has to be asked for: where a
distance is given, angles that lie so close to a multiple of pi/8 become that multiple, and the greatest move is told.
Lines keep their numbers, each change is told with its line, and a text that was prepared stays as it is when it is
prepared again.

This stands outside of the proved program: what is proved is about the text that the program reads and writes, which is
the one that is written here.
"""
from __future__ import annotations

import argparse
import re
import sys
from dataclasses import dataclass
from typing import Optional, Sequence

from . import angles, arguments, cli, names
from .library import library, with_needs
from .qasm import HEADER, Declaration, QasmError, Statement, call, code, declaration, register, split, squeezed
from .rounded import NOT_ANGLES, angle_lists, angles_begin, rounded_angles, told
from .sources import Change, decoded, plain
from .texts import Text

GREATEST_WITHIN = 0.1
_INCLUDE = re.compile(r"include\s*([\"'<])\s*([^\"'<>\n]*?)\s*[\"'>]\s*;")
# Files whose gates the header and the library have.
_HEADERS = re.compile(r"(?:.*[/\\])?(qelib1|hqslib1|hqslib1_dev|stdgates)\.inc", re.I)
_VERSION = re.compile(r"(?:OPEN|IBM)QASM\s+(\d+)(?:\.(\d+))?\s*;", re.I)
_FOREIGN = re.compile(r"(?:qubit|bit|const|input|output|def|defcal|cal|let|extern|pragma|box)\b\s*[\[\w(]")


class CannotPrepare(QasmError):
    """The text isn't one of OpenQASM 2; `line` says where that shows, `sentence` how."""


@dataclass(frozen=True)
class Prepared:
    """A text for the program, what was changed in which line, and by how many radians an angle was moved at most.

    rounded: how many angles of the text lie within 1e-9 of a multiple of pi/8 and aren't one; a distance takes them.
    """

    text: str
    changes: tuple[Change, ...]
    greatest_move: float
    rounded: int = 0


def prepare(text: Text, *, within: Optional[float] = None) -> Prepared:
    """The text, or that of a file, as the program reads it, with exactly the same map.

    `within`, in radians, at most 0.1: angles that are no multiple of pi/8 and lie so close to one become it. Raises
    CannotPrepare where the text isn't OpenQASM 2 at all, and ValueError where `within` is out of its range.
    """
    if within is not None and not 0 <= within <= GREATEST_WITHIN:
        raise ValueError(f"a distance of angles is from 0 to {GREATEST_WITHIN} radians")
    try:
        return _Work(text, within).done()
    except CannotPrepare:
        raise
    except QasmError as error:
        raise CannotPrepare(error.sentence, error.line) from None


class _Work:
    """A text in the making: its statements, and what was changed."""

    def __init__(self, text: Text, within: Optional[float]) -> None:
        self.changes: list[Change] = []
        self.statements, self.rest = split(plain(decoded(text, self.changes), self.changes))
        self.within = within
        self.greatest_move = 0.0
        self.mended: dict[tuple[str, bool], str] = {}
        if self.rest.text.strip():
            raise CannotPrepare("a statement begins here and has no end", self.rest.line)

    def tell(self, line: int, what: str) -> None:
        self.changes.append(Change(line, what))

    def done(self) -> Prepared:
        self.check_kind()
        names.mend_keywords(self.statements, self.tell)
        self.mend_statements()
        head = self.take_head()
        self.statements = [it for it in self.statements if it.text or it.space or it.lead]
        names.mend_words(self.statements, self.tell)
        self.declared = self.find_declared()
        self.mend_delays()
        self.used = self.find_used()
        self.leave_out_opaque()
        self.leave_out_resets()
        self.mend_angles()
        self.bring_forward()
        self.put_head(*head)
        out = "".join(f"{it.space}{it.lead}{it.text}" for it in [*self.statements, self.rest])
        changes = tuple(sorted(self.changes, key=lambda it: it.line))
        return Prepared(out, changes, self.greatest_move, rounded_angles(self.statements))

    # -- the head of the text -----------------------------------------------------------------------------------------

    def check_kind(self) -> None:
        """Refuses texts of other languages by name."""
        if not self.statements:
            raise CannotPrepare("there is no statement", 1)
        for it in self.statements:
            found = _VERSION.match(it.text) if it.text[0] in "oOiI" else None
            if found and found[1] != "2":
                raise CannotPrepare(f"the text is OpenQASM {found[1]}; export it as OpenQASM 2.0", it.line)
            if found and (found[2] or "0").strip("0"):
                raise CannotPrepare(f"OpenQASM has no version {found[1]}.{found[2]}", it.line)
        for it in self.statements:
            if _FOREIGN.match(it.text) and not re.match(r"(?:box|let|cal|def)\s*[\w(]*[^=]*;", it.text):
                told = f"{it.head()} is a statement of OpenQASM 3; export the text as OpenQASM 2.0"
                raise CannotPrepare(told, it.line)

    def mend_statements(self) -> None:
        """Empty statements, registers without places, and barriers without arguments."""
        registers: list[str] = []
        for it in self.statements:
            first = it.text[0]
            if first == ";" and len(it.text) == 1:
                self.tell(it.line, "an empty statement is left out")
                it.text = ""
            elif first in "qc" and (found := register(it.text)):
                self.mend_register(it, found)
                registers += [found[1]] * (found[0] == "qreg" and found[2] > 0)
            elif first == "b" and code(it.text) == ["barrier", ";"]:
                self.tell(it.line, "a barrier without qubits names all registers")
                it.text = f"barrier {','.join(registers)};" if registers else ""

    def mend_register(self, it: Statement, found: tuple[str, str, int]) -> None:
        size = code(it.text)[3]
        if found[2] == 0:
            word = re.compile(rf"\b{re.escape(found[1])}\b")
            if not any(word.search(other.text) for other in self.statements if other is not it):
                self.tell(it.line, f"the register {found[1]} has no place, and is left out")
                it.text = ""
        elif size != str(found[2]):
            self.tell(it.line, f"the size {size} is written as {found[2]}")
            it.text = f"{found[0]} {found[1]}[{found[2]}];"

    def take_head(self) -> tuple[bool, bool]:
        """Brings the version to its place, and takes out includes that don't stand behind it.

        Answers whether the version has to be put first, and whether some header has to be put behind it.
        """
        code_statements = [it for it in self.statements if it.text.strip()]
        if not code_statements:
            raise CannotPrepare("no statement is left", self.statements[0].line)
        first = code_statements[0]
        versions = [it for it in code_statements if it.text[0] in "oOiI" and _VERSION.match(it.text)]
        is_first = bool(versions) and versions[0] is first and code(versions[0].text) == ["OPENQASM", "2.0", ";"]
        for it in versions[is_first:]:
            is_here = it is first
            self.tell(it.line, "the version is written OPENQASM 2.0;" if is_here else "the version is left out here")
            it.blank()
        if not versions or versions[0] is not first:
            self.tell(first.line, "the version OPENQASM 2.0; is put first")
        has_header = self.take_includes(code_statements)
        return not is_first, has_header

    def take_includes(self, statements: list[Statement]) -> bool:
        """Spells includes of known headers; whether one was taken out and has to be put to the front."""
        is_early, has_one, has_to_come = True, False, False
        for it in statements:
            found = _INCLUDE.fullmatch(it.text) if it.text.startswith("include") else None
            if not found:
                is_early = is_early and (not it.text.strip() or it.head() in ("OPENQASM", "qreg", "creg"))
                continue
            if not _HEADERS.fullmatch(found[2]):
                continue
            if has_one:
                self.tell(it.line, "a further include is left out")
                it.blank()
            elif not is_early:
                self.tell(it.line, "the include is put behind the version")
                it.blank()
                has_to_come = True
            elif it.text != 'include "qelib1.inc";':
                is_spelled = found[2] == "qelib1.inc" and found[1] == '"'
                if not is_spelled:
                    self.tell(it.line, f"{found[2]} is taken for qelib1.inc")
                    it.text = 'include "qelib1.inc";'
            has_one = True
        return has_to_come

    def put_head(self, version: bool, include: bool) -> None:
        """Puts what the text lacks in its head, and renames what clashes with the header."""
        place = next((it for it in self.statements if it.head() == "include" and "qelib1.inc" in it.text), None)
        lacking = [it for it in self.used if it not in self.declared and it not in ("U", "CX")]
        added = with_needs({it for it in lacking if it in library()})
        if not include and place is None and (added or any(it in HEADER for it in lacking)):
            cause = next((it for it in lacking if it in HEADER), added[0] if added else "")
            self.tell(self.statements[0].line, f'include "qelib1.inc"; is put behind the version, for {cause}')
            include = True
        includes = include or place is not None
        for name in added:
            if name in self.used:
                self.tell(self.used[name], f"{name} is declared, as Qiskit's and other headers have it")
        names.mend_clashes(self.statements, includes, set(self.used) | set(added), self.tell)
        gates = [library()[it].text for it in added if it not in self.declared]
        lead = ["OPENQASM 2.0;"] * version + ['include "qelib1.inc";'] * include
        if place is not None and not include:
            place.text = " ".join([place.text, *gates])
            gates = []
        self.put_first(lead, gates, version)

    def put_first(self, lead: list[str], gates: list[str], version: bool) -> None:
        """Puts statements into the line of the first one: before it, or behind it where it is the version."""
        first = next((it for it in self.statements if it.text.strip()), self.rest)
        if version:
            first.lead = " ".join([*lead, *gates, first.lead])
        elif lead or gates:
            first.text = " ".join([first.text, *lead, *gates])

    # -- what is declared and used ------------------------------------------------------------------------------------

    def find_declared(self) -> dict[str, Declaration]:
        """The gates that the text declares, opaque ones too, by their names."""
        out: dict[str, Declaration] = {}
        for it in self.statements:
            if it.text[:1] in ("g", "o") and it.head() in ("gate", "opaque"):
                one = declaration(it.text)
                if one:
                    out.setdefault(one.name, one)
        return out

    def find_used(self) -> dict[str, int]:
        """The names of gates that are applied, in bodies too, each with the first line."""
        out: dict[str, int] = {}
        for it in self.statements:
            head = it.head()
            if head in ("gate", "opaque"):
                one = declaration(it.text)
                for inner in one.body if one else ():
                    out.setdefault(inner.name, it.line)
            elif head == "if":
                for name in names.conditioned(it.text):
                    out.setdefault(name, it.line)
            elif head and head not in names.STATEMENTS and it.text[len(head)] in " \t\r\n(/":
                out.setdefault(head, it.line)
        return out

    def mend_delays(self) -> None:
        """Leaves delays out; where a gate's body has one, the opaque gate becomes one that does nothing."""
        own = self.declared.get("delay")
        if own is not None and not own.is_opaque:
            return
        in_body = any(inner.name == "delay" for one in self.declared.values() for inner in one.body)
        for it in self.statements:
            if it.text.startswith("delay") and call(it.text) and it.head() == "delay":
                self.tell(it.line, "a delay is left out")
                it.blank()
            elif in_body and own is not None and it.head() == "opaque" and code(it.text)[1] == "delay":
                self.tell(it.line, "delay is declared as a gate that does nothing")
                it.text = squeezed(it.text).replace("opaque", "gate", 1).rstrip("; ") + " { }"
        self.declared = self.find_declared()

    def leave_out_opaque(self) -> None:
        """Leaves opaque gates out that nothing uses."""
        for it in self.statements:
            if it.text.startswith("opaque") and (one := declaration(it.text)) and one.name not in self.used:
                self.tell(it.line, f"opaque {one.name} is left out: nothing uses it")
                it.blank()
                self.declared.pop(one.name, None)

    def leave_out_resets(self) -> None:
        """Leaves resets out on whose qubits nothing has acted: qubits begin in 0."""
        if not any(it.text.startswith("reset") for it in self.statements):
            return
        sizes: dict[str, int] = {}
        touched: dict[str, Optional[set[int]]] = {}
        for it in self.statements:
            head = it.head()
            found = register(it.text) if head == "qreg" else None
            if found:
                sizes[found[1]] = found[2]
            if head in ("gate", "opaque", "qreg", "creg", "barrier", "include", "OPENQASM", ""):
                continue
            places = _named_places(it.text, sizes)
            if head == "reset" and places and not any(_is_touched(touched, *place) for place in places):
                self.tell(it.line, "a reset is left out: nothing has acted there, and qubits begin in 0")
                it.blank()
                continue
            for name, index in places:
                if index is None:
                    touched[name] = None
                elif touched.setdefault(name, set()) is not None:
                    touched[name].add(index)  # type: ignore[union-attr]

    # -- angles -------------------------------------------------------------------------------------------------------

    def mend_angles(self) -> None:
        """Respells angles, and rounds those of a given distance."""
        unchanged: set[str] = set()
        for it in self.statements:
            if "(" not in it.text or it.text[: it.text.rfind(")")] in unchanged:
                continue
            begin = angles_begin(it)
            if begin is None:
                continue
            text = it.text[:begin] + self.with_angles(it.text[begin:], it.line)
            if text == it.text and begin == 0:
                unchanged.add(text[: text.rfind(")")])
            it.text = text

    def with_angles(self, text: str, line: int) -> str:
        """A piece of applications with its angles mended: each outer pair of parentheses behind a name holds a list."""
        out, at = [], 0
        for name, begin, end in angle_lists(text):
            out.append(text[at:begin])
            its_line = line + text.count("\n", 0, begin)
            out.append(self.with_list(text[begin:end], name not in NOT_ANGLES, its_line))
            at = end
        return "".join([*out, text[at:]])

    def with_list(self, text: str, is_angles: bool, line: int) -> str:
        """A list of angles, each mended."""
        if not text.strip() or "//" in text:
            return text
        parts = text.split(",") if "(" not in text else _cut(text)
        return ",".join(self.with_angle(it, is_angles, line) for it in parts)

    def with_angle(self, text: str, is_angle: bool, line: int) -> str:
        mended = _mend(text, self.within if is_angle else None)
        if mended is None or mended.text == text.strip():
            return text
        if mended.move is None:
            self.tell(line, f"{' '.join(text.split())} is written as {mended.text}")
        else:
            self.tell(line, f"{' '.join(text.split())} is taken for {mended.text}, moved by {mended.move:.2g} radians")
            self.greatest_move = max(self.greatest_move, mended.move)
        return mended.text + "\n" * text.count("\n")

    # -- declarations behind their use --------------------------------------------------------------------------------

    def bring_forward(self) -> None:
        """Brings declarations that stand behind a use of their gate before it, into the line of that use."""
        places: dict[str, int] = {}
        for at, it in enumerate(self.statements):
            if it.text.startswith("gate") and (one := declaration(it.text)):
                places.setdefault(one.name, at)
        if not places:
            return
        bodies = {name: [it.name for it in one.body] for name, one in self.declared.items()}
        first: dict[str, int] = {}
        for at, it in enumerate(self.statements):
            head = it.head()
            one = declaration(it.text) if head == "gate" else None
            uses = bodies.get(one.name, []) if one else names.conditioned(it.text) if head == "if" else [head]
            for name in uses:
                if name in places and name not in HEADER:
                    first.setdefault(name, at)
        late = [name for name, at in first.items() if places[name] > at]
        for name in sorted(late, key=lambda it: first[it]):
            self.bring(name, first[name], places, bodies)

    def bring(self, name: str, target: int, places: dict[str, int], bodies: dict[str, list[str]]) -> None:
        """Brings a declaration, and before it those that its body needs, to a statement."""
        if places[name] <= target:
            return
        it, there = self.statements[places[name]], self.statements[target]
        text = squeezed(it.text)
        self.tell(it.line, f"the declaration of {name} is brought to line {there.line}, where it is used first")
        it.blank()
        places[name] = target
        there.lead = f"{text} {there.lead}"
        for inner in bodies[name]:
            if inner in places and inner != name:
                self.bring(inner, target, places, bodies)


def _mend(text: str, within: Optional[float]) -> Optional[angles.Mended]:
    return None if text.isdigit() and text[0] != "0" else angles.mend(text, within)


def _cut(text: str) -> list[str]:
    """The pieces of a list at its commas outside of parentheses, with their white space."""
    out, start, depth = [], 0, 0
    for at, letter in enumerate(text):
        depth += {"(": 1, ")": -1}.get(letter, 0)
        if letter == "," and depth == 0:
            out.append(text[start:at])
            start = at + 1
    return [*out, text[start:]]


def _named_places(text: str, sizes: dict[str, int]) -> list[tuple[str, Optional[int]]]:
    """The qubits that a statement names: a register and an index, or none for the whole register."""
    out: list[tuple[str, Optional[int]]] = []
    words = code(text)
    for at, word in enumerate(words):
        if word in sizes:
            is_single = words[at + 1 : at + 2] == ["["] and words[at + 2 : at + 3] and words[at + 2].isdigit()
            out.append((word, int(words[at + 2]) if is_single else None))
    return out


def _is_touched(touched: dict[str, Optional[set[int]]], name: str, index: Optional[int]) -> bool:
    if name not in touched:
        return False
    those = touched[name]
    return those is None or index is None or index in those


def command_parser(command: str) -> argparse.ArgumentParser:
    """The words of the command `prepare`."""
    about = (__doc__ or "").split("\n\n")[0].partition(": `")[0] + "."
    parser = arguments.takes_within(arguments.writes_one(arguments.parser(command, about)))
    parser.add_argument("--quiet", action="store_true", help="don't tell the changes")
    return parser


def command(asked: argparse.Namespace) -> int:
    """The command `prepare`: reads a file or standard input, writes standard output or a file, tells changes on
    standard error. Answers the exit status 0."""
    done = prepare(cli.read_text(asked.file), within=asked.within)
    cli.write_text(done.text, asked.to)
    if asked.quiet:
        return 0
    for change in done.changes:
        print(f"prepare: {change.line}: {change.what}", file=sys.stderr)
    if done.greatest_move:
        print(f"prepare: angles were moved by at most {done.greatest_move:.3g} radians", file=sys.stderr)
    if done.rounded:
        print(f"prepare: {told(done.rounded)}", file=sys.stderr)
    return 0


def main(argv: Sequence[str]) -> int:
    """The command `prepare` with these words, and its exit status: 1 where the text isn't OpenQASM 2, 70 where a file
    can't be read or written."""
    from zxopt.__main__ import main as run_command

    return run_command(["prepare", *argv])
