"""Reads a text of OpenQASM 2 chunk by chunk, for `stream`: its operations go to a cutter as they come, and nothing but
declarations and what the cutter holds is kept.

A statement that was read before is known by its text, so most take one look into a dictionary. What is known speeds
reading up, and changes nothing else.
"""
from __future__ import annotations

import re
from operator import length_hint
from typing import Any, Callable, Iterator, Optional, Union

from . import windows
from .circuit import GREATEST_BROADCAST, CannotCut, Circuit
from .library import library
from .names import declared, unused, with_places
from .qasm import FIRST, HEADER, KEYWORDS, Statement, call, declaration, register, split, squeezed
from .schedule import Cutter, Limits, Node, Operation, Stay, Window
from .shapes import Shapes

__all__ = ["Reader"]

# How many statements are known at a time, and how many gates with their angles.
KNOWN = 100_000
SHAPES = 20_000
# A gate that weighs more than this is looked at each time.
KNOWN_WEIGHT = windows.GREATEST_CALLS // 10
_SKIPPED = re.compile(r"\"[^\"\n]*\"|//[^\n]*")

# A gate: its first two qubits (or one twice), all if there are more, its line as it is read, its weight, and on which
# qubits it is diagonal.
_Gate = tuple[int, int, Optional[tuple[int, ...]], str, int, tuple[bool, ...]]


class Reader:
    """Reads chunks.

    `say` takes lines that are to be written in turn: declarations. `emit` is the cutter's: it takes windows of lines of
    gates, and lines that stay. `check` is called with what was declared before it is first used.
    """

    def __init__(
        self,
        limits: Limits,
        emit: Callable[[list[Node[str]]], None],
        say: Callable[[str], None],
        check: Callable[[Circuit], None],
        keep_barriers: bool = False,
    ) -> None:
        self.cutter: Cutter[str] = Cutter(limits, emit)
        self.say = say
        self.check = check
        self.circuit = Circuit("", keep_barriers)
        self.renamed: dict[str, str] = {}
        self.applied: set[str] = set()
        # declarations that the program reads, as they are put before each window
        self.declarations = ""
        self.is_checked = True
        # whether declarations are still taken
        self.is_open = True
        self.known: dict[str, _Gate] = {}
        # what was read and isn't whole: behind the last semicolon; pieces of a statement with braces; a comment
        self.pending = ""
        self.begun: list[str] = []
        self.depth = 0
        self.in_comment = False
        # lines before the piece that is being read, and before the statement that was begun
        self.lines = 0
        self.begun_at = 0
        self.pieces: list[str] = []
        self.left: Iterator[str] = iter(())
        self.seen = 0

    # -- chunks -------------------------------------------------------------------------------------------------------

    def feed(self, text: str) -> None:
        """Takes a chunk, which may end anywhere. CannotCut tells a statement that no text may have."""
        if self.in_comment:
            end = text.find("\n")
            if end < 0:
                return
            text, self.in_comment = text[end:], False
        text = self.pending + text
        if "//" in text:
            text = _SKIPPED.sub(self.without_comment, text)
        self.pieces = text.split(";")
        self.pending = self.pieces.pop()
        if len(self.pending) + sum(map(len, self.begun)) > windows.GREATEST_BYTES:
            raise CannotCut("a statement has no end within 16 MB", self.lines + 1)
        self.left, self.seen = iter(self.pieces), 0
        self.take_pieces()
        self.lines += sum(it.count("\n") for it in self.pieces[self.seen :])
        self.pieces = []

    def without_comment(self, found: re.Match[str]) -> str:
        """A string as it stands, and nothing in place of a comment."""
        if found[0][0] == '"':
            return found[0]
        self.in_comment = found.end() == found.endpos
        return ""

    def end(self) -> None:
        """Ends the text, and closes all windows."""
        self.end_statements()
        self.cutter.end()

    def end_head(self) -> None:
        """Ends the declarations."""
        self.end_statements()
        self.is_open = False

    def end_statements(self) -> None:
        """Takes what was read and has no semicolon behind it: declarations that end with a brace."""
        statements, behind = split("".join(self.begun) + self.pending)
        if behind.text.strip():
            raise CannotCut("a statement begins here and has no end", self.line() + behind.line)
        for it in statements:
            self.statement(it, None)
        self.begun.clear()
        self.pending, self.depth = "", 0
        self.checked()

    def take_pieces(self) -> None:
        """Takes the pieces of the text between semicolons."""
        cutter, begun = self.cutter, self.begun
        get, owner, most, full = self.known.get, cutter.owner, cutter.limits.gates, cutter.full_weight
        held = 0
        for piece in self.left:
            gate = get(piece)
            if gate is None or begun:
                cutter.held += held
                held = 0
                self.take_piece(piece)
                continue
            first, second, qubits, line, weight, diagonal = gate
            window = owner[first]
            if window is None or owner[second] is not window or (qubits and any(owner[it] is not window for it in qubits)):
                cutter.held += held
                held = 0
                window = cutter.join(qubits or ((first,) if first == second else (first, second)), diagonal, weight)
            gates = window.gates
            gates.append(line)
            window.weight += weight
            held += 1
            if len(gates) >= most or window.weight > full:
                cutter.held += held
                held = 0
                cutter.close([window])
        cutter.held += held

    def line(self) -> int:
        """The lines before the statement that is being read."""
        at = len(self.pieces) - length_hint(self.left) - 1
        self.lines += sum(it.count("\n") for it in self.pieces[self.seen : at])
        self.seen = max(self.seen, at)
        return self.begun_at if self.begun else self.lines

    # -- pieces -------------------------------------------------------------------------------------------------------

    def take_piece(self, piece: str) -> None:
        """Takes a piece that isn't known."""
        begun = self.begun
        if not begun:
            gate = self.usual_gate(piece)
            if gate is not None:
                self.take_gate(gate, piece)
                return
            self.begun_at = self.line()
        self.depth += piece.count("{") - piece.count("}")
        begun.append(f"{piece};")
        if self.depth > 0:
            return
        statements, rest = split("".join(begun))
        is_one = len(begun) == 1 and len(statements) == 1 and not rest.text
        if rest.text:
            raise CannotCut("a brace closes here that none opens", self.begun_at + rest.line)
        for it in statements:
            self.statement(it, piece if is_one else None)
        begun.clear()
        self.depth = 0

    def usual_gate(self, piece: str) -> Optional[_Gate]:
        """A gate that was applied before on places that were named before, or none."""
        head, _, rest = piece.strip().partition(" ")
        shape = self.circuit.usual.get(head)
        if shape is None or not shape.calls:
            return None
        singles = self.circuit.singles
        try:
            qubits = tuple([singles[place] for place in rest.split(",")])
        except KeyError:
            return None
        if len(qubits) != shape.qubits or (len(qubits) > 1 and len(set(qubits)) < len(qubits)):
            return None
        return self.gate(shape.text, qubits, shape.calls, shape.diagonal)

    def gate(self, text: str, qubits: tuple[int, ...], calls: int, diagonal: tuple[bool, ...]) -> _Gate:
        names = self.circuit.qubits
        if len(qubits) == 2:
            first, second = qubits
            line = f"{text} {names[first]},{names[second]};\n"
            return first, second, None, line, windows.weight(calls, len(line)), diagonal
        line = f"{text} {','.join([names[it] for it in qubits])};\n"
        all_qubits = qubits if len(qubits) > 2 else None
        return qubits[0], qubits[-1], all_qubits, line, windows.weight(calls, len(line)), diagonal

    def take_gate(self, gate: _Gate, piece: Optional[str]) -> None:
        """Takes a gate, whose whole piece is known from now on if it is given."""
        first, second, qubits, line, weight, diagonal = gate
        self.cutter.add_gate(line, qubits or ((first,) if first == second else (first, second)), diagonal, weight)
        if piece is not None and weight <= KNOWN_WEIGHT:
            if len(self.known) >= KNOWN:
                self.known.clear()
            self.known[piece] = gate

    # -- statements ---------------------------------------------------------------------------------------------------

    def statement(self, it: Statement, piece: Optional[str]) -> None:
        """Takes a statement, which is a whole piece if that is given."""
        head = it.head()
        if head in ("OPENQASM", "include", "gate", "opaque", "qreg", "creg"):
            it.line += self.line()
            self.declare(head, it)
            return
        self.checked()
        self.forget()
        out: list[Operation] = []
        self.circuit.left = GREATEST_BROADCAST
        try:
            self.circuit.add(it, out)
        except CannotCut as wrong:
            raise CannotCut(wrong.sentence, self.line() + wrong.line) from None
        for operation in out:
            if operation.calls:
                gate = self.gate(operation.text, operation.qubits, operation.calls, operation.diagonal)
                self.take_gate(gate, piece if len(out) == 1 else None)
            else:
                self.take_stay(operation)

    def take_stay(self, it: Operation) -> None:
        text = with_places(it.text, self.renamed)[0] if self.renamed else it.text
        self.cutter.add_stay(f"{text}\n", it.qubits, it.diagonal, it.reads, it.writes)

    def declare(self, head: str, it: Statement) -> None:
        """Takes a declaration, or a statement of the head."""
        circuit = self.circuit
        if not self.is_open:
            raise CannotCut("in slices, declarations stand before the first gate", it.line)
        self.is_checked = False
        if head in ("OPENQASM", "include"):
            circuit.head.append(it)
        elif head in ("qreg", "creg"):
            self.declare_register(it)
        else:
            self.declare_gate(it)

    def declare_register(self, it: Statement) -> None:
        circuit = self.circuit
        found = register(it.text)
        if found and (found[1] in HEADER or found[1] in circuit.shapes.own):
            taken = {*HEADER, *KEYWORDS, *library(), *circuit.shapes.own, *circuit.sizes, *circuit.bits}
            self.renamed[found[1]] = unused(f"{found[1]}_reg", taken)
        written = self.renamed.get(found[1]) if found else None
        before = len(circuit.qubits)
        circuit.add_register(it, written)
        self.cutter.add_qubits(len(circuit.qubits) - before)
        if found and written:
            it.text = f"{found[0]} {written}[{found[2]}];"
        circuit.registers.append(it)
        self.say(f"{squeezed(it.text)}\n")

    def declare_gate(self, it: Statement) -> None:
        name, circuit = declared(it.text), self.circuit
        self.note_applied()
        if name in FIRST:
            raise CannotCut(f"{name} is declared here, and the header has it: `prepare` renames it", it.line)
        if name in circuit.shapes.own:
            raise CannotCut(f"{name} is declared a second time", it.line)
        if name in self.applied:
            raise CannotCut(f"{name} is declared here, and was applied before", it.line)
        one = declaration(it.text)
        self.applied.update(inner.name for inner in one.body) if one else None
        circuit.declared.append(it)
        circuit.declarations.append((name, squeezed(it.text)))
        circuit.shapes.declare(it.text)
        circuit.usual.clear()
        self.say(f"{squeezed(it.text)}\n")

    def checked(self) -> None:
        """Lets declarations be checked that came since they were last."""
        if not self.is_checked:
            self.check(self.circuit)
            self.is_checked = True
            foreign = self.circuit.shapes.foreign
            known = [text for name, text in self.circuit.declarations if name not in foreign]
            self.declarations = "".join(f"{it}\n" for it in known)

    def note_applied(self) -> None:
        self.applied.update(name for name, _ in self.circuit.shapes.shapes)

    def forget(self) -> None:
        """Keeps what is known small."""
        circuit = self.circuit
        if len(circuit.shapes.shapes) > SHAPES or len(circuit.shapes.known_calls) > SHAPES:
            self.note_applied()
            circuit.shapes.shapes.clear()
            circuit.shapes.known_calls.clear()
            circuit.usual.clear()
        most = KNOWN + 4 * len(circuit.qubits)
        if len(circuit.places) > most or len(circuit.singles) > most:
            circuit.places.clear()
            circuit.singles.clear()

    # -- states -------------------------------------------------------------------------------------------------------

    def state(self) -> dict[str, Any]:
        """All that is needed to go on behind the chunks that were taken, of what JSON has."""
        circuit, cutter = self.circuit, self.cutter
        self.note_applied()
        return {
            "head": [(it.text, it.line) for it in circuit.head],
            "registers": [(it.text, it.line) for it in circuit.registers],
            "renamed": self.renamed,
            "declared": [(it.text, it.line) for it in circuit.declared],
            "foreign": sorted(circuit.shapes.foreign),
            "applied": sorted(self.applied),
            "declarations": self.declarations,
            "flags": [self.is_checked, self.is_open, self.in_comment, self.depth, self.lines, self.begun_at],
            "pending": self.pending,
            "begun": self.begun,
            "cutter": cutter.state(),
        }

    def restore(self, state: dict[str, Any]) -> None:
        """Goes on from a state; the reader is a new one."""
        circuit = self.circuit
        circuit.head = [Statement("", text, line) for text, line in state["head"]]
        circuit.declared = [Statement("", text, line) for text, line in state["declared"]]
        circuit.declarations = [(declared(it.text), squeezed(it.text)) for it in circuit.declared]
        circuit.shapes = Shapes([it.text for it in circuit.declared])
        circuit.shapes.foreign = set(state["foreign"])
        self.renamed = dict(state["renamed"])
        read = {written: name for name, written in self.renamed.items()}
        for text, line in state["registers"]:
            it = Statement("", text, line)
            found = register(text)
            if found and found[1] in read:
                kind, name, size = found
                circuit.add_register(Statement("", f"{kind} {read[name]}[{size}];", line), name)
            else:
                circuit.add_register(it)
            circuit.registers.append(it)
        self.applied = set(state["applied"])
        self.declarations = state["declarations"]
        self.is_checked, self.is_open, self.in_comment, self.depth, self.lines, self.begun_at = state["flags"]
        self.pending, self.begun[:] = state["pending"], state["begun"]
        self.cutter.add_qubits(len(circuit.qubits))
        self.cutter.restore(state["cutter"], lambda text: text.splitlines(True))
