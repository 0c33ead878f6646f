"""A text of OpenQASM 2 as `parts` sees it: head, declarations, registers, and operations with their qubits."""
from __future__ import annotations

import re
from typing import Optional, Sequence

from . import names
from .qasm import FURTHER, QasmError, Statement, call, declaration, register, split, squeezed
from .schedule import Operation
from .shapes import Shape, Shapes

# How many applications registers in place of qubits may be written out to.
GREATEST_BROADCAST = 1_000_000
_MEASURE = re.compile(r"measure\b(.*?)->(.*);", re.S)
_IF = re.compile(r"if\s*\(\s*(\w+)\s*==\s*\d+\s*\)\s*([^{}]*;)", re.S)


class CannotCut(QasmError):
    """A text can't be cut into parts: but for single statements too, the program wouldn't take it."""


def check_order(statements: Sequence[Statement]) -> None:
    """Refuses a gate of the header that is applied before the text declares it anew: it means two gates then."""
    own = {names.declared(it.text) for it in statements if it.text.startswith("gate")} & FURTHER
    seen: set[str] = set()
    for it in statements if own else ():
        head = it.head()
        one = declaration(it.text) if head == "gate" else None
        if one:
            seen.update(inner.name for inner in one.body)
        else:
            seen.update(names.conditioned(it.text) if head == "if" else [head])
        if one and one.name in own & seen:
            raise CannotCut(f"{one.name} is declared here, and was applied before as the header has it", it.line)


class Circuit:
    """The statements of a text, and its operations by the shapes of its gates."""

    def __init__(self, text: str, keep_barriers: bool) -> None:
        self.keep_barriers = keep_barriers
        statements, rest = split(text)
        if rest.text.strip():
            raise CannotCut("a statement begins here and has no end", rest.line)
        check_order(statements)
        own = {it.head() for it in statements}
        names.mend_clashes(statements, True, own - names.STATEMENTS, lambda line, what: None)
        self.head: list[Statement] = []
        self.declared: list[Statement] = []
        self.registers: list[Statement] = []
        self.statements: list[Statement] = []
        self.qubits: list[str] = []
        self.bits: dict[str, tuple[int, int]] = {}
        self.sizes: dict[str, tuple[int, int]] = {}
        self.places: dict[str, tuple[tuple[int, ...], bool]] = {}
        for it in statements:
            self.sort(it)
        self.declarations = [(names.declared(it.text), squeezed(it.text)) for it in self.declared]
        self.shapes = Shapes([it.text for it in self.declared])
        self.left = GREATEST_BROADCAST
        # applications in their most usual form: a gate with its angles up to the first space, and single places
        self.usual: dict[str, Shape] = {}
        self.singles: dict[str, int] = {}

    def sort(self, it: Statement) -> None:
        """Puts a statement where statements of its kind are kept."""
        head = it.head()
        if head in ("OPENQASM", "include"):
            self.head.append(it)
        elif head in ("gate", "opaque"):
            self.declared.append(it)
        elif head in ("qreg", "creg"):
            self.registers.append(it)
            self.add_register(it)
        else:
            self.statements.append(it)

    def add_register(self, it: Statement, written: Optional[str] = None) -> None:
        """Takes a register's declaration; `written` is its name where it is written, if that is another."""
        found = register(it.text)
        if not found or found[2] > 1 << 20:
            raise CannotCut(f"{it.head()} declares no register here", it.line)
        kind, name, size = found
        if name in self.bits or name in self.sizes:
            raise CannotCut(f"{name} is declared a second time", it.line)
        if kind == "creg":
            self.bits[name] = (len(self.bits), size)
        else:
            self.sizes[name] = (len(self.qubits), size)
            self.qubits.extend(f"{written or name}[{at}]" for at in range(size))

    # -- operations ---------------------------------------------------------------------------------------------------

    def operations(self) -> list[Operation]:
        """The operations of the text in order, barriers left out unless they are kept."""
        out: list[Operation] = []
        self.usual.clear()
        self.left = GREATEST_BROADCAST
        for it in self.statements:
            self.add(it, out)
        return out

    def add(self, it: Statement, out: list[Operation]) -> None:
        """Adds a statement's operations."""
        usual = self.usual_form(it)
        if usual is not None:
            out.append(usual)
            return
        one = call(it.text if it.text.isprintable() else squeezed(it.text))
        if one is None:
            stays = self.other(it.text, it.line)
            if stays is not None:
                out.append(stays)
            return
        shape = self.shapes.shape(one.name, one.angles)
        places = [self.place(text, it.line) for text in one.places]
        if shape.qubits is not None and shape.qubits != len(places):
            raise CannotCut(f"{one.name} takes {shape.qubits} qubits", it.line)
        if any(is_register for _, is_register in places):
            self.add_broadcast(it, shape, places, out)
            return
        qubits = tuple(those[0] for those, _ in places)
        if len(set(qubits)) < len(qubits):
            raise CannotCut(f"{one.name} names a qubit twice", it.line)
        out.append(self.application(shape, qubits, squeezed(it.text), it.line))
        head, _, rest = it.text.partition(" ")
        if shape.qubits and "//" not in it.text and "\n" not in it.text and head.replace(" ", "") == shape.text:
            self.usual[head] = shape
            self.singles.update(zip(rest[:-1].split(","), qubits))

    def usual_form(self, it: Statement) -> Optional[Operation]:
        """An application of a gate that was applied before to places that were named before, or none."""
        head, _, rest = it.text.partition(" ")
        shape = self.usual.get(head)
        if shape is None:
            return None
        try:
            qubits = tuple([self.singles[place] for place in rest[:-1].split(",")])
        except KeyError:
            return None
        if len(qubits) != shape.qubits or (len(qubits) > 1 and len(set(qubits)) < len(qubits)):
            return None
        return self.application(shape, qubits, it.text, it.line)

    def application(self, shape: Shape, qubits: tuple[int, ...], said: str, line: int) -> Operation:
        """One application: a gate of a part, or one that stays, as it is said."""
        flags = shape.diagonal or (False,) * len(qubits)
        return Operation(shape.text if shape.calls else said, qubits, flags, shape.calls or 0, (), (), line)

    def add_broadcast(
        self, it: Statement, shape: Shape, places: Sequence[tuple[tuple[int, ...], bool]], out: list[Operation]
    ) -> None:
        """Adds what an application with registers stands for; one that stays is kept whole."""
        many = self.broadcast(places, shape.text, it.line)
        self.left -= len(many)
        if shape.calls and self.left >= 0:
            out.extend(self.application(shape, qubits, "", it.line) for qubits in many)
        else:
            out.append(self.stay(squeezed(it.text), {qubit for qubits in many for qubit in qubits}, it.line))

    def broadcast(self, places: Sequence[tuple[tuple[int, ...], bool]], name: str, line: int) -> list[tuple[int, ...]]:
        """The qubits of each application that one with registers stands for."""
        sizes = {len(those) for those, is_register in places if is_register}
        if len(sizes) != 1:
            raise CannotCut("registers of different sizes stand in one application", line)
        out = [
            tuple(those[at] if is_register else those[0] for those, is_register in places)
            for at in range(sizes.pop())
        ]
        if any(len(set(it)) < len(it) for it in out):
            raise CannotCut(f"{name} names a qubit twice", line)
        return out

    def place(self, text: str, line: int) -> tuple[tuple[int, ...], bool]:
        """The numbers of the qubits that a text names, and whether it names a whole register."""
        known = self.places.get(text)
        if known is not None:
            return known
        name, _, index = text.partition("[")
        name, index = name.strip(), index.strip().rstrip("]").strip()
        if name not in self.sizes:
            raise CannotCut(f"{' '.join(text.split()) or 'nothing'} stands where a qubit has to", line)
        begin, size = self.sizes[name]
        if "[" not in text:
            found = tuple(range(begin, begin + size)), True
        elif index.isdigit() and int(index) < size:
            found = (begin + int(index),), False
        else:
            raise CannotCut(f"{name} has no place {index}", line)
        self.places[text] = found
        return found

    def places_of(self, text: str, line: int) -> set[int]:
        """The numbers of the qubits that a list names."""
        return {qubit for one in text.split(",") for qubit in self.place(one.strip(), line)[0]}

    def stay(self, text: str, qubits: set[int], line: int, is_diagonal: bool = False) -> Operation:
        """An operation that stays as it is, and uses no bits."""
        those = tuple(sorted(qubits))
        return Operation(text, those, (is_diagonal,) * len(those), 0, (), (), line)

    def other(self, text: str, line: int) -> Optional[Operation]:
        """An operation that applies no gate, or a gate under a condition; none for a barrier that isn't kept."""
        said = squeezed(text)
        head = said.split("(")[0].split(" ")[0].rstrip(";")
        if head == "barrier":
            rest = said[7:-1].strip()
            qubits = self.places_of(rest, line) if rest else set(range(len(self.qubits)))
            return self.stay(said, qubits, line) if self.keep_barriers else None
        if head == "reset":
            return self.stay(said, self.places_of(said[5:-1], line), line)
        found = _MEASURE.fullmatch(said)
        if found:
            return self.measure(said, found[1].strip(), found[2].strip(), line)
        if head == "if":
            return self.condition(said, line)
        raise CannotCut(f"{said[:40]} is no statement of OpenQASM 2", line)

    def measure(self, said: str, qubit: str, bit: str, line: int) -> Operation:
        name, _, index = bit.partition("[")
        name, index = name.strip(), index.strip().rstrip("]").strip()
        if name not in self.bits:
            raise CannotCut(f"{bit} stands where a bit has to", line)
        number, size = self.bits[name]
        if "[" in bit and not (index.isdigit() and int(index) < size):
            raise CannotCut(f"{name} has no place {index}", line)
        those, is_register = self.place(qubit, line)
        if is_register is ("[" in bit) or (is_register and len(those) != size):
            raise CannotCut("a measurement has registers of different sizes, or a register and a single place", line)
        indices = [int(index)] if "[" in bit else range(size)
        return self.stay(said, set(those), line, True)._replace(writes=tuple((number, it) for it in indices))

    def condition(self, said: str, line: int) -> Operation:
        """A conditional statement; one in another form than the language's keeps its place among all others."""
        found = _IF.fullmatch(said)
        if not found or found[1] not in self.bits:
            everything = tuple((number, bit) for number, size in self.bits.values() for bit in range(size))
            registers = tuple(range(len(self.bits)))
            return self.stay(said, set(range(len(self.qubits))), line)._replace(reads=registers, writes=everything)
        inner: list[Operation] = []
        barriers, self.keep_barriers = self.keep_barriers, True
        self.add(Statement("", found[2], line), inner)
        self.keep_barriers = barriers
        number = self.bits[found[1]][0]
        flags: dict[int, bool] = {}
        for it in inner:
            for qubit, flag in zip(it.qubits, it.diagonal):
                flags[qubit] = flags.get(qubit, True) and flag
        writes = tuple(pair for it in inner for pair in it.writes)
        return Operation(said, tuple(flags), tuple(flags.values()), 0, (number,), writes, line)
