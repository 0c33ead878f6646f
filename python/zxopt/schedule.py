"""Cuts a text's operations into windows, each of which is a circuit of gates alone: the cutter of `parts` and `stream`.

Each operation gets a time: an even one, 2*p, where it is a gate of a window, and an odd one, 2*p+1, where it stays as
it is. Two operations keep their order unless they commute: where they share no qubit, or both are diagonal on each
qubit that they share (see `shapes.Shape`), and where no bit is read by one and written by the other, or written by
both. A measurement is diagonal on its qubit: its projectors are. Each operation gets the least time that this allows.
So a gate may go back behind what stays, and as long as no limit closes a window, the number of times is the least one:
the length of the longest chain of operations that have to keep their order, counted by its changes between gates and
what stays.

At each time a qubit has at most one open window. A gate joins those of its qubits into one if gates, qubits and calls
allow; else the largest of them is closed first. What is closed goes out behind all that has to stand before it: what
has a lower time and shares a qubit or a register of bits with it, and so on.

Invariant: what went out, and behind it the open windows and what stays by their times, then by their order in the
text, has the channel of the operations that were taken. A window that is closed passes only what shares no qubit and no
bit with it. Which windows are made depends on the operations and the limits alone.
"""
from __future__ import annotations

from typing import Any, Callable, Generic, Iterable, Iterator, NamedTuple, Optional, Sequence, TypeVar, Union

__all__ = ["Cutter", "Limits", "Operation", "Stay", "Window", "bundles"]

T = TypeVar("T")


class Operation(NamedTuple):
    """One operation of a text.

    `qubits` are numbers of qubits, `diagonal` tells of each whether the operation is diagonal on it; `reads` are
    numbers of registers of bits, `writes` are pairs of a register and a bit of it. `text` is what stands where it is
    written as it was read: for a gate of a part, the gate with its angles alone. `calls` is the number of calls of a
    gate that the program reads, and 0 for what stays. `line` is that of the text that was read.
    """

    text: str
    qubits: tuple[int, ...]
    diagonal: tuple[bool, ...]
    calls: int
    reads: tuple[int, ...]
    writes: tuple[tuple[int, int], ...]
    line: int


class Limits(NamedTuple):
    """What a window may have, and how much may be open.

    gates: the gates of a window. qubits: its qubits. weight: the sum of its gates' weights; a gate may weigh a tenth of
    it at most where windows are filled past the cutter, and a window that has nine tenths is closed. open_gates: the
    gates of all open windows together. places: the qubits and registers of bits of all operations that stay and wait.
    """

    gates: int = 1 << 62
    qubits: int = 1_024
    weight: int = 1_000_000
    open_gates: int = 1 << 62
    places: int = 1 << 62


class Window(Generic[T]):
    """Gates on qubits that are to be optimised as one circuit, in an order in which they may be done."""

    __slots__ = ("gates", "qubits", "weight", "time", "index")

    def __init__(self, time: int, index: int) -> None:
        self.gates: list[T] = []
        self.qubits: list[int] = []
        self.weight = 0
        self.time = time
        self.index = index

    def wires(self) -> Sequence[int]:
        """The qubits."""
        return self.qubits

    def take(self, other: Window[T]) -> None:
        """Takes the gates of a window on other qubits, or of one that is done behind this one."""
        self.gates.extend(other.gates)
        self.qubits.extend(other.qubits)
        self.weight += other.weight


class Stay(Generic[T]):
    """An operation that stays as it is: what it is, its qubits, and its registers of bits as numbers below 0."""

    __slots__ = ("what", "places", "time", "index")

    def __init__(self, what: T, places: Sequence[int], time: int, index: int) -> None:
        self.what = what
        self.places = places
        self.time = time
        self.index = index

    def wires(self) -> Sequence[int]:
        """The qubits, and the registers of bits as numbers below 0."""
        return self.places


Node = Union[Window[T], Stay[T]]


def _order(node: Node[T]) -> tuple[int, int]:
    return node.time, node.index


class Cutter(Generic[T]):
    """Takes operations one by one, and calls `emit` with what is closed, in an order in which it may be done.

    A gate is whatever stands for it; `owner` is for those who fill windows themselves: of each qubit, the window to
    which every gate on this qubit alone would go, or none where that has to be found out by `add_gate`. Who appends a
    gate there, where it is the owner of all of its qubits, adds the gate's weight, counts it in `held`, and calls
    `close_if_full`.
    """

    def __init__(self, limits: Limits, emit: Callable[[list[Node[T]]], None]) -> None:
        self.limits = limits
        self.emit = emit
        self.owner: list[Optional[Window[T]]] = []
        self.held = 0
        self.full_weight = limits.weight * 9 // 10
        self.light = limits.weight - self.full_weight
        # the times up to which each qubit is taken, by what isn't diagonal on it and by anything; of bits, and of
        # registers of bits that are written and read
        self.general: list[int] = []
        self.any: list[int] = []
        self.bits: dict[tuple[int, int], int] = {}
        self.written: dict[int, int] = {}
        self.read: dict[int, int] = {}
        # what is open on each qubit, and on each register of bits (as a number below 0), by time and order in the text
        self.chains: dict[int, list[Node[T]]] = {}
        self.windows: dict[int, Window[T]] = {}
        self.stays: dict[int, Stay[T]] = {}
        self.places = 0
        self.count = 0

    def add_qubits(self, count: int) -> None:
        """Gives room to so many more qubits."""
        self.owner.extend([None] * count)
        self.general.extend([0] * count)
        self.any.extend([0] * count)

    # -- gates --------------------------------------------------------------------------------------------------------

    def add_gate(self, gate: T, qubits: Sequence[int], diagonal: Sequence[bool], weight: int) -> None:
        """Takes a gate of a window."""
        owner = self.owner
        window = owner[qubits[0]]
        if window is None or weight > self.light or owner[qubits[-1]] is not window:
            window = self.join(qubits, diagonal, weight)
        elif len(qubits) > 2 and any(owner[it] is not window for it in qubits):
            window = self.join(qubits, diagonal, weight)
        window.gates.append(gate)
        window.weight += weight
        self.held += 1
        self.close_if_full(window)

    def close_if_full(self, window: Window[T]) -> None:
        """Closes a window that can't be sure to take another gate."""
        if len(window.gates) >= self.limits.gates or window.weight > self.full_weight:
            self.close([window])

    def join(self, qubits: Sequence[int], diagonal: Sequence[bool], weight: int) -> Window[T]:
        """The window that a gate on these qubits goes to, after what has to be closed for it."""
        if self.held > self.limits.open_gates:
            self.make_room()
        while True:
            time = self.least_time(qubits, diagonal)
            time += time & 1
            those: list[Window[T]] = []
            new: list[int] = []
            for qubit in qubits:
                window = self.window_at(qubit, time)
                if window is None:
                    new.append(qubit)
                elif window not in those:
                    those.append(window)
            if len(those) > 1:
                those.sort(key=lambda it: (-len(it.gates), it.index))
            if not those or self.fits(those, len(new), weight):
                break
            self.close(those[:1])
        window = those[0] if those else self.new_window(time)
        for other in those[1:]:
            self.merge(window, other)
        for qubit in new:
            self.enter(qubit, window)
        window.qubits.extend(new)
        self.take_time(qubits, diagonal, window)
        return window

    def least_time(self, qubits: Sequence[int], diagonal: Sequence[bool]) -> int:
        """The least time that an operation on these qubits may have, bits aside."""
        time = 0
        for qubit, is_diagonal in zip(qubits, diagonal):
            least = self.general[qubit] if is_diagonal else self.any[qubit]
            if least > time:
                time = least
        return time

    def take_time(self, qubits: Sequence[int], diagonal: Sequence[bool], window: Window[T]) -> None:
        """Notes that a gate on these qubits goes to a window."""
        time, general, both, owner = window.time, self.general, self.any, self.owner
        for qubit, is_diagonal in zip(qubits, diagonal):
            if both[qubit] < time:
                both[qubit] = time
            if not is_diagonal:
                general[qubit] = time
            owner[qubit] = window if general[qubit] == both[qubit] == time else None

    def window_at(self, qubit: int, time: int) -> Optional[Window[T]]:
        """The open window of a qubit at an even time, or none."""
        window = self.owner[qubit]
        if window is not None and window.time == time:
            return window
        for node in reversed(self.chains.get(qubit, ())):
            if node.time <= time:
                return node if node.time == time and isinstance(node, Window) else None
        return None

    def fits(self, those: Sequence[Window[T]], new: int, weight: int) -> bool:
        """Whether windows, so many qubits more and a gate of this weight may become one."""
        gates, qubits = 0, new
        for it in those:
            gates += len(it.gates)
            qubits += len(it.qubits)
            weight += it.weight
        limits = self.limits
        return gates < limits.gates and qubits <= limits.qubits and weight <= limits.weight

    def new_window(self, time: int) -> Window[T]:
        self.count += 1
        window: Window[T] = Window(time, self.count)
        self.windows[window.index] = window
        return window

    def merge(self, window: Window[T], other: Window[T]) -> None:
        """Makes one window of two that have one time."""
        window.take(other)
        for qubit in other.qubits:
            chain = self.chains[qubit]
            chain[chain.index(other)] = window
            if self.owner[qubit] is other:
                self.owner[qubit] = window
        del self.windows[other.index]

    def enter(self, wire: int, node: Node[T]) -> None:
        """Puts what is open on a qubit or a register where its time is."""
        chain = self.chains.setdefault(wire, [])
        chain.append(node)
        if len(chain) > 1 and _order(chain[-2]) > _order(node):
            chain.sort(key=_order)

    # -- what stays ---------------------------------------------------------------------------------------------------

    def add_stay(
        self,
        what: T,
        qubits: Sequence[int],
        diagonal: Sequence[bool],
        reads: Sequence[int] = (),
        writes: Sequence[tuple[int, int]] = (),
    ) -> None:
        """Takes an operation that stays as it is."""
        time = self.behind_bits(reads, writes, self.least_time(qubits, diagonal))
        for qubit, is_diagonal in zip(qubits, diagonal):
            self.any[qubit] = max(self.any[qubit], time)
            if not is_diagonal:
                self.general[qubit] = time
            self.owner[qubit] = None
        self.count += 1
        registers = {*reads, *(register for register, _ in writes)}
        stay = Stay(what, (*qubits, *(~it for it in sorted(registers))), time, self.count)
        for wire in stay.places:
            self.enter(wire, stay)
        self.stays[stay.index] = stay
        self.places += len(stay.places)
        if self.places > self.limits.places:
            self.let_out()

    def behind_bits(self, reads: Sequence[int], writes: Sequence[tuple[int, int]], time: int) -> int:
        """The least odd time from a given one on that leaves bits in order, which is noted as theirs."""
        time = max([time, *(self.written.get(it, 0) for it in reads)])
        for register, bit in writes:
            time = max(time, self.read.get(register, 0), self.bits.get((register, bit), 0))
        time |= 1
        for register in reads:
            self.read[register] = max(self.read.get(register, 0), time)
        for register, bit in writes:
            self.bits[register, bit] = time
            self.written[register] = max(self.written.get(register, 0), time)
        return time

    # -- states -------------------------------------------------------------------------------------------------------

    def state(self) -> dict[str, Any]:
        """All that is open, of what JSON has; gates and what stays are texts."""
        return {
            "times": [[at, *both] for at, both in enumerate(zip(self.general, self.any)) if any(both)],
            "bits": [[*pair, time] for pair, time in self.bits.items()],
            "registers": [list(self.written.items()), list(self.read.items())],
            "windows": [[it.time, it.index, it.weight, it.qubits, "".join(map(str, it.gates))] for it in self.windows.values()],
            "stays": [[it.time, it.index, it.places, it.what] for it in self.stays.values()],
            "count": self.count,
        }

    def restore(self, state: dict[str, Any], gates_of: Callable[[str], list[T]]) -> None:
        """Goes on from a state; the cutter is a new one with as many qubits. `gates_of` cuts the gates of a window."""
        for qubit, general, both in state["times"]:
            self.general[qubit], self.any[qubit] = general, both
        self.bits = {(register, bit): time for register, bit, time in state["bits"]}
        self.written, self.read = ({register: time for register, time in it} for it in state["registers"])
        self.count = state["count"]
        nodes: list[Node[T]] = []
        for time, index, weight, qubits, text in state["windows"]:
            window: Window[T] = Window(time, index)
            window.weight, window.qubits, window.gates = weight, qubits, gates_of(text)
            self.windows[index] = window
            self.held += len(window.gates)
            nodes.append(window)
        for time, index, places, what in state["stays"]:
            self.stays[index] = Stay(what, places, time, index)
            self.places += len(places)
            nodes.append(self.stays[index])
        for node in sorted(nodes, key=_order):
            for wire in node.wires():
                self.chains.setdefault(wire, []).append(node)
        for wire, chain in self.chains.items():
            if wire >= 0:
                self.set_owner(wire, chain)

    # -- closing ------------------------------------------------------------------------------------------------------

    def end(self) -> None:
        """Closes all."""
        self.close([*self.windows.values(), *self.stays.values()])

    def make_room(self) -> None:
        """Closes the largest windows until an eighth of the gates that may be open is free."""
        some: list[Node[T]] = []
        left = self.held
        for window in sorted(self.windows.values(), key=lambda it: (-len(it.gates), it.index)):
            if left <= self.limits.open_gates * 7 // 8:
                break
            some.append(window)
            left -= len(window.gates)
        self.close(some)

    def let_out(self) -> None:
        """Lets the oldest of what stays out, until half of the places that may wait are free."""
        some: list[Node[T]] = []
        left = self.places
        for stay in self.stays.values():
            if left <= self.limits.places // 2:
                break
            some.append(stay)
            left -= len(stay.places)
        self.close(some)

    def close(self, some: Sequence[Node[T]]) -> None:
        """Lets out what is given, and before it all that has to stand before it."""
        nodes = self.with_all_before(some)
        gone = {it.index for it in nodes}
        for wire in {wire for it in nodes for wire in it.wires()}:
            chain = [it for it in self.chains[wire] if it.index not in gone]
            if chain:
                self.chains[wire] = chain
            else:
                del self.chains[wire]
            if wire >= 0:
                self.free(wire, chain)
        for node in nodes:
            if isinstance(node, Window):
                del self.windows[node.index]
                self.held -= len(node.gates)
            else:
                del self.stays[node.index]
                self.places -= len(node.places)
        if nodes:
            self.emit(nodes)

    def free(self, qubit: int, chain: Sequence[Node[T]]) -> None:
        """Sets a qubit's times by what is still open on it."""
        first = chain[0] if chain else None
        if first is None:
            self.general[qubit] = self.any[qubit] = 0
        elif isinstance(first, Window):
            # nothing is left for which a gate would have to go below the first window
            self.general[qubit] = max(self.general[qubit], first.time)
        self.set_owner(qubit, chain)

    def set_owner(self, qubit: int, chain: Sequence[Node[T]]) -> None:
        """Sets the owner of a qubit by what is open on it."""
        last = chain[-1] if chain else None
        is_window = isinstance(last, Window) and self.general[qubit] == self.any[qubit] == last.time
        self.owner[qubit] = last if is_window else None  # type: ignore[assignment]

    def with_all_before(self, some: Iterable[Node[T]]) -> list[Node[T]]:
        """What is given and all that has to stand before it, by time, then by order in the text."""
        found = {it.index: it for it in some}
        left = sorted(found.values(), key=_order)
        # up to where each qubit's and register's chain was looked through
        reached: dict[int, tuple[int, int]] = {}
        while left:
            node = left.pop()
            order = _order(node)
            for wire in node.wires():
                begin = reached.get(wire, (-1, 0))
                if begin >= order:
                    continue
                reached[wire] = order
                for other in self.chains[wire]:
                    if _order(other) < order and other.index not in found:
                        found[other.index] = other
                        left.append(other)
        return sorted(found.values(), key=_order)


def bundles(nodes: Iterable[Node[T]], limits: Limits) -> Iterator[Node[T]]:
    """What was let out, with windows that follow each other made one where the limits allow."""
    last: Optional[Window[T]] = None
    qubits: set[int] = set()
    for node in nodes:
        if isinstance(node, Stay):
            if last is not None:
                yield last
            last = None
            yield node
            continue
        if last is not None and _fit_together(last, node, qubits, limits):
            last.gates.extend(node.gates)
            last.weight += node.weight
            last.qubits.extend(it for it in node.qubits if it not in qubits)
        else:
            if last is not None:
                yield last
            last, qubits = node, set()
        qubits.update(node.qubits)
    if last is not None:
        yield last


def _fit_together(one: Window[T], other: Window[T], qubits: set[int], limits: Limits) -> bool:
    return (
        len(one.gates) + len(other.gates) <= limits.gates
        and one.weight + other.weight <= limits.weight
        and len(qubits) + sum(it not in qubits for it in other.qubits) <= limits.qubits
    )
