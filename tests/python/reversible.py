"""A simulator of circuits of `ccx`, `cx` and `x` on basis states: many inputs are run at once, each in a bit of whole
numbers. It reads the text itself, and no more of OpenQASM than the benchmarks have."""
from __future__ import annotations

import random
import re
from typing import Dict, List, Mapping, Sequence

_GATE = re.compile(r"(ccx|cx|x) ((?:q\[\d+\],?)+);")
_GROUP = re.compile(r"(\w+) = q\[(\d+)(?:\.\.(\d+))?\]")


class Reversible:
    """A text of one register `q`, whose second line tells what its places hold."""

    def __init__(self, text: str) -> None:
        lines = text.splitlines()
        self.groups = {
            name: list(range(int(first), int(last or first) + 1)) for name, first, last in _GROUP.findall(lines[1])
        }
        self.gates: List[List[int]] = []
        for line in lines[5:]:
            found = _GATE.fullmatch(line)
            assert found, line
            self.gates.append([int(it) for it in re.findall(r"\d+", found[2])])
            assert len(set(self.gates[-1])) == len(found[1]), line
        assert lines[4] == f"qreg q[{sum(map(len, self.groups.values()))}];"

    def run(self, inputs: Mapping[str, Sequence[int]]) -> Dict[str, List[int]]:
        """What each group holds behind the circuit, for each input: numbers whose lowest bits are the first places."""
        count = len(next(iter(inputs.values())))
        all_of_them = (1 << count) - 1
        state = [0] * sum(map(len, self.groups.values()))
        for name, places in self.groups.items():
            for bit, place in enumerate(places):
                state[place] = sum((number >> bit & 1) << it for it, number in enumerate(inputs[name]))
        for *controls, target in self.gates:
            flipped = all_of_them
            for control in controls:
                flipped &= state[control]
            state[target] ^= flipped
        return {
            name: [sum((state[place] >> it & 1) << bit for bit, place in enumerate(places)) for it in range(count)]
            for name, places in self.groups.items()
        }


def drawn(bits: int, count: int, seed: int) -> List[int]:
    """Drawn numbers of so many bits, among them the least and the greatest."""
    draw = random.Random(seed)
    return [0, (1 << bits) - 1] + [draw.getrandbits(bits) for _ in range(count - 2)]
