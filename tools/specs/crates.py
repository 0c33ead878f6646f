"""Reads crates.txt: the layers of crates, lowest first, and what each crate stands on."""
from __future__ import annotations

from typing import NamedTuple

from .library import CRATES, TOP


class Crate(NamedTuple):
    """A crate, and the names of those that it stands on, ported ones too."""

    name: str
    below: list[str]

    @property
    def has_tests_alone(self) -> bool:
        """Whether it is one of the crates of tests."""
        return self.name.endswith("_tests") or self.name == "round_trips"

    def definitions(self) -> list[str]:
        """The names of its public files of definitions."""
        names = (path.stem for path in sorted((CRATES / self.name / "specs").glob("*.antt")))
        return [name for name in names if name not in ("Lib", "Internal")]


class Layer(NamedTuple):
    """A heading of crates.txt, and the crates below it."""

    title: str
    crates: list[Crate]


def layers() -> list[Layer]:
    """The layers, lowest first. A line `NAME: NAME ..` is a crate, a comment behind a blank line a heading."""
    found: list[Layer] = []
    lines = (TOP / "crates.txt").read_text(encoding="utf-8").splitlines()
    for before, line in zip([""] + lines, lines):
        name, colon, below = line.split("#")[0].partition(":")
        if line.startswith("#") and not before and line != lines[0]:
            found.append(Layer(line.lstrip("# "), []))
        elif colon:
            found[-1].crates.append(Crate(name.split()[0], below.split()))
    return found
