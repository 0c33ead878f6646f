"""Drawn numbers, the same for the same seed in each version of Python."""
from __future__ import annotations

import random
from typing import List, Sequence, TypeVar

__all__ = ["Draws"]

T = TypeVar("T")


class Draws:
    """Numbers that are drawn by a seed, which is a text.

    They come from `random.random` alone, whose sequence Python promises to keep; `choice`, `sample` and `shuffle` may
    change from one version to another.
    """

    def __init__(self, seed: str) -> None:
        self._random = random.Random(seed).random

    def chance(self, odds: float) -> bool:
        """Whether something happens that has this chance, from 0 to 1."""
        return self._random() < odds

    def below(self, bound: int) -> int:
        """A number from 0 to `bound - 1`, each as likely."""
        return int(self._random() * bound)

    def one_of(self, items: Sequence[T]) -> T:
        """One of the items, each as likely."""
        return items[self.below(len(items))]

    def distinct(self, bound: int, count: int) -> List[int]:
        """So many different numbers below a bound, in any order."""
        left = list(range(bound))
        return [left.pop(self.below(len(left))) for _ in range(count)]

    def shuffled(self, items: Sequence[T]) -> List[T]:
        """The items in a drawn order."""
        return [items[it] for it in self.distinct(len(items), len(items))]
