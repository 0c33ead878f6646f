"""A source file whose comments and literals are out of the way of patterns."""
from __future__ import annotations

import difflib
import re
from pathlib import Path
from typing import Callable, Union

# A mark in the code stands for a comment or a literal: COMMENT n END or LITERAL n END, n its number among those kept.
COMMENT, LITERAL, END = "\ue000", "\ue001", "\ue002"
COMMENTS_ABOVE = rf"(?:^[ \t]*{COMMENT}\d+{END}\n)*"

_KEPT = re.compile(
    r"""(?P<comment>//[^\n]*)
    | b?"(?:\\.|[^"\\])*"
    | b?'(?:\\[^ux\n]|\\u\{\w+\}|\\x\w\w|[^'\\\n])'""",
    re.VERBOSE | re.DOTALL,
)

Replacement = Union[str, Callable[["re.Match[str]"], str]]


class UnknownForm(Exception):
    """A source has a form that isn't known here. The text tells the file, the line and the form."""


class Source:
    """A source file. `code` is its text, with a mark in place of each comment and literal; edits change it."""

    def __init__(self, path: Path, text: str) -> None:
        self.path = path
        self._text = text
        self._kept: list[str] = []
        self.code = _KEPT.sub(self._keep, text)

    def _keep(self, found: re.Match[str]) -> str:
        self._kept.append(found.group())
        return f"{COMMENT if found['comment'] else LITERAL}{len(self._kept) - 1}{END}"

    def shown(self, code: str) -> str:
        """This code with its comments and literals back in their places."""
        return re.sub(f"[{COMMENT}{LITERAL}](\\d+){END}", lambda found: self._kept[int(found[1])], code)

    def text(self) -> str:
        """The whole text as it is by now."""
        return self.shown(self.code).strip("\n") + "\n"

    def replace(self, pattern: str, by: Replacement) -> None:
        """Replaces each match of a pattern in the code."""
        self.code = re.sub(pattern, by, self.code, flags=re.MULTILINE)

    def cut(self, pattern: str, end: Callable[[re.Match[str]], int]) -> None:
        """Takes out each item that begins with a pattern, with the comments right above it. `end` tells where it ends."""
        while found := re.search(COMMENTS_ABOVE + pattern, self.code, re.MULTILINE):
            self.code = self.code[: found.start()] + self.code[end(found) :].removeprefix("\n")

    def after_brackets(self, at: int) -> int:
        """The place behind the bracket that closes the one at this place."""
        depth = 0
        for place in range(at, len(self.code)):
            depth += (self.code[place] in "([{") - (self.code[place] in ")]}")
            if depth == 0:
                return place + 1
        raise self.unknown(at, "a bracket that isn't closed")

    def unknown(self, at: int, what: str) -> UnknownForm:
        """The error about a form at this place of the code."""
        before = self.shown(self.code[:at]).count("\n")
        lines = self.shown(self.code).split("\n")
        return UnknownForm(f"{self.path}:{self._line_read(lines, before)}: {what}: {lines[before].strip()}")

    def _line_read(self, lines: list[str], index: int) -> int:
        """The number of the read line that became the one at this index, or of the nearest one that stays."""
        matcher = difflib.SequenceMatcher(None, self._text.split("\n"), lines, autojunk=False)
        for _, start, end, new_start, new_end in matcher.get_opcodes():
            if new_start <= index < new_end:
                return min(start + index - new_start, max(start, end - 1)) + 1
        return 1
