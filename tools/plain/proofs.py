"""Leaves out what only the proof reads: ghost items, clauses, models, tactics, and laws."""
from __future__ import annotations

import re

from source import COMMENT, COMMENTS_ABOVE, END, Source

_CLAUSE = rf"(?:\s*{COMMENT}\d+{END})*\s*\b(?:requires|ensures)\b\*?\s*\w*\s*\{{"
_LAW = rf"{COMMENTS_ABOVE}^pub fn (\w+)\(\) \{{\}}\n*"
_ITEM = re.compile(r"^(?:pub(?:\(crate\))? )?(?:fn|struct|enum|trait|const|type|impl|mod)\b|^pub use\b", re.MULTILINE)
_USE = r"^((?:pub )?use (?:crate::)?(\w+)(?:::\w+)*::)(?:\{([^}]*)\}|(\w+));\n"


def leave_out_proofs(source: Source) -> None:
    """Takes out what only the proof reads of a file, but for laws."""
    _cut_ghost_items(source)
    _cut_clauses(source)
    source.cut(r"^impl\b[^{;]*\bModel for [^{]*\{\s*\}", lambda found: found.end())
    source.replace(r"^[ \t]*#!?\[tactic\([^\]]*\)\]\n", "")
    source.replace(r"^use std::marker::Model;\n", "")
    _unname_loops(source)


def has_items(sources: dict[str, Source]) -> bool:
    """Whether a crate has anything beside laws, once these are left out."""
    return bool(_ITEM.search((sources.get("main") or sources["lib"]).code))


def leave_out_laws(crate: str, sources: dict[str, Source], laws: dict[str, set[str]]) -> dict[str, Source]:
    """The modules of a crate without its laws, which are functions that do nothing, and without modules of laws alone.

    `laws` has the names of the laws of the crates below, by their crates, and gets those of this one.
    """
    own = laws[crate] = {name for source in sources.values() for name in re.findall(_LAW, source.code, re.MULTILINE)}
    for source in sources.values():
        source.replace(_LAW, "")
    gone = {name for name, source in sources.items() if not _ITEM.search(source.code)} - {"lib"}

    def without_laws(found: re.Match[str]) -> str:
        names = [name.strip() for name in (found[3] or found[4]).split(",") if name.strip()]
        left = [name for name in names if name not in laws.get(found[2], own) and found[2] not in gone]
        if found[1].startswith("pub"):
            own.update(set(names) - set(left))
        if left == names:
            return found[0]
        return f"{found[1]}{{{', '.join(left)}}};\n" if left else ""

    for source in sources.values():
        if gone:
            source.replace(rf"^(?:pub(?:\(crate\))? )?mod (?:{'|'.join(sorted(gone))});\n", "")
        source.replace(_USE, without_laws)
    return {name: source for name, source in sources.items() if name not in gone}


def _cut_ghost_items(source: Source) -> None:
    def end(found: re.Match[str]) -> int:
        at = found.end()
        while source.code[at] not in ";,}":
            at = source.after_brackets(at) if source.code[at] in "([{" else at + 1
        return at + (source.code[at] != "}")

    source.cut(r"^[ \t]*ghost (?=use\b|\w+(?: =|:) \{)", end)


def _cut_clauses(source: Source) -> None:
    """Takes out `requires` and `ensures`. A body or a semicolon follows the last clause of a function."""
    while found := re.search(_CLAUSE, source.code):
        end = source.after_brackets(found.end() - 1)
        while more := re.compile(_CLAUSE).match(source.code, end):
            end = source.after_brackets(more.end() - 1)
        rest = source.code[end:].lstrip()
        if rest[:1] not in ("{", ";"):
            raise source.unknown(found.end(), "clauses that no body follows")
        source.code = source.code[: found.start()] + (" " if rest[0] == "{" else "") + rest


def _unname_loops(source: Source) -> None:
    """Takes the names of loops out that only their invariants use."""

    def unnamed(found: re.Match[str]) -> str:
        is_used = re.search(rf"\b(?:break|continue) {found[2]}\b", source.code)
        return found[0] if is_used else found[1]

    source.replace(r"^([ \t]*)('\w+): (?=while|loop|for)", unnamed)
