"""Makes of a module that Rattle compiled for x86-64, as LLVM's text, the same module for WebAssembly.

The machine stays the one of 64 bits for which everything was proved: `usize`, sizes and layouts are the same. Only its
addresses are below 2^32, since WebAssembly of 32 bits runs everywhere. A pointer in memory keeps its eight bytes: its
address is stored as a number of 64 bits, and read back from it. So what changes, besides the target's name and its
attributes, is each place where a pointer meets memory.

Each line that speaks of pointers has to have one of the forms below, those in which a pointer is a value alone and
those that are changed. Any other one raises UnknownForm. Nothing of this is proved; `tests/wasm` compares the module's
answers with the program's.
"""
from __future__ import annotations

import re
from typing import Iterator, List, Match

__all__ = ["UnknownForm", "retarget"]

_LAYOUT = "e-m:e-p:32:32-p10:8:8-p20:8:8-i64:64-i128:128-n32:64-S128-ni:1:10:20"
_TARGET = "wasm32-unknown-unknown"
# What a function's attributes say of x86-64 alone.
_ATTRIBUTES = re.compile(r' "(?:target-cpu|probe-stack|stack-probe-size)"="[^"]*"')

_LOCAL = r"%[\w.]+"
_GLOBAL = r'@(?:[\w.]+|"[^"]*")'
_NUMBERS = r"(?:i\d+|<\d+ x i\d+>|\{ i\d+, i\d+ \})"
# A pointer to memory, with its alignment and metadata.
_PLACE = rf"ptr (?:{_LOCAL}|{_GLOBAL}), align \d+(?:, ![\w.]+ !\d+)*"

# The lines in which a pointer is a value, or the place of what is no pointer.
_KEPT = re.compile(
    "|".join(
        [
            r"(?:define|declare) .*",
            rf"  (?:{_LOCAL} = )?call .*",
            r"  ret (?:ptr|\{ \w+, \w+ \}) .*",
            rf"  {_LOCAL} = getelementptr (?:inbounds nuw )?i8, ptr .*",
            rf"  {_LOCAL} = (?:extractvalue|icmp eq ptr) .*",
            rf"  {_LOCAL} = load {_NUMBERS}, {_PLACE}",
            rf"  store {_NUMBERS} [^,]+, {_PLACE}",
            rf'{_GLOBAL} = [\w ]*constant \[\d+ x i8\] c".*", align \d+',
        ]
    )
)
# Attributes that name what is in memory behind a pointer.
_IN_MEMORY = re.compile(r"\b(?:sret|byval|byref|inalloca|preallocated|elementtype)\(")

_STORE = re.compile(rf"  store ptr ({_LOCAL}|{_GLOBAL}|null), ({_PLACE})")
_LOAD = re.compile(rf"  ({_LOCAL}) = load ptr, (ptr (?:{_LOCAL}|{_GLOBAL}), align \d+)(?:, ![\w.]+ !\d+)*")
_LOAD_PAIR = re.compile(rf"  ({_LOCAL}) = load \{{ (ptr|i\d+), (ptr|i\d+) \}}, ({_PLACE})")
_ALLOCA = re.compile(rf"  ({_LOCAL}) = alloca ptr, align 8")
_ADDRESS = re.compile(rf"  ({_LOCAL}) = ptrtoaddr ptr (.*) to i64")
_STATIC = re.compile(rf"({_GLOBAL} = [\w ]*constant )<\{{ (.*?) \}}> <\{{ (.*) \}}>(, align \d+)")
_ADDRESSES = (rf"getelementptr \(i8, ptr {_GLOBAL}, i64 \d+\)", _GLOBAL, "null", r"inttoptr \(i64 \d+ to ptr\)")
_STATIC_POINTER = re.compile(rf"\bptr ({'|'.join(_ADDRESSES)})")


class UnknownForm(ValueError):
    """A line of the module has none of the forms that are known."""


def retarget(text: str) -> str:
    """The text of the module for WebAssembly."""
    text = _once(r"^target datalayout = .*$", f'target datalayout = "{_LAYOUT}"', text)
    text = _once(r"^target triple = .*$", f'target triple = "{_TARGET}"', text)
    return "\n".join(_lines(text.split("\n")))


def _once(pattern: str, new: str, text: str) -> str:
    changed, count = re.subn(pattern, new, text, flags=re.M)
    if count != 1:
        raise UnknownForm(f"{count} lines, and not one, fit {pattern}")
    return changed


def _lines(lines: List[str]) -> Iterator[str]:
    for number, line in enumerate(lines, 1):
        if line.startswith("attributes "):
            yield _ATTRIBUTES.sub("", line)
        elif "ptr" in line:
            yield from _changed(line, number)
        else:
            yield line


def _changed(line: str, number: int) -> List[str]:
    """The lines that stand for one that speaks of pointers; its number makes new names."""
    wide = f"%wide.{number}"
    if found := _STORE.fullmatch(line):
        return [f"  {wide} = ptrtoint ptr {found[1]} to i64", f"  store i64 {wide}, {found[2]}"]
    if found := _LOAD.fullmatch(line):
        return [f"  {wide} = load i64, {found[2]}", f"  {found[1]} = inttoptr i64 {wide} to ptr"]
    if found := _ALLOCA.fullmatch(line):
        return [f"  {found[1]} = alloca i64, align 8"]
    if found := _ADDRESS.fullmatch(line):
        return [f"  {found[1]} = ptrtoint ptr {found[2]} to i64"]
    if found := _LOAD_PAIR.fullmatch(line):
        return _pair(found, wide)
    if found := _STATIC.fullmatch(line):
        return [_static(found, line)]
    if _KEPT.fullmatch(line) and not _IN_MEMORY.search(line):
        return [line]
    raise UnknownForm(f"line {number} of the module has no known form: {line}")


def _pair(found: Match[str], wide: str) -> List[str]:
    """A load of two values at once, of which one or both are pointers."""
    name, *types, place = found.groups()
    stored = "{ " + ", ".join("i64" if kind == "ptr" else kind for kind in types) + " }"
    lines, whole = [f"  {wide} = load {stored}, {place}"], "poison"
    for at, kind in enumerate(types):
        part = f"{wide}.{at}"
        lines.append(f"  {part} = extractvalue {stored} {wide}, {at}")
        if kind == "ptr":
            lines.append(f"  {part}.ptr = inttoptr i64 {part} to ptr")
            part += ".ptr"
        target = name if at else f"{wide}.first"
        lines.append(f"  {target} = insertvalue {{ {', '.join(types)} }} {whole}, {kind} {part}, {at}")
        whole = target
    return lines


def _static(found: Match[str], line: str) -> str:
    """A constant that holds pointers: four bytes of 0 stand behind the four of each."""
    head, types, values, tail = found.groups()
    types, count = re.subn(r"\bptr\b", "ptr, [4 x i8]", types)
    values, changed = _STATIC_POINTER.subn(r"ptr \1, [4 x i8] zeroinitializer", values)
    if changed != count:
        raise UnknownForm(f"{changed} of {count} pointers are known in the constant {line}")
    return f"{head}<{{ {types} }}> <{{ {values} }}>{tail}"
