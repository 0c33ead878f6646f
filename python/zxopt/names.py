"""Names of a text as the program `zxopt` reads them: small first letters, and none that its header has."""
from __future__ import annotations

import re
from typing import Callable, Mapping, Optional

from .library import library
from .qasm import BUILT_IN, FIRST, HEADER, KEYWORDS, Statement, register

Tell = Callable[[int, str], None]
# First words of statements that apply no gate.
STATEMENTS = frozenset("OPENQASM include qreg creg gate opaque if barrier measure reset".split())
_WORDS = re.compile(r"//[^\n]*|\"[^\"\n]*\"|(?:\d+\.\d*|\.\d+|\d+)(?:[eE][-+]?\d+)?|([^\W\d]\w*)")
_DECLARED = re.compile(r"(gate|opaque|qreg|creg)\s+([^\W\d]\w*)\s*([^{;\[]*)")
# A gate's name that has a sign in it, as some exports have.
_ODD_NAME = re.compile(r"gate\s+([^\W\d]\w*[.\-\u2020'][\w.\-\u2020']*)\s*[(\w ]")
_IF = re.compile(r"if\s*\(([^()]*)\)\s*", re.S)


def conditioned(text: str) -> list[str]:
    """The names of the gates that a conditional statement applies."""
    found = _IF.match(text)
    rest = text[found.end() :] if found else ""
    heads = [it.split("(")[0].split() for it in re.split(r"[;{}]", rest)]
    return [it[0] for it in heads if it and it[0] not in STATEMENTS]


def mend_keywords(statements: list[Statement], tell: Tell) -> None:
    """Spells the first words of statements with small letters, and names of gates as the language does."""
    odd: dict[str, str] = {}
    for it in statements:
        head = it.head()
        if head and head[0].isupper() and head.lower() in STATEMENTS:
            tell(it.line, f"{head} is written as {head.lower()}")
            it.text = head.lower() + it.text[len(head) :]
        found = _ODD_NAME.match(it.text) if it.text.startswith("gate") else None
        if found:
            odd.setdefault(found[1], it.text)
    if not odd:
        return
    taken = words_of(statements)
    renamed = {}
    for name in odd:
        renamed[name] = unused(_spelled(re.sub(r"\W", "_", name, flags=re.A)), taken)
        taken.add(renamed[name])
    names = sorted([re.escape(name) for name in renamed], key=len, reverse=True)
    one = re.compile(rf"//[^\n]*|(?<![\w.\-])({'|'.join(names)})(?=[\s(])")
    told: set[str] = set()
    for it in statements:
        for found in one.finditer(it.text):
            if found[1] and found[1] not in told:
                told.add(found[1])
                tell(it.line, f"{found[1]} is named {renamed[found[1]]}")
        it.text = one.sub(lambda its: renamed[its[1]] if its[1] else its[0], it.text)


def words_of(statements: list[Statement]) -> set[str]:
    """All words of statements, comments and strings aside."""
    out: set[str] = set()
    for text in {it.text for it in statements}:
        out.update(_WORDS.findall(text))
    out.discard("")
    return out


def mend_words(statements: list[Statement], tell: Tell) -> None:
    """Renames what doesn't begin with a small letter of ASCII; undeclared capital names are taken for the header's, and
    those that it hasn't stay."""
    words = words_of(statements)
    bad = sorted(it for it in words if not _is_fine(it))
    if not bad:
        return
    declared = _declared_words(statements)
    taken = words | HEADER | KEYWORDS | set(library())
    renamed: dict[str, str] = {}
    for name in bad:
        small = name.lower()
        if name not in declared and (small in HEADER or small in library() or small == "pi"):
            renamed[name] = small
        elif name in declared:
            renamed[name] = unused(_spelled(name), taken)
            taken.add(renamed[name])
    _rename(statements, renamed, tell)


def _is_fine(word: str) -> bool:
    return word in BUILT_IN or (word.isascii() and word[0].islower())


def _spelled(name: str) -> str:
    """A name in letters of ASCII with a small first one."""
    said = "".join(it if it.isascii() else f"u{ord(it):x}" for it in name)
    return said[0].lower() + said[1:] if said[0].isalpha() else "n" + said


def unused(name: str, taken: set[str]) -> str:
    """A name that isn't taken: this one, or it with a number."""
    out, count = name, 1
    while out in taken:
        count += 1
        out = f"{name}_{count}"
    return out


def _declared_words(statements: list[Statement]) -> set[str]:
    """Names that statements declare, those of angles and qubits too."""
    out: set[str] = set()
    for it in statements:
        found = _DECLARED.match(it.text) if it.text[:1] in ("g", "o", "q", "c") else None
        if found:
            out.add(found[2])
            out.update(_WORDS.findall(found[3]))
    return out


def declared(text: str) -> str:
    """The name that the text of a declaration declares, or nothing."""
    found = _DECLARED.match(text)
    return found[2] if found else ""


def _rename(statements: list[Statement], renamed: Mapping[str, str], tell: Tell) -> None:
    """Renames words wherever they stand in code, each told with the line of the first statement that has it."""
    told: set[str] = set()
    seen: dict[str, tuple[str, list[str]]] = {}
    for it in statements:
        if it.text not in seen:
            seen[it.text] = _substituted(it.text, renamed)
        text, found = seen[it.text]
        for name in found:
            if name not in told:
                told.add(name)
                tell(it.line, f"{name} is named {renamed[name]}")
        it.text = text


def _substituted(text: str, renamed: Mapping[str, str]) -> tuple[str, list[str]]:
    found: list[str] = []

    def one(match: re.Match[str]) -> str:
        new = renamed.get(match[1]) if match[1] else None
        if new is None:
            return match[0]
        found.append(match[1])
        return new

    return _WORDS.sub(one, text), found


def clashes(statements: list[Statement], includes: bool, gates: set[str]) -> tuple[dict[str, str], dict[str, str]]:
    """New names of the gates that are declared as those of the header, and of registers that are named as gates.

    `includes` tells whether the header is there, `gates` which gates are applied.
    """
    own, registers = set(), set()
    for it in statements:
        found = _DECLARED.match(it.text) if it.text[:1] in ("g", "o", "q", "c") else None
        if found and found[1] in ("gate", "opaque"):
            own.add(found[2])
        elif found and register(it.text):
            registers.add(found[2])
    names = gates | own | (FIRST if includes else set())
    if not registers & names and not (includes and own & FIRST):
        return {}, {}
    taken = words_of(statements) | HEADER | KEYWORDS | set(library())
    first: dict[str, str] = {}
    second: dict[str, str] = {}
    for name in sorted(own & FIRST if includes else ()):
        first[name] = unused(f"own_{name}", taken)
        taken.add(first[name])
    for name in sorted(registers & names):
        second[name] = unused(f"{name}_reg", taken)
        taken.add(second[name])
    return first, second


def mend_clashes(statements: list[Statement], includes: bool, gates: set[str], tell: Tell) -> None:
    """Renames the gates and registers of `clashes`, registers only where a statement names places."""
    own, registers = clashes(statements, includes, gates)
    if registers:
        told: set[str] = set()
        for it in statements:
            text, found = with_places(it.text, registers)
            for name in found:
                if name not in told:
                    told.add(name)
                    tell(it.line, f"the register {name} is named {registers[name]}")
            it.text = text
    if own:
        _rename(statements, own, tell)


def with_places(text: str, renamed: Mapping[str, str]) -> tuple[str, list[str]]:
    """A statement with its registers renamed, and which of these it names."""
    at = _places_begin(text)
    if at is None:
        return text, []
    new, found = _substituted(text[at:], renamed)
    head = text[:at]
    if text.startswith("if") and (condition := _IF.match(text)):
        left, more = _substituted(condition[0][2:], renamed)
        head, found = "if" + left + text[condition.end() : at], more + found
    return head + new, found


def _places_begin(text: str) -> Optional[int]:
    """The place in a statement from which on words are registers, or none where it names none."""
    condition = _IF.match(text) if text.startswith("if") else None
    start = condition.end() if condition else 0
    found = re.compile(r"[^\W\d]\w*").match(text, start)
    if not found or found[0] in ("gate", "opaque", "include", "OPENQASM"):
        return None
    at = found.end()
    inner = re.compile(r"\s*\(").match(text, at)
    if not inner or found[0] in STATEMENTS:
        return at
    depth, at = 1, inner.end()
    while depth and at < len(text):
        depth += {"(": 1, ")": -1}.get(text[at], 0)
        at += 1
    return at
