"""Where definitions stand, in this repository and in the toolchain if it is at hand, and what stands behind a text."""
from __future__ import annotations

import re
import shutil
from pathlib import Path
from typing import Iterable, NamedTuple, Optional

from .reader import Definition, Import, Line, Specs, cited, imports_of

TOP = Path(__file__).resolve().parents[2]
CRATES = TOP / "crates"


def toolchain() -> Optional[Path]:
    """The folder of the toolchain's libraries, where its command `rt` is installed."""
    command = shutil.which("rt")
    return Path(command).resolve().parents[1] / "rattle" if command else None


KIT = toolchain()


def is_own(path: Path) -> bool:
    """Whether a file is one of this repository."""
    return CRATES in path.parents


def shown(path: Path) -> str:
    """A path from the folder of the crates, or from that of the toolchain's libraries."""
    if is_own(path) or KIT is None:
        return path.relative_to(CRATES).as_posix()
    return "toolchain:" + path.relative_to(KIT).as_posix()


def path_shown(name: str) -> Path:
    """The path that `shown` gives so."""
    rest = name[len("toolchain:"):] if name.startswith("toolchain:") else ""
    return KIT / rest if KIT and rest else CRATES / name


class Found(NamedTuple):
    """A definition, with the file that it stands in."""

    file: Specs
    definition: Definition


class CodeType(NamedTuple):
    """A type of the code that definitions speak of: the file of its crate, and its name."""

    path: Path
    name: str


def path_of(module: str) -> Optional[Path]:
    """The file of a module, or None where it is the code's, the kernel's, or of a toolchain that isn't at hand."""
    parts = module.split(".")
    if parts[0] == "Rattle" and "declared" not in parts:
        path = CRATES.joinpath(*parts[1:]) if (CRATES / parts[1]).is_dir() else _in_toolchain(parts)
    elif KIT and parts[0] in ("lib", "denote"):
        path = KIT.joinpath("logic", parts[0].capitalize(), *parts[1:])
    elif KIT and parts[0] == "mathlib":
        path = KIT.joinpath("antt/port/mathlib/src", *parts[1:])
    else:
        return None
    return path.with_suffix(".antt") if path and path.with_suffix(".antt").is_file() else None


def _in_toolchain(parts: list[str]) -> Optional[Path]:
    """The file of a module of the toolchain's libraries: std passes on some modules of others, by `pub use`."""
    if not KIT:
        return None
    library = parts[1]
    if parts[1:3] == ["std", "specs"]:
        passed_on = re.search(r"(?m)^pub use Rattle\.(\w+)\.specs\.%s$" % parts[3],
                              (KIT / "std/specs/Lib.antt").read_text(encoding="utf-8"))
        library = passed_on.group(1) if passed_on else library
    return KIT.joinpath(library, *parts[2:])


class Library:
    """Files of definitions, each read once, in which names are looked up."""

    def __init__(self) -> None:
        self._files: dict[Path, Specs] = {}

    def file_at(self, path: Path) -> Specs:
        """The file at a path."""
        if path not in self._files:
            self._files[path] = Specs(path)
        return self._files[path]

    def file_of(self, module: str) -> Optional[Specs]:
        """The file of a module, where there is one."""
        path = path_of(module)
        return self.file_at(path) if path else None

    def resolve(self, taken: Import) -> Optional[Found]:
        """The definition that an import stands for, through what is passed on."""
        for _ in range(10):
            file = self.file_of(taken.module)
            if file is None or taken.name is None:
                return None
            if taken.name in file.by_name:
                return Found(file, file.by_name[taken.name])
            if taken.name not in file.imports:
                return None
            taken = file.imports[taken.name]
        return None

    def cited_in(self, text: str, imports: dict[str, Import], own: Optional[Specs] = None) -> list[Found]:
        """The definitions that a text names: those of its own file, imported ones, and `alias.name`."""
        found = [Found(own, own.by_name[name]) for name in sorted(cited(text, own.by_name))] if own else []
        hidden = set(own.by_name) if own else set()
        taken = [imports[name] for name in sorted(cited(text, set(imports) - hidden))]
        taken += [Import(one.module, name, False) for alias, one in imports.items() if one.name is None
                  for name in sorted(set(re.findall(r"\b%s\.(\w+)" % alias, text)))]
        return found + [known for known in map(self.resolve, taken) if known]

    def cited_by(self, one: Found) -> list[Found]:
        """The definitions that a definition names."""
        return self.cited_in("\n".join(one.definition.code), one.file.imports, one.file)

    def behind(self, roots: Iterable[Found], values: Iterable[str] = ()) -> list[Found]:
        """The definitions that these stand on, themselves too. Of `values` only that they are there is asked."""
        found: dict[int, Found] = {}
        waiting = list(roots)
        while waiting:
            one = waiting.pop()
            if id(one.definition) not in found:
                found[id(one.definition)] = one
                if one.definition.name not in values:
                    waiting += self.cited_by(one)
        return list(found.values())


def code_types(text: str, imports: dict[str, Import]) -> set[CodeType]:
    """The types of this repository's code that a text names."""
    named = cited(text, imports)
    types = set()
    for name, taken in imports.items():
        parts = taken.module.split(".")
        if name in named and "declared" in parts and (CRATES / parts[1]).is_dir():
            inside = parts[parts.index("declared") + 1:]
            path = CRATES / parts[1] / "src" / (inside[0] + ".rt")
            types.add(CodeType(path, inside[1] if len(inside) > 1 else taken.name or ""))
    return types


def code_lines(path: Path, name: str) -> list[Line]:
    """An item of the code as it stands in its file, with its comment: of a function its contract, without the body."""
    lines = [Line(number, text) for number, text in enumerate(path.read_text(encoding="utf-8").splitlines(), 1)]
    item = re.compile(rf"(pub(\(crate\))? )?(fn|struct|enum|trait) {name}\b")
    begin = next((at for at, line in enumerate(lines) if item.match(line.text)), None)
    if begin is None:
        raise LookupError(f"{shown(path)} has no item {name}")
    end = next(at for at, line in enumerate(lines) if at >= begin and line.text in ("{", "}"))
    first = begin
    while lines[first - 1].text.startswith(("//", "#[")):
        first -= 1
    comment = [line for line in lines[first:begin] if line.text.startswith("//")]
    return comment + lines[begin:end] + [line for line in lines[end:end + 1] if line.text == "}"]


def without_notes(lines: Iterable[Line]) -> str:
    """Lines of code as a text, without those that are comments alone."""
    return "\n".join(line.text for line in lines if not line.text.strip().startswith("//"))


class Clause(NamedTuple):
    """A clause of a law, by its lines in the file."""

    law: str
    path: Path
    lines: list[Line]

    @property
    def text(self) -> str:
        """What it says, without the comment above it."""
        return without_notes(self.lines)


def clauses_of(path: Path, law: str) -> list[Clause]:
    """The clauses of a law, each with the comment above it."""
    clauses: list[Clause] = []
    above: list[Line] = []
    is_inside = False
    for number, text in enumerate(path.read_text(encoding="utf-8").splitlines(), 1):
        if text.startswith(f"pub fn {law}("):
            is_inside = True
        elif is_inside and text.startswith("{"):
            break
        elif is_inside and (not text.strip() or text.startswith("    //")):
            above = above + [Line(number, text)] if text.strip() else []
        elif is_inside and text.startswith("    ensures "):
            clauses.append(Clause(law, path, above + [Line(number, text)]))
            above = []
        elif is_inside and clauses:
            clauses[-1].lines.append(Line(number, text))
    return clauses


def worked_laws() -> list[tuple[Path, str]]:
    """The laws that are worked examples: those of such a name, and all in a file `examples.rt`."""
    laws = []
    for path in sorted(CRATES.glob("*/src/*.rt")):
        names = re.findall(r"(?m)^pub fn (\w+)\(\)$", path.read_text(encoding="utf-8"))
        laws += [(path, name) for name in names if name.startswith("worked_") or path.name == "examples.rt"]
    return laws
