"""Writes the Cargo workspace: a package for each crate that has code, beside those that stand in `package/`."""
from __future__ import annotations

import gzip
import re
import shutil
import subprocess
import tarfile
from pathlib import Path
from typing import NamedTuple

from forms import write_in_rust
from proofs import has_items, leave_out_laws, leave_out_proofs
from source import Source, UnknownForm

# The crate of the program. Its modules go into the package `zxopt`, beside the library.
PROGRAM = "zxopt"
# Traits of Rust's std and of `rattle`, whose methods a file may call without naming them.
_TRAITS = {"Clone", "Error", "Ledger", "NextWord", "Read", "TryCollect", "Write"}

_MANIFEST = """[package]
name = "{name}"
version.workspace = true
edition.workspace = true
license.workspace = true
publish = false
rust-version.workspace = true

[lib]
doctest = false
{no_tests}
[lints]
workspace = true

[dependencies]
"""


class Crate(NamedTuple):
    """A crate of crates.txt, and the crates that it stands on."""

    name: str
    below: list[str]


def listed_crates(list_file: Path) -> list[Crate]:
    """The crates that crates.txt lists, lowest first, but for static libraries, which no package stands for."""
    crates = []
    for number, line in enumerate(list_file.read_text(encoding="utf-8").split("\n"), 1):
        entry, colon, below = line.split("#")[0].partition(":")
        name, *kinds = entry.split() or [""]
        if colon and not kinds:
            crates.append(Crate(name, below.split()))
        elif entry.strip() and kinds != ["staticlib"]:
            raise UnknownForm(f"{list_file}:{number}: an entry of an unknown kind: {line}")
    return crates


def write_workspace(repository: Path, out: Path) -> tuple[int, int]:
    """Writes the workspace into a new folder. Answers how many crates were read and how many packages were written."""
    shutil.copytree(Path(__file__).parent / "package", out)
    shutil.copy(repository / "LICENSE", out)
    crates = listed_crates(repository / "crates.txt")
    sources = _sources_of(repository, crates)
    traits = _TRAITS | {name for files in sources.values() for source in files.values() for name in _traits_of(source)}
    written: set[str] = set()
    for crate in crates:
        files = sources[crate.name]
        if not has_items(files):
            continue
        for source in files.values():
            write_in_rust(source, traits)
        if crate.name == PROGRAM:
            _write_program(out / "zxopt/src/program", files)
        else:
            _write_package(out / "crates" / crate.name, crate, files, written)
            written.add(crate.name)
    _tell_sources(repository, out)
    subprocess.run(["cargo", "fmt", "--all"], cwd=out, check=True)
    return len(crates), len(written) + 1


def write_archive(out: Path, archive: Path) -> None:
    """Packs the folder: the same bytes for the same files."""

    def anonymous(entry: tarfile.TarInfo) -> tarfile.TarInfo:
        entry.mtime = entry.uid = entry.gid = 0
        entry.uname = entry.gname = ""
        entry.mode = 0o755 if entry.isdir() else 0o644
        return entry

    name = archive.name.removesuffix(".tar.gz")
    with open(archive, "wb") as file, gzip.GzipFile("", "wb", 9, file, mtime=0) as packed:
        with tarfile.open(fileobj=packed, mode="w", format=tarfile.PAX_FORMAT) as tar:
            for path in sorted(out.rglob("*")):
                tar.add(path, f"{name}/{path.relative_to(out)}", recursive=False, filter=anonymous)


def _sources_of(repository: Path, crates: list[Crate]) -> dict[str, dict[str, Source]]:
    """The files of each crate by the names of their modules, without proofs and laws."""
    sources: dict[str, dict[str, Source]] = {}
    laws: dict[str, set[str]] = {}
    for crate in crates:
        files = {}
        folder = repository / "crates" / crate.name / "src"
        for path in sorted(folder.rglob("*.rt")):
            name = path.relative_to(folder).with_suffix("").as_posix()
            source = files[name] = Source(path.relative_to(repository), path.read_text(encoding="utf-8"))
            leave_out_proofs(source)
        if ("main" in files) != (crate.name == PROGRAM):
            raise UnknownForm(f"crates/{crate.name}: a program beside {PROGRAM}, or {PROGRAM} without a main.rt")
        sources[crate.name] = leave_out_laws(crate.name, files, laws)
    return sources


def _traits_of(source: Source) -> list[str]:
    return re.findall(r"\btrait (\w+)", source.code)


def _write_program(folder: Path, files: dict[str, Source]) -> None:
    folder.mkdir()
    for name, source in files.items():
        (folder / f"{'mod' if name == 'main' else name}.rs").write_text(source.text(), encoding="utf-8")


def _write_package(folder: Path, crate: Crate, files: dict[str, Source], written: set[str]) -> None:
    (folder / "src").mkdir(parents=True)
    for name, source in files.items():
        file = folder / f"src/{name}.rs"
        file.parent.mkdir(exist_ok=True)
        file.write_text(source.text(), encoding="utf-8")
    code = "\n".join(source.code for source in files.values())
    used = sorted(name for name in crate.below if name in written and re.search(rf"\b{name}::", code))
    no_tests = "" if "#[test]" in code else "test = false\n"
    manifest = _MANIFEST.format(name=crate.name, no_tests=no_tests)
    if "rattle::" in code:
        manifest += 'rattle = { path = "../../rattle" }\n'
    manifest += "".join(f'{name} = {{ path = "../{name}" }}\n' for name in used)
    (folder / "Cargo.toml").write_text(manifest, encoding="utf-8")


def _tell_sources(repository: Path, out: Path) -> None:
    """Writes the sum of the sources, by which dist/RECORD names them too, into the library and into README."""
    command = [repository / "zxopt"]
    told = subprocess.run(command, env={"PATH": "/usr/bin:/bin", "ZXOPT_SOURCES": "1"}, stdout=subprocess.PIPE, check=True)
    sources = told.stdout.decode().strip()
    for file in (out / "README.md", out / "zxopt/src/lib.rs"):
        file.write_text(file.read_text(encoding="utf-8").replace("@SOURCES@", sources), encoding="utf-8")
