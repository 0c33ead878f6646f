#!/usr/bin/env python3
"""Builds the module of WebAssembly, and the page that holds it.

    web/build.py [--bitcode FILE] [--module FILE] [--page FILE]
    web/build.py --unpack PAGE --module FILE

The module is made of the very bitcode that Rattle makes of the proved static library `zxopt_c`, by the toolchain's own
clang and linker: `retarget.py` changes its target, and `shim.c` gives it a heap. For that the libraries below have to
be proved, as `rt ci` leaves them in `crates/*/out`. Or take the bitcode from a file: `--bitcode` is for trying builds
that aren't proved. Nothing that happens here after the check is proved. With `--unpack` nothing is built, and no
toolchain is needed: the module comes out of a page.
"""
from __future__ import annotations

import argparse
import fcntl
import hashlib
import os
import shlex
import shutil
import subprocess
import tempfile
from pathlib import Path
from typing import Dict, List, Optional, Sequence

from page import module_in, page_with
from retarget import retarget

__all__ = ["bitcode", "compiled", "linked", "sources", "toolchain"]

TOP = Path(__file__).resolve().parent.parent
CRATE = "zxopt_c"
CALLS = ("optimise", "teleport", "same", "compile", "reduce", "flow", "graph", "version")
# What calls leave in use of the stack is below 256 KiB; an overflow traps, since the stack lies below all data.
STACK_BYTES = 1 << 20
_ANY_BYTES = ("utf-8", "surrogateescape")

# Stands in for clang: keeps the module that Rattle hands over. It ends the build there, since no native code is wanted.
_KEEPER = """#!/bin/sh
for word in "$@"; do
    case $word in *module.bc) cp -- "$word" {} ;; esac
done
exit 1
"""


def toolchain() -> Optional[Path]:
    """The folder of Rattle's toolchain, or None where there is none."""
    if shutil.which("rt") is None:
        return None
    told = subprocess.run(["rt", "doc"], stdout=subprocess.PIPE, text=True, check=True).stdout
    return Path(told.split("\n", 1)[0]).parent


# -- the bitcode of the proved library --------------------------------------------------------------------------------


def bitcode(kit: Path, room: Path) -> Path:
    """The bitcode of the static library, taken from its build: of what tools/library checked, while that fits, and else
    of a check over the proved libraries below it."""
    words = ["--crate-name", CRATE, "src/lib.rt", *_libraries(kit), "--crate-type", "staticlib", "--cpu", "x86-64"]
    words += ["--antt-project", str(kit / "rattle/logic/antt-project.json"), "--links", f"{CRATE}="]
    crate, kept = TOP / "crates" / CRATE, room / "kept.bc"
    checked = crate / "out/checked"
    checking = [str(kit / "bin/rattle"), "check", *words, "--logic-built", str(kit / "logic_built"), "-o", str(checked)]
    building = [str(kit / "bin/rattle"), "build", *words, "--crate-checked", str(checked), "--backend", "llvm"]
    building += ["--toolchain", str(_tools(kit, room, kept)), "-o", str(room / "none.a")]
    checked.parent.mkdir(exist_ok=True)
    with open(f"{checked}.lock", "w") as lock:
        fcntl.flock(lock, fcntl.LOCK_EX)
        said = _output(building, crate) if checked.is_dir() else ""
        if not kept.exists():
            shutil.rmtree(checked, ignore_errors=True)
            _run(checking, folder=crate)
            said = _output(building, crate)
    if not kept.exists():
        raise SystemExit(f"web/build.py: no bitcode of {CRATE}:\n{said}")
    return kept


def _output(words: Sequence[str], folder: Path) -> str:
    """What a command says, whatever its status."""
    return subprocess.run(words, cwd=folder, stdout=subprocess.PIPE, stderr=subprocess.STDOUT, text=True).stdout


def _libraries(kit: Path) -> List[str]:
    """The words that name the libraries below the crate: those of this repository and those of the toolchain."""
    below = _dependencies()
    words = []
    for name in ("std", *below[CRATE]):
        place = TOP / "crates" / name / "out/rlib" if name in below else kit / "rlibs"
        words += ["--extern", f"{name}={place / (name + '.rlib')}"]
    for place in [kit / "rlibs", *(TOP / "crates" / name / "out/rlib" for name in below)]:
        words += ["-L", f"dependency={place}"]
    return words


def _dependencies() -> Dict[str, List[str]]:
    """What each crate of `crates.txt` stands on."""
    lines = (line.partition("#")[0] for line in (TOP / "crates.txt").read_text().splitlines())
    rows = (line.partition(":") for line in lines if ":" in line)
    return {name.split()[0]: words.split() for name, _, words in rows}


def _tools(kit: Path, room: Path, kept: Path) -> Path:
    """A toolchain whose clang is the one that keeps the bitcode, as this file."""
    tools = room / "tools"
    shutil.copytree(kit / "toolchain", tools, symlinks=True, ignore=shutil.ignore_patterns("clang"))
    (tools / "bin/clang").write_text(_KEEPER.format(shlex.quote(str(kept))))
    (tools / "bin/clang").chmod(0o755)
    return tools


# -- the module -------------------------------------------------------------------------------------------------------


def compiled(kit: Path, source: Path, room: Path) -> List[Path]:
    """The objects of the module: of this bitcode or text of LLVM, and of what it needs besides."""
    clang = str(kit / "toolchain/bin/clang")
    text, changed, code, shim = (room / name for name in ("text.ll", "changed.ll", "code.o", "shim.o"))
    reading = ["-x", "ir", str(source), "-S", "-emit-llvm", "-O0", "-Xclang", "-disable-llvm-passes"]
    _run([clang, *reading, "-o", str(text)])
    # (the names of functions may have any bytes)
    changed.write_text(retarget(text.read_text(*_ANY_BYTES)), *_ANY_BYTES)
    target = ["--target=wasm32-unknown-unknown", "-mcpu=lime1", "-Os", "-ffunction-sections", "-fdata-sections", "-c"]
    _run([clang, *target, "-mllvm", "-expand-div-rem-bits=64", "-x", "ir", str(changed), "-o", str(code)])
    warnings = ["-Wall", "-Wextra", "-Werror"]
    _run([clang, *target, "-ffreestanding", "-mbulk-memory", *warnings, str(TOP / "web/shim.c"), "-o", str(shim)])
    return [code, shim]


def linked(kit: Path, objects: Sequence[Path], to: Path, most_memory: Optional[int] = None) -> bytes:
    """The module of these objects, which takes so many bytes of memory at most: whole pages of 65,536."""
    words = ["wasm-ld", "--no-entry", "--gc-sections", "--strip-all"]
    words += ["--stack-first", "-z", f"stack-size={STACK_BYTES}"]
    words += [f"--export=zxopt_{call}" for call in CALLS]
    words += [] if most_memory is None else [f"--max-memory={most_memory}"]
    _run([*words, "-o", str(to), *map(str, objects)], executable=str(kit / "toolchain/bin/clang"))
    return to.read_bytes()


def sources() -> str:
    """The sum of what the module is made of: the program's sources, as ./zxopt sums them, and what is here besides."""
    environment = {**os.environ, "ZXOPT_SOURCES": "1"}
    told = subprocess.run([TOP / "zxopt"], env=environment, stdout=subprocess.PIPE, text=True, check=True).stdout
    of_crate = (file for folder in ("src", "specs", "proofs") for file in (TOP / "crates" / CRATE / folder).rglob("*"))
    files = sorted(file for file in of_crate if file.is_file())
    files += [TOP / "web" / name for name in ("build.py", "retarget.py", "shim.c")]
    lines = [f"{hashlib.sha256(file.read_bytes()).hexdigest()}  {file.relative_to(TOP)}\n" for file in files]
    return hashlib.sha256("".join([told, *lines]).encode()).hexdigest()


def _run(words: Sequence[str], executable: Optional[str] = None, folder: Path = TOP) -> None:
    """Runs a command of the toolchain, and ends with what it says where it fails."""
    ran = subprocess.run(
        words, executable=executable, cwd=folder, stdout=subprocess.PIPE, stderr=subprocess.STDOUT, text=True
    )
    if ran.returncode:
        raise SystemExit(f"web/build.py: {words[0]} failed with status {ran.returncode}:\n{ran.stdout}")


# -- the command ------------------------------------------------------------------------------------------------------


def _built(given: Optional[Path]) -> bytes:
    """The module, of bitcode that is given or of the proved library's."""
    kit = toolchain()
    if kit is None:
        raise SystemExit("web/build.py: the toolchain's command rt was not found")
    with tempfile.TemporaryDirectory() as name:
        room = Path(name)
        return linked(kit, compiled(kit, given or bitcode(kit, room), room), room / "module.wasm")


def main() -> None:
    parser = argparse.ArgumentParser(description="Builds the module of WebAssembly, and the page that holds it.")
    parser.add_argument("--bitcode", type=Path, help="LLVM's bitcode of the static library, in place of the proved one")
    parser.add_argument("--unpack", type=Path, metavar="PAGE", help="takes the module of a page, and builds nothing")
    parser.add_argument("--module", type=Path, help="where the module goes")
    parser.add_argument("--page", type=Path, help="where the page goes")
    asked = parser.parse_args()
    module = module_in(asked.unpack.read_text(encoding="utf-8")) if asked.unpack else _built(asked.bitcode)
    if asked.module:
        asked.module.write_bytes(module)
    if asked.page:
        asked.page.write_text(page_with(module, sources()), encoding="utf-8")


if __name__ == "__main__":
    main()
