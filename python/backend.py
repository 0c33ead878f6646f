"""Builds the package for pip: the hooks of PEP 517 and PEP 660, by the standard library alone.

A wheel is a zip file of the package's files, with a folder of what is said of them. In a clone of the repository it
holds the program too, `dist/zxopt-static`, and the library, `dist/libzxopt.so.1`. Neither needs a C library of its own,
so the wheel's tags are those of glibc and of musl. What is said stands in pyproject.toml, in lines that are simple
enough to be read here without a parser, which Python has from 3.11 on.
"""
from __future__ import annotations

import base64
import hashlib
import io
import re
import sys
import tarfile
import zipfile
from pathlib import Path
from typing import Any, Dict, List, NamedTuple, Optional, Sequence

_HERE = Path(__file__).resolve().parent
_DIST = _HERE.parent / "dist"
_SOURCES = ("*.py", "*.qasm", "*.tsv", "py.typed")
_ANY = ("any",)
_LINUX = ("manylinux2014_x86_64", "musllinux_1_1_x86_64")
_WITHOUT = """\
This archive holds no program. The package runs the program `zxopt` that $ZXOPT names, or that it finds on the path;
wheels that are built in a clone of the repository hold it.

"""


class _File(NamedTuple):
    """A file of a wheel: what it holds, and its permissions."""

    data: bytes
    mode: int = 0o644


def build_wheel(folder: str, settings: Optional[Dict[str, Any]] = None, metadata: Optional[str] = None) -> str:
    """Writes the wheel into a folder, and answers its name."""
    files = {f"zxopt/{file.name}": _File(file.read_bytes()) for file in _package_files()}
    program, library = _shipped("zxopt-static", "static"), _shipped("libzxopt.so.1", "library")
    if program is None or library is None:
        print(f"zxopt: no program or no library in {_DIST}, so the wheel holds neither", file=sys.stderr)
        return _written_wheel(folder, files, _ANY, _WITHOUT)
    shipped = {"zxopt/bin/zxopt": _File(program, 0o755), "zxopt/lib/libzxopt.so.1": _File(library)}
    return _written_wheel(folder, {**files, **shipped}, _LINUX)


def build_editable(folder: str, settings: Optional[Dict[str, Any]] = None, metadata: Optional[str] = None) -> str:
    """The same of a wheel that points to the files here."""
    return _written_wheel(folder, {"zxopt.pth": _File(f"{_HERE}\n".encode())}, _ANY)


def build_sdist(folder: str, settings: Optional[Dict[str, Any]] = None) -> str:
    """Writes an archive of what a wheel is built from, and answers its name. It holds no program, and says so."""
    base = f"zxopt-{_table('project')['version']}"
    files = [_HERE / name for name in ("pyproject.toml", "README.md", "backend.py")] + _package_files()
    with tarfile.open(Path(folder, f"{base}.tar.gz"), "w:gz", format=tarfile.PAX_FORMAT) as archive:
        for file in files:
            archive.add(file, f"{base}/{file.relative_to(_HERE).as_posix()}")
        told = _metadata(_WITHOUT).encode("utf-8")
        entry = tarfile.TarInfo(f"{base}/PKG-INFO")
        entry.size = len(told)
        archive.addfile(entry, io.BytesIO(told))
    return f"{base}.tar.gz"


def _shipped(name: str, word: str) -> Optional[bytes]:
    """A file of the clone's dist/, or none where this is no clone. ValueError where the record tells another sum of it by
    this word."""
    file, record = _DIST / name, _DIST / "RECORD"
    if not file.is_file() or not record.is_file():
        return None
    data = file.read_bytes()
    if f"{word} {hashlib.sha256(data).hexdigest()}" not in record.read_text(encoding="utf-8").splitlines():
        raise ValueError(f"{file} isn't the one that {record} tells")
    return data


def _written_wheel(folder: str, files: Dict[str, _File], platforms: Sequence[str], note: str = "") -> str:
    base = f"zxopt-{_table('project')['version']}"
    info = f"{base}.dist-info"
    said = {"METADATA": _metadata(note), "WHEEL": _wheel(platforms), "entry_points.txt": _entry_points()}
    files = {**files, **{f"{info}/{name}": _File(text.encode("utf-8")) for name, text in said.items()}}
    records = [f"{name},sha256={_digest(file.data)},{len(file.data)}\n" for name, file in files.items()]
    files[f"{info}/RECORD"] = _File("".join([*records, f"{info}/RECORD,,\n"]).encode("utf-8"))
    name = f"{base}-py3-none-{'.'.join(platforms)}.whl"
    with zipfile.ZipFile(Path(folder, name), "w") as wheel:
        for path, file in files.items():
            entry = zipfile.ZipInfo(path, (1980, 1, 1, 0, 0, 0))
            entry.compress_type = zipfile.ZIP_DEFLATED
            entry.create_system = 3  # Unix, whose permissions follow
            entry.external_attr = (0o100000 | file.mode) << 16
            wheel.writestr(entry, file.data)
    return name


def _wheel(platforms: Sequence[str]) -> str:
    """What the wheel says of itself. One with a program isn't for all systems."""
    pure = "true" if platforms == _ANY else "false"
    tags = "".join(f"Tag: py3-none-{platform}\n" for platform in platforms)
    return f"Wheel-Version: 1.0\nGenerator: zxopt\nRoot-Is-Purelib: {pure}\n{tags}"


def _entry_points() -> str:
    """The commands that pip installs, and what other packages look for: a group of each."""
    text = (_HERE / "pyproject.toml").read_text(encoding="utf-8")
    tables = {"console_scripts": "project.scripts"}
    for table, group in re.findall(r'^\[(project\.entry-points\."?([\w.-]+)"?)\]$', text, re.MULTILINE):
        tables[group] = table
    groups = []
    for group, table in tables.items():
        groups.append(f"[{group}]\n" + "".join(f"{name} = {call}\n" for name, call in _table(table).items()))
    return "\n".join(groups)


def _package_files() -> List[Path]:
    return sorted(file for pattern in _SOURCES for file in (_HERE / "zxopt").glob(pattern))


def _table(name: str) -> Dict[str, str]:
    """The lines `KEY = "VALUE"` of a table of pyproject.toml."""
    text = (_HERE / "pyproject.toml").read_text(encoding="utf-8").partition(f"\n[{name}]\n")[2]
    return dict(re.findall(r'^([a-z-]+) = "(.*)"$', text.partition("\n[")[0], re.MULTILINE))


def _metadata(note: str = "") -> str:
    project = _table("project")
    lines = [
        "Metadata-Version: 2.1",
        f"Name: {project['name']}",
        f"Version: {project['version']}",
        f"Summary: {project['description']}",
        f"Requires-Python: {project['requires-python']}",
        "License: Apache-2.0",
        "Description-Content-Type: text/markdown",
    ]
    return "\n".join(lines) + "\n\n" + note + (_HERE / "README.md").read_text(encoding="utf-8")


def _digest(data: bytes) -> str:
    return base64.urlsafe_b64encode(hashlib.sha256(data).digest()).decode("ascii").rstrip("=")
