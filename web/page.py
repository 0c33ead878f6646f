"""Makes the page, one file that holds everything: the module, the scripts, and the data that they share with the
program's other parts.

The scripts are the modules in `web`, put together into one for the page and one for its worker, without comments,
imports and exports, and indented by tabs, so that the page is small. The page's content security policy takes these
alone, by their sums, and no network.
"""
from __future__ import annotations

import base64
import gzip
import hashlib
import json
import re
import sys
from pathlib import Path
from typing import Dict, Iterator, List

TOP = Path(__file__).resolve().parent.parent
sys.path[:0] = [str(TOP), str(TOP / "python")]

from benchmarks.families import gf2_mult  # noqa: E402
from zxopt.data import read_data  # noqa: E402
from zxopt.faults import FAULTS  # noqa: E402

__all__ = ["module_in", "page_with", "version"]

PAGE = TOP / "web/page"
_IMPORT = re.compile(r'^import \{[^}]*\} from "([^"]*)";\n', re.M)
_COMMENT = re.compile(r"^ *(?:/\*\*(?:[^*]|\*(?!/))*\*/(?: *\n)?|//.*\n)|/\*\* @type (?:[^*]|\*(?!/))*\*/ ?", re.M)
_TOP_LEVEL = re.compile(r"^(?:export )?(?:async )?(?:function|class|const|let) (\w+)", re.M)
_MODULE = re.compile(r'(?<=<script type="text/plain" id="module">)[^<]*')

# What stands for the letter of base85 that could begin a tag.
_NO_TAG = ","
# The second text of the example of a comparison.
_ONE_S = 'OPENQASM 2.0;\ninclude "qelib1.inc";\nqreg q[1];\ns q[0];\n'


def page_with(module: bytes, sources: str) -> str:
    """The page with this module, which tells the sum of the sources that it's made of."""
    style, script = _by_tabs(_read("style.css")), _bundle(PAGE / "main.mjs")
    parts = {
        "POLICY": _policy(f"\n{style}\n", f"\n{script}\n"),
        "STYLE": style,
        "VERSION": version(),
        "SOURCES": sources,
        "MODULE": _packed(module),
        "WORKER": _bundle(PAGE / "worker.mjs"),
        "DATA": _data(),
        "SCRIPT": script,
    }
    return re.sub(rf"@({'|'.join(parts)})@", lambda found: parts[found[1]], _read("index.html"))


def module_in(page: str) -> bytes:
    """The module that a page holds."""
    found = _MODULE.search(page)
    if found is None:
        raise ValueError("the page holds no module")
    return gzip.decompress(base64.b85decode(found[0].replace(_NO_TAG, "<")))


def version() -> str:
    """The version, which the Makefile tells."""
    found = re.search(r"^VERSION = (.*)$", (TOP / "Makefile").read_text(encoding="utf-8"), re.M)
    if found is None:
        raise ValueError("the Makefile tells no version")
    return found[1]


def _packed(module: bytes) -> str:
    """A module as letters, compressed, five for each four bytes."""
    return base64.b85encode(gzip.compress(module, 9, mtime=0)).decode("ascii").replace("<", _NO_TAG)


def _read(name: str) -> str:
    return (PAGE / name).read_text(encoding="utf-8").rstrip("\n")


def _by_tabs(text: str) -> str:
    """A text that is indented by tabs, for fewer bytes."""
    return re.sub(r"^(?: {4})+", lambda found: "\t" * (len(found[0]) // 4), text, flags=re.M)


def _policy(style: str, script: str) -> str:
    """What the page may do: run this style and this script, compile its module, and start its worker."""
    sums = [base64.b64encode(hashlib.sha256(text.encode()).digest()).decode("ascii") for text in (style, script)]
    return (
        f"default-src 'none'; style-src 'sha256-{sums[0]}'; script-src 'sha256-{sums[1]}' 'wasm-unsafe-eval'; "
        "worker-src blob:; img-src data:; base-uri 'none'; form-action 'none'"
    )


def _bundle(root: Path) -> str:
    """A script of a module and of those that it imports, each once and before those that import it."""
    files: Dict[Path, str] = {}
    _gather(root, files)
    names = [name for text in files.values() for name in _TOP_LEVEL.findall(text)]
    twice = sorted({name for name in names if names.count(name) > 1})
    if twice:
        raise ValueError(f"declared by more than one module below {root.name}: {', '.join(twice)}")
    return "\n".join(map(_plain, files.values()))


def _plain(module: str) -> str:
    """A module's text without its comments, its imports, the word `export` and empty lines."""
    text = _COMMENT.sub("", _IMPORT.sub("", module))
    return _by_tabs(re.sub(r"^\s*\n", "", re.sub(r"^export ", "", text, flags=re.M), flags=re.M).strip())


def _gather(file: Path, files: Dict[Path, str]) -> None:
    """Adds a module behind those that it imports."""
    text = file.read_text(encoding="utf-8")
    for name in _IMPORT.findall(text):
        other = (file.parent / name).resolve()
        if other not in files:
            _gather(other, files)
    files[file] = text


def _data() -> str:
    """What the page's script reads, as JSON that may stand in a page."""
    faults = [{"name": it.name, "sentence": it.sentence, "remedy": it.remedy} for it in FAULTS.values()]
    data = {"header": read_data("header.qasm"), "faults": faults, "examples": list(_examples())}
    return json.dumps(data, ensure_ascii=False, separators=(",", ":")).replace("</", "<\\/")


def _examples() -> Iterator[Dict[str, str]]:
    multiplier = gf2_mult(4)
    for title, command, text, second in (
        ("two T gates", "optimise", _example("two_t.qasm"), ""),
        ("a NOT with 3 controls, by Toffoli gates", "optimise", _example("tof_3.qasm"), ""),
        ("an adder of two bits", "optimise", _example("adder.qasm"), ""),
        ("a multiplier in GF(2^4)", "optimise", multiplier.text(), ""),
        ("two T gates, compared with an S", "same", _example("two_t.qasm"), _ONE_S),
        ("a ZX diagram", "compile", _example("diagram.zxd"), ""),
        ("a graph with a flow", "reduce", _example("path.zxg"), ""),
    ):
        yield {"title": title, "command": command, "text": text, "second": second}


def _example(name: str) -> str:
    return (TOP / "examples" / name).read_text(encoding="utf-8")
