"""Makes plain Rust of the proved sources: a Cargo workspace that builds the same program without the toolchain.

    python3 tools/plain FOLDER [--archive FILE.tar.gz]

Each crate of crates.txt becomes a package of the same name, and each src/NAME.rt a src/NAME.rs. What only the proof reads
is left out, what Rust says in other words is put in those, and all else stands as it was, comments too. `package/` has what
isn't made from sources: `rattle`, for what the proved std and the ported crates have and Rust's std hasn't, and `zxopt`, the
library and the start of the program. A form that isn't known here stops the tool, with its file and line.

Nothing of this is proved: tests/plain compares the program that comes of it with dist/zxopt.
"""
from __future__ import annotations

import argparse
import shutil
import sys
from pathlib import Path

from source import UnknownForm
from workspace import write_archive, write_workspace


def main() -> int:
    """Runs the tool. Answers 1 where a form isn't known or the folder is there, and 2 where words are wrong."""
    parser = argparse.ArgumentParser(prog="tools/plain", description="Makes plain Rust of the proved sources.")
    parser.add_argument("folder", type=Path, help="the workspace, which mustn't be there yet")
    parser.add_argument("--archive", type=Path, metavar="FILE.tar.gz", help="packs the workspace, too")
    given = parser.parse_args()
    if given.folder.exists():
        print(f"tools/plain: {given.folder} is there already", file=sys.stderr)
        return 1
    if not shutil.which("rustfmt"):
        print("tools/plain: no rustfmt here, which lays the code out", file=sys.stderr)
        return 1
    try:
        crates, packages = write_workspace(Path(__file__).resolve().parents[2], given.folder)
    except UnknownForm as form:
        print(f"tools/plain: {form}", file=sys.stderr)
        return 1
    if given.archive:
        write_archive(given.folder, given.archive)
    print(f"{given.folder}: {packages} packages of {crates} crates")
    return 0


if __name__ == "__main__":
    sys.exit(main())
