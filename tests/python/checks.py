"""What the scripts of tests/ that are Python share: the program that is tried, and the count of checks."""
from __future__ import annotations

import subprocess
import sys
from pathlib import Path

TOP = Path(__file__).resolve().parents[2]


class Checks:
    """Checks of the program that a script's words name; without one, of the program that `rt ci` built."""

    def __init__(self, words: list[str]) -> None:
        self.program = Path(words[1] if len(words) > 1 else TOP / "crates/zxopt/out/zxopt").resolve()
        self.passed = self.failed = 0
        if not self.program.is_file():
            sys.exit(f"tests/{Path(words[0]).name}: no program at {self.program}")

    def opt(self, text: str, *flags: str) -> str:
        """What the program's `opt` writes for a text, to either stream."""
        ran = subprocess.run([self.program, "opt", *flags], input=text, encoding="utf-8", stdout=subprocess.PIPE,
                             stderr=subprocess.STDOUT, check=False)
        return ran.stdout

    def holds(self, name: str, why: str) -> None:
        """Counts a check, which failed where there is a reason why."""
        if why:
            self.failed += 1
            print(f"FAILED: {name}: {why}")
        else:
            self.passed += 1

    def told(self) -> int:
        """Prints the last line of a script, and answers its exit status."""
        print(f"{self.passed} passed, {self.failed} failed")
        return 1 if self.failed else 0
