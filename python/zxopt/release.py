"""Which release of zxopt this package belongs to."""
from __future__ import annotations

__all__ = ["VERSION", "VERSION_NUMBER"]

VERSION = "1.0.0"


def _number(version: str) -> int:
    major, minor, patch = map(int, version.split("."))
    return 10_000 * major + 100 * minor + patch


# The same as the shared library tells it.
VERSION_NUMBER = _number(VERSION)
