"""The files beside the modules, which are read in the same way where the package lies in a zip."""
from __future__ import annotations

from importlib import resources

__all__ = ["read_data"]


def read_data(name: str) -> str:
    """The text of a file of the package, such as "header.qasm"."""
    return resources.files("zxopt").joinpath(name).read_text(encoding="utf-8")
