"""The cases that are stored in tests/."""

from __future__ import annotations

import glob
import os
from collections.abc import Iterator

from .case import Case
from .form import BadForm, cases_of


def stored(top: str) -> Iterator[tuple[str, bytes]]:
    """The files of cases below a folder, by their paths from there."""
    for path in sorted(glob.glob(f"{top}/tests/**/*.case", recursive=True)):
        with open(path, "rb") as file:
            yield os.path.relpath(path, top), file.read()


def read_all(top: str, faults: list[str]) -> list[Case]:
    """All stored cases. A file in another form is a fault."""
    found = []
    for path, text in stored(top):
        try:
            found += cases_of(path, text)
        except (BadForm, ValueError) as it:
            faults.append(f"{path}: {it}")
    return found
