"""Contents and checksums of files, and the toolchain."""

from __future__ import annotations

import hashlib
import os
import shutil
from collections.abc import Iterable


class NotMade(Exception):
    """The program could not be made; the text says why."""


def text_of(path: str) -> str:
    with open(path, encoding="utf-8", errors="replace") as file:
        return file.read()


def write(path: str, text: str) -> None:
    with open(path, "w", encoding="utf-8") as file:
        file.write(text)


def sum_of_file(path: str) -> str:
    with open(path, "rb") as file:
        return hashlib.sha256(file.read()).hexdigest()


def sum_of(top: str, paths: Iterable[str]) -> str:
    """The checksum of what sha256sum prints for these files, as ./ftmpi computes it."""
    lines = [f"{sum_of_file(f'{top}/{it}')}  {it}\n" for it in sorted(paths)]
    return hashlib.sha256("".join(lines).encode()).hexdigest()


def kit_folder() -> str:
    """The folder of the toolchain whose `rt` is on the path."""
    if not (found := shutil.which("rt")):
        raise NotMade("there is no `rt` on the path: install the toolchain first")
    return os.path.dirname(os.path.dirname(os.path.realpath(found)))


def kit_line() -> str:
    """What `rt version` prints."""
    return text_of(f"{kit_folder()}/KIT-ID").strip()
