"""What is read of the crates."""

from __future__ import annotations

import os
import re
import shutil
from collections.abc import Iterator

from .files import NotMade, sum_of, text_of, write

PARTS, KINDS = ("src", "specs", "proofs"), (".rt", ".antt")
LISTS = ["HANDLES", "crates.txt"]
# What no proof of a crate needs. (`rt ci` runs the program on its other files.)
LEFT_OUT = shutil.ignore_patterns("out", "must-fail", "wrong")


class Sources:
    """A program's crate and those below it, lowest first, with their lines of crates.txt."""

    def __init__(self, top: str, name: str) -> None:
        self.top, self.name = top, name
        lines = crate_lines(text_of(f"{top}/crates.txt"))
        if name not in lines:
            raise NotMade(f"crates.txt has no crate {name}")
        self.lines = {it: lines[it] for it in with_those_below(name, lines)}

    def files(self) -> list[str]:
        """The files that a check of these crates reads, as paths in the repository."""
        found = [path for name in self.lines for path in files_of_crate(f"{self.top}/crates/{name}")]
        return [*LISTS, *(os.path.relpath(it, self.top) for it in found)]

    def sum(self) -> str:
        return sum_of(self.top, self.files())

    def places(self) -> str:
        """Where these files are."""
        return " ".join([*LISTS, *(f"crates/{name}/{part}" for name in self.lines for part in PARTS)])

    def copy_to(self, folder: str) -> Sources:
        """Copies these crates, so that later edits don't reach what is made of them."""
        for name in self.lines:
            shutil.copytree(f"{self.top}/crates/{name}", f"{folder}/crates/{name}", symlinks=True, ignore=LEFT_OUT)
        for it in LISTS:
            shutil.copy(f"{self.top}/{it}", folder)
        return Sources(folder, self.name)

    def cut(self) -> None:
        """Leaves only the lines of these crates in crates.txt."""
        write(f"{self.top}/crates.txt", "".join(f"{line}\n" for line in self.lines.values()))


def files_of_crate(folder: str) -> Iterator[str]:
    """The files of a crate that a check reads."""
    for part in PARTS:
        for at, _, files in os.walk(f"{folder}/{part}"):
            yield from (f"{at}/{it}" for it in files if it.endswith(KINDS))


def crate_lines(text: str) -> dict[str, str]:
    """The lines of crates.txt by crate, without comments."""
    lines = (" ".join(line.partition("#")[0].split()) for line in text.splitlines())
    return {re.split("[ :]", line)[0]: line for line in lines if line}


def with_those_below(name: str, lines: dict[str, str]) -> list[str]:
    """All crates of this repository below the crate, and then the crate itself."""
    found: list[str] = []
    for below in lines[name].partition(":")[2].replace(",", " ").split():
        if below in lines:
            found += [it for it in with_those_below(below, lines) if it not in found]
    return [*found, name]
