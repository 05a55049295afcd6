"""Files of the repository, its crates, and faults."""

from __future__ import annotations

import os
from typing import Iterator, NamedTuple

# folders of a repository that hold no documents and no sources
PASSED_OVER = {".git", "out", "__pycache__"}


class Fault(NamedTuple):
    path: str
    line: int
    text: str

    def as_line(self) -> str:
        return f"{self.path}:{self.line}: {self.text}"


class Crate(NamedTuple):
    name: str
    # the crates of the repository that it stands on, at any depth
    below: frozenset[str]

    def folder(self) -> str:
        return f"crates/{self.name}"

    def readme(self) -> str:
        return f"crates/{self.name}/README.md"


def text_of(path: str) -> str:
    with open(path, encoding="utf-8", errors="replace") as file:
        return file.read()


def write(path: str, text: str) -> None:
    os.makedirs(os.path.dirname(path), exist_ok=True)
    with open(path, "w", encoding="utf-8") as file:
        file.write(text)


def files_below(top: str, folder: str, ends: tuple[str, ...]) -> list[str]:
    """The files with one of these endings, by their paths from the top, in order. Links to folders aren't followed."""
    found = []
    for place, folders, names in os.walk(os.path.join(top, folder)):
        folders[:] = sorted(it for it in folders if it not in PASSED_OVER)
        found += [os.path.relpath(os.path.join(place, it), top) for it in names if it.endswith(ends)]
    return sorted(found)


def documents(top: str) -> list[str]:
    return files_below(top, "", (".md",))


def crate_lines(top: str) -> Iterator[tuple[str, list[str]]]:
    for line in text_of(os.path.join(top, "crates.txt")).splitlines():
        head, _, below = line.split("#")[0].partition(":")
        if head.strip():
            yield head.split()[0], below.split()


def crates_of(top: str) -> list[Crate]:
    """The crates of crates.txt in its order, lowest first."""
    found: dict[str, Crate] = {}
    for name, libraries in crate_lines(top):
        below = {it for it in libraries if it in found}
        for it in list(below):
            below |= found[it].below
        found[name] = Crate(name, frozenset(below))
    return list(found.values())


def libraries_of(top: str) -> set[str]:
    """The libraries of crates.txt that aren't crates of the repository, and the standard ones."""
    lines = list(crate_lines(top))
    return {it for _, libraries in lines for it in libraries} - {name for name, _ in lines} | {"std", "core", "alloc"}
