"""Runs of the examples, for the scripts that test what `ftmpi` prints of them."""

from __future__ import annotations

import glob
import os
import re
import subprocess
from collections.abc import Iterator
from dataclasses import dataclass

TOP = os.path.dirname(os.path.dirname(os.path.realpath(__file__)))
SECONDS = 60
NUMBERS = {"one": 1, "two": 2, "three": 3, "four": 4, "sixteen": 16}
# If the comment names no number.
RANKS = 2


class Wrong(Exception):
    """What is wrong with an answer."""


@dataclass
class Run:
    """A program with the arguments of its run."""

    name: str
    path: str
    ranks: int
    words: list[str]


def runs() -> Iterator[Run]:
    """One run of each program, and one more for each script that it has."""
    for path in sorted(glob.glob(f"{TOP}/examples/*.rank")):
        name = os.path.basename(path).removesuffix(".rank")
        ranks = ranks_of(path)
        words = ["--ranks", str(ranks), "--idle", "100", "--steps", "100000"]
        yield Run(name, path, ranks, [*words, path])
        for script in (f"{TOP}/examples/{name}.script", f"{TOP}/examples/kills_of_{ranks}.script"):
            if os.path.exists(script):
                yield Run(f"{name}, {os.path.basename(script)}", path, ranks, [*words, "--script", script, path])


def ranks_of(path: str) -> int:
    """The number of ranks that the comment before the program names."""
    with open(path, encoding="utf-8", errors="replace") as file:
        comment = " ".join(line[1:].strip() for line in file if line.startswith("#"))
    for found in re.finditer(r"\b[Oo]n (\w+) ranks?\b", comment):
        if found[1] in NUMBERS:
            return NUMBERS[found[1]]
    return RANKS


class Program:
    """The program that is called."""

    def __init__(self, path: str) -> None:
        self.path = path

    def answer(self, *words: str) -> tuple[int, str, str]:
        """The status, standard output and standard error."""
        try:
            done = subprocess.run([self.path, *words], capture_output=True, timeout=SECONDS, check=False, cwd=TOP)
        except subprocess.TimeoutExpired as it:
            raise Wrong(f"{words[0]} doesn't end") from it
        return done.returncode, done.stdout.decode("utf-8"), done.stderr.decode("utf-8", errors="replace")

    def output(self, *words: str) -> tuple[int, str]:
        """The status and standard output."""
        return self.answer(*words)[:2]
