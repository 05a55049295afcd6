"""Fault injection: runs programs with a call to the C library refused, or all calls from one on."""

from __future__ import annotations

import os
import shutil
import subprocess
import sys
from collections.abc import Callable
from typing import NamedTuple

from building.files import kit_folder

HERE = os.path.dirname(os.path.realpath(__file__))
OUT_OF_MEMORY = 4


class Answer(NamedTuple):
    """The status and the output of a run."""

    status: int | None  # None if it took too long and was ended
    printed: str  # on standard output
    errors: str  # on standard error

    def is_out_of_memory(self) -> bool:
        """Whether it ended as out of memory, and printed nothing."""
        return self.status == OUT_OF_MEMORY and "out of memory" in self.errors and not self.printed

    def brief(self) -> str:
        """Its status, and its standard error."""
        return "it doesn't end" if self.status is None else f"status {self.status}, {self.errors.strip()[:200] or 'no message'}"

    def __str__(self) -> str:
        if self.status is None:
            return "it doesn't end"
        text = "; ".join(part for part in (self.errors.strip(), self.printed.strip()) if part)
        return f"status {self.status}, {text[:200] or 'nothing printed'}"


class Setting(NamedTuple):
    """A program with its arguments."""

    name: str
    words: list[str]

    def whole(self, seconds: float) -> Answer:
        """Its answer if nothing is refused."""
        answer = played(self.words, {}, seconds)
        if answer.status != 0:
            sys.exit(f"{self.name}: it fails with nothing refused: {answer}")
        return answer


class Tried(NamedTuple):
    """The result of a setting: a line, and its faults."""

    line: str
    faults: list[str]

    def show(self) -> int:
        """Prints this, and returns how many faults there are."""
        print("\n    ".join([self.line, *self.faults]), flush=True)
        return len(self.faults)


class Refused(NamedTuple):
    """The answer of a run, whether it reached the refused call, and whether the shim (if it looks)
    saw all threads joined at its end."""

    answer: Answer
    was_refused: bool
    joined_threads: bool


class Shim:
    """A library that is preloaded into a program and refuses its Nth call of certain functions."""

    def __init__(self, source: str, folder: str) -> None:
        """Builds scripts/SOURCE in the folder, with the toolchain's clang, or else with cc."""
        self.path = f"{folder}/{source}.so"
        ours = f"{kit_folder()}/toolchain/bin/clang"
        words = [ours if os.access(ours, os.X_OK) else "cc", "-nostdlib", "-shared", "-fPIC", "-O1", "-fno-builtin"]
        subprocess.run([*words, "-o", self.path, f"{HERE}/{source}"], check=True)

    def refusing(self, call: int, play: Callable[[dict[str, str]], Answer], **more: str) -> Refused:
        """The answer of a run in an environment in which this call is refused; more goes into the
        environment too. Runs with other calls refused may be at work at the same time."""
        mark, joined = f"{self.path}.mark.{call}", f"{self.path}.joined.{call}"
        ours = {"LD_PRELOAD": self.path, "REFUSED_CALL": str(call), "REFUSED_MARK": mark, "REFUSED_JOINED": joined}
        answer = play({**ours, **more})
        return Refused(answer, is_taken_away(mark), is_taken_away(joined))


def is_taken_away(mark: str) -> bool:
    """Removes the mark. Returns whether it was there."""
    try:
        os.remove(mark)
        return True
    except FileNotFoundError:
        return False


def played(words: list[str], environment: dict[str, str], seconds: float, **more: object) -> Answer:
    """Runs a program, for at most so many seconds."""
    how = {"stdin": subprocess.DEVNULL, "stdout": subprocess.PIPE, "stderr": subprocess.PIPE, "text": True, "errors": "replace"}
    try:
        run = subprocess.run(words, env={**os.environ, **environment}, timeout=seconds, **how, **more)
    except subprocess.TimeoutExpired:
        return Answer(None, "", "")
    return Answer(run.returncode, run.stdout, run.stderr)


def copy_of_program(path: str, folder: str) -> str:
    """A copy of the program in the folder. Any user may run it, and it stays the same if the
    repository's program is rebuilt meanwhile."""
    copy = f"{folder}/{os.path.basename(path)}"
    shutil.copyfile(path, copy)
    os.chmod(copy, 0o755)
    os.chmod(folder, 0o711)
    return copy
