"""Plays cases: makes their files in a folder and calls the program there."""

from __future__ import annotations

import os
import subprocess
import tempfile
from collections.abc import Iterator
from concurrent.futures import ThreadPoolExecutor

from .case import Case, File, Join, Keep, Run

# A run that takes longer has failed.
SECONDS = 120


class Player:
    """The program that plays cases."""

    def __init__(self, path: str) -> None:
        self.path = path

    def all(self, cases: list[Case]) -> Iterator[tuple[Case, list[str]]]:
        """Each case with its faults. As many are played at a time as there are cores."""
        with ThreadPoolExecutor(os.cpu_count()) as pool:
            yield from zip(cases, pool.map(self.faults, cases))

    def faults(self, case: Case) -> list[str]:
        """What is wrong in a case, up to the first run with a fault."""
        with tempfile.TemporaryDirectory() as folder:
            printed = b""
            for it in case.steps:
                if isinstance(it, File):
                    write(folder, it.name, it.text)
                elif isinstance(it, Keep):
                    write(folder, it.name, printed)
                elif isinstance(it, Join):
                    write(folder, it.name, b"".join(read(folder, part) for part in it.parts))
                else:
                    try:
                        status, printed, errors = self.call(it, folder)
                    except (OSError, subprocess.TimeoutExpired) as fault:
                        return [f"{shown(it)}: {fault}"]
                    if faults := it.faults(status, printed, errors):
                        return [f"{shown(it)}: {fault}" for fault in faults]
        return []

    def call(self, run: Run, folder: str) -> tuple[int, bytes, bytes]:
        """The status, standard output and standard error of a run in this folder."""
        with open(run.to or os.devnull, "wb") as file:
            done = subprocess.run(
                [run.name, *run.words],
                executable=self.path,
                cwd=folder,
                stdin=subprocess.DEVNULL,
                stdout=file if run.to else subprocess.PIPE,
                stderr=subprocess.PIPE,
                timeout=SECONDS,
                check=False,
            )
        return done.returncode, done.stdout or b"", done.stderr


def shown(run: Run) -> str:
    """The words of a run, cut where they are long."""
    words = b" ".join(run.words).decode(errors="backslashreplace")
    return words if len(words) <= 80 else f"{words[:80]}.."


def write(folder: str, name: str, text: bytes) -> None:
    with open(os.path.join(folder, name), "wb") as file:
        file.write(text)


def read(folder: str, name: str) -> bytes:
    with open(os.path.join(folder, name), "rb") as file:
        return file.read()
