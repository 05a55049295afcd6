"""Which program answers; has one made, and installs it."""

from __future__ import annotations

import contextlib
import fcntl
import os
import shutil
import time
from collections.abc import Callable, Iterator

from .files import kit_line, sum_of_file, text_of, write
from .making import NoModule, proved, quick, room, say
from .sources import Sources

TOP = os.path.dirname(os.path.dirname(os.path.dirname(os.path.realpath(__file__))))
NAME = "ftmpi"
# ./check writes it (scripts/proved.py).
PROVED = "proved.txt"
OUT = f"{TOP}/crates/{NAME}/out"
# An estimate, in processor minutes, of all proofs of the program.
PROOFS = 200
UNPROVED = "nothing of it was proved here, but it tests indices and overflow as it runs"


class Program:
    """The proved program, crates/ftmpi/out/ftmpi, or the quick one beside it. The file .sum has a line
    each for what find last printed about the sources (./ftmpi writes it), the checksum of the
    sources, the toolchain, the checksum of the program, and the places in which sources are."""

    def __init__(self, kind: str) -> None:
        self.path, self.sources = f"{OUT}/{kind}", Sources(TOP, NAME)

    def record(self, sources: str) -> str:
        """The record of this program, made from sources with this checksum."""
        return "".join(f"{it}\n" for it in ("", sources, kit_line(), sum_of_file(self.path), self.sources.places()))

    def keep(self, sources: str) -> None:
        write(f"{self.path}.new", self.record(sources))
        os.replace(f"{self.path}.new", f"{self.path}.sum")

    def is_current(self) -> bool:
        """Whether the program is as it was made, from these sources and by this toolchain."""
        if not os.path.isfile(self.path) or not os.path.exists(f"{self.path}.sum"):
            return False
        return text_of(f"{self.path}.sum").partition("\n")[2] == self.record(self.sources.sum()).partition("\n")[2]

    def make(self, how: Callable[[Sources, str], str]) -> str:
        """Makes the program from a copy of the sources. Returns what to say of it."""
        began = time.monotonic()
        with room() as folder:
            copied = self.sources.copy_to(f"{folder}/repository")
            sources = copied.sum()
            copied.cut()
            shutil.copyfile(how(copied, folder), f"{self.path}.new")
            os.chmod(f"{self.path}.new", 0o755)
            os.replace(f"{self.path}.new", self.path)
            self.keep(sources)
        return f"made in {(time.monotonic() - began) / 60:.1f} minutes; {said_of(sources)}"


def on_disk() -> str:
    """The contents of proved.txt. Empty if it isn't there."""
    return text_of(f"{TOP}/{PROVED}") if os.path.exists(f"{TOP}/{PROVED}") else ""


def said_of(program: str) -> str:
    """What proved.txt says of a program whose sources have this checksum."""
    is_so = f"program {program} by {kit_line()}" in on_disk().splitlines()
    return "these are the sources that ./check proved" if is_so else "these sources have not been proved"


def answering(wants_proof: bool) -> str:
    """The path of the program that answers. Makes the quick one, or the proved one, if need be."""
    proof, unproved = Program(NAME), Program("quick")
    if not wants_proof:
        with locked("quick"):
            if there := next((it for it in (proof, unproved) if it.is_current()), None):
                return there.path
            say("no program is there for these sources: the quick one is made, in two to five minutes")
            try:
                say(f"the quick program was {unproved.make(quick)}; {UNPROVED}")
                return unproved.path
            except NoModule as it:
                say(f"the toolchain handed over no module, so there is no quick program, and it is proved. It said:\n{it}")
    with locked("proof"):
        if not proof.is_current():
            cores = len(os.sched_getaffinity(0))
            say(f"proves all crates of the program on {cores} cores, in about {max(PROOFS / cores, 25):.0f} minutes by an estimate")
            say(f"the proved program was {proof.make(proved).partition(';')[0]}")
    return proof.path


@contextlib.contextmanager
def locked(what: str) -> Iterator[None]:
    """Lets one call at a time make a program in this repository; others wait."""
    os.makedirs(OUT, exist_ok=True)
    with open(f"{OUT}/{what}.lock", "w", encoding="utf-8") as lock:
        try:
            fcntl.flock(lock, fcntl.LOCK_EX | fcntl.LOCK_NB)
        except BlockingIOError:
            say("waits for another call that makes the program")
            fcntl.flock(lock, fcntl.LOCK_EX)
        yield
