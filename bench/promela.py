"""A program of bench/all_orders.py as a model for SPIN, and what SPIN's search of it takes.

A rank is a process, and a channel leads from each rank to each for each tag: so messages of one
source and one tag come in their order, as in MPI. A send never waits, as the channels hold all
messages that are sent. A receive of any source is a choice among the channels that hold a message.
Steps that no other rank sees are made at once, with the receive before them. Lines that a rank
prints aren't part of a state, so SPIN has no outcomes to tell apart: it lists no outcomes either,
and says whether a rank may wait for ever. What the model can't say is refused: probes that don't
wait, collectives, and receives of any tag in a program of several tags.

Source: G. J. Holzmann, The SPIN Model Checker, Addison-Wesley 2004.
"""
from __future__ import annotations

import os
import pathlib
import re
import shutil
import subprocess
from typing import NamedTuple

from all_orders import value

# So many messages a channel holds. No send waits: that there is room is asserted before each.
ROOM = 4


class NoModel(Exception):
    """The program has something that the model can't say."""


def is_there() -> bool:
    return bool(shutil.which("spin") and shutil.which("gcc"))


def tags_of(body) -> set[int]:
    found: set[int] = set()
    for s in body:
        if s[0] == "send":
            if not isinstance(s[2], int):
                raise NoModel("a tag that isn't a number")
            found.add(s[2])
        for part in s[2:] if s[0] in ("if", "while") else ():
            found |= tags_of(part)
    return found


def names_of(body) -> set[str]:
    found: set[str] = set()
    for s in body:
        if s[0] == "let":
            found.add(s[1])
        if s[0] == "recv":
            found.add(s[3])
        for part in s[2:] if s[0] in ("if", "while") else ():
            found |= names_of(part)
    return found


def receives(body) -> bool:
    return any(s[0] == "recv" or any(receives(part) for part in s[2:] if s[0] in ("if", "while")) for s in body)


class Channel(NamedTuple):
    source: int
    dest: int
    tag: int

    def name(self) -> str:
        return f"q_{self.source}_{self.dest}_{self.tag}"


class Writer:
    """The process of one rank. What it sends on is noted; it receives from channels that are sent on."""

    def __init__(self, rank: int, size: int, body, sent: set[Channel]) -> None:
        self.rank, self.size, self.tags = rank, size, tags_of(body)
        self.reads_source = "'source'" in str(body)
        self.sent, self.used = sent, set[Channel]()

    def known(self, e) -> int | None:
        """The value of an expression of numbers, the rank and the size."""
        if isinstance(e, tuple):
            return None if None in (self.known(e[1]), self.known(e[2])) else value(e, self.rank, self.size, {})
        return e if isinstance(e, int) else {"rank": self.rank, "size": self.size}.get(e)

    def of(self, e) -> str:
        known = self.known(e)
        if known is not None:
            return str(known)
        return f"({self.of(e[1])} {e[0]} {self.of(e[2])})" if isinstance(e, tuple) else f"{e}_"

    def receive(self, s) -> str:
        source, tag, name = s[1:]
        if tag is None and len(self.tags) > 1:
            raise NoModel("a receive of any tag among several")
        own = [it for it in sorted(self.sent) if it.dest == self.rank and tag in (None, it.tag)]
        known = self.known(source) if source is not None else None
        if known is not None:
            own = [it for it in own if it.source == known]
        self.used |= {*own}
        asked = "" if source is None or known is not None else f"{self.of(source)} == "
        ways = [f":: {f'{asked}{it.source} -> ' if asked else ''}{it.name()} ? {name}_{self.noted(it.source)}" for it in own]
        return f"if {' '.join(ways)} fi" if ways else "false"

    def noted(self, source: int) -> str:
        return f"; source_ = {source}" if self.reads_source else ""

    def send(self, s) -> str:
        dest = self.known(s[1])
        ways = [Channel(self.rank, k, s[2]) for k in ([dest] if dest is not None else range(self.size))]
        self.sent |= {*ways}
        self.used |= {*ways}
        puts = [f"assert(nfull({it.name()})); {it.name()} ! {self.of(s[3])}" for it in ways]
        if dest is not None:
            return puts[0]
        return "if " + " ".join(f":: {self.of(s[1])} == {it.dest} -> {put}" for it, put in zip(ways, puts)) + " fi"

    def statement(self, s) -> str:
        kind = s[0]
        if kind == "let":
            return f"{s[1]}_ = {self.of(s[2])}"
        if kind == "send":
            return self.send(s)
        if kind == "recv":
            return self.receive(s)
        if kind == "print":
            return ""
        if kind == "if":
            known = self.known(s[1])
            if known is not None:
                return self.block(s[2] if known else s[3])
            return f"if :: {self.of(s[1])} -> {self.block(s[2])} :: else -> {self.block(s[3])} fi"
        if kind == "while":
            return f"do :: {self.guarded(self.of(s[1]), self.block(s[2]))} :: else -> break od"
        raise NoModel(kind)

    def guarded(self, condition: str, block: str) -> str:
        """The condition is part of the block's first step."""
        if block.startswith("atomic { "):
            return f"atomic {{ {condition} -> {block.removeprefix('atomic { ')}"
        return f"{condition} -> {block}"

    def block(self, body) -> str:
        """The statements; a receive and what follows it up to the next one are one step."""
        parts: list[str] = []
        step: list[str] = []

        def close() -> None:
            if any(step):
                parts.append("atomic { " + "; ".join(it for it in step if it) + " }")
            step.clear()

        for s in body:
            has_receives = receives((s,))
            if has_receives:
                close()
            if has_receives and s[0] != "recv":
                parts.append(self.statement(s))
            else:
                step.append(self.statement(s))
        close()
        return "; ".join(parts) or "skip"

    def process(self, body) -> str:
        names = names_of(body) | ({"source"} if self.reads_source else set())
        variables = "".join(f"int {name}_; " for name in sorted(names))
        written = self.block(body)
        own = "".join(f"x{'r' if it.dest == self.rank else 's'} {it.name()}; " for it in sorted(self.used) if it.source != it.dest)
        return f"active proctype rank{self.rank}() {{ {own}{variables}{written} }}\n"


def model(body, size: int) -> str:
    sent = set[Channel]()
    # who receives has to know who sends, so all is written twice
    for _ in range(2):
        processes = "".join(Writer(rank, size, body, sent).process(body) for rank in range(size))
    return "".join(f"chan {it.name()} = [{ROOM}] of {{ int }};\n" for it in sorted(sent)) + processes


class Checked(NamedTuple):
    states: int
    transitions: int
    seconds: float  # of processor, without SPIN's and the compiler's
    memory: int  # MiB, at its peak
    may_wait: bool  # whether a rank may wait for ever


def check(body, size: int, folder: str, limit: float) -> Checked | None:
    """What SPIN's search of the program takes; none if it takes longer than the limit, or 4 GiB."""
    at = pathlib.Path(folder)
    (at / "model.pml").write_text(model(body, size))
    quiet = {"cwd": at, "stdout": subprocess.DEVNULL, "stderr": subprocess.DEVNULL}
    subprocess.run(["spin", "-a", "model.pml"], check=True, **quiet)
    flags = ["-O2", "-DSAFETY", "-DMEMLIM=4096", "-DVECTORSZ=65536", "-w"]
    subprocess.run(["gcc", *flags, "-o", "pan", "pan.c"], check=True, **quiet)
    said, seconds, memory = searched(at, limit)
    if "assertion violated" in said:
        raise NoModel(f"more than {ROOM} messages in a channel")
    states, moves = (re.search(rf"(\d+) {it}", said) for it in ("states, stored", "transitions"))
    if not states or not moves or "Search not completed" in said:
        return None
    return Checked(int(states[1]), int(moves[1]), seconds, memory, "invalid end state (" in said)


def searched(at: pathlib.Path, limit: float) -> tuple[str, float, int]:
    """What pan prints, up to the limit; its seconds of processor, and its peak memory."""
    with (at / "pan.txt").open("w") as out:
        # -c0: it goes on behind a rank that waits for ever
        words = ["timeout", f"{limit:.0f}", "./pan", "-c0", "-m1000000"]
        running = subprocess.Popen(words, cwd=at, stdout=out, stderr=subprocess.STDOUT)
        _, _, usage = os.wait4(running.pid, 0)
    return (at / "pan.txt").read_text(), usage.ru_utime + usage.ru_stime, usage.ru_maxrss // 1024
