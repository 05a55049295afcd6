"""Random programs without deadlocks: each is a sequence of rounds, and in each round every message
that is sent is received, in any order of the ranks.

All ranks run the statements of a round. A program isn't deterministic if it receives messages of
any source and prints them in their order, or if it probes without waiting: then its output may
differ from run to run.
"""
from __future__ import annotations

import random
from collections.abc import Callable
from typing import NamedTuple

REDUCTIONS = ("sum", "max", "min")


class Program(NamedTuple):
    text: str
    ranks: int
    is_deterministic: bool


class Round(NamedTuple):
    lines: list[str]
    is_deterministic: bool = True
    # also in a loop, where a receive may take the message of another iteration
    is_deterministic_in_a_loop: bool = True


def shift(ranks: int, tag: int) -> Round:
    """Each rank sends to the rank `by` further on, and receives from the rank `by` before it."""
    by = random.randrange(ranks)
    return Round(
        [
            f"send (rank + {by}) % size, {tag}, x + rank",
            f"recv (rank + size - {by}) % size, {tag}, y",
            "print y",
            "let x = (x + y) % 1000003",
        ]
    )


def one_message(ranks: int, tag: int) -> Round:
    """One rank sends an array and another receives it, with or without a probe before."""
    source, dest = random.randrange(ranks), random.randrange(ranks)
    waits = [f"probe {source}, {tag}", "print count"] if random.random() < 0.5 else []
    return Round(
        [
            f"if rank == {source}",
            "let a[1] = x",
            f"send {dest}, {tag}, a",
            "end",
            f"if rank == {dest}",
            *waits,
            f"recv {source}, any, a",
            "print a[1]",
            "end",
        ]
    )


def gathered(ranks: int, tag: int) -> Round:
    """All ranks send to one, which receives from any source, and prints each value or their sum."""
    dest = random.randrange(ranks)
    shows = random.random() < 0.5
    return Round(
        [
            f"send {dest}, {tag}, rank * 7 + x % 5",
            f"if rank == {dest}",
            "let i = 0",
            "let s = 0",
            "while i < size",
            f"recv any, {tag}, y",
            *(["print y"] if shows else []),
            "let s = s + y",
            "let i = i + 1",
            "end",
            "let y = 0",
            "print s",
            "end",
        ],
        is_deterministic=not shows,
        is_deterministic_in_a_loop=False,
    )


def polled(ranks: int, tag: int) -> Round:
    """One rank polls a few times for its message, and then receives it."""
    source, dest = random.randrange(ranks), random.randrange(ranks)
    return Round(
        [
            f"if rank == {source}",
            f"send {dest}, {tag}, x",
            "end",
            f"if rank == {dest}",
            "let i = 0",
            f"while i < {random.randint(1, 4)}",
            f"iprobe any, {tag}, f",
            "print f",
            "let i = i + 1",
            "end",
            f"recv {source}, {tag}, y",
            "print y",
            "end",
        ],
        is_deterministic=False,
    )


def collective(ranks: int, tag: int) -> Round:
    """A barrier, a broadcast or a reduce."""
    root = random.randrange(ranks)
    kind = random.randrange(3)
    if kind == 0:
        return Round(["barrier"])
    if kind == 1:
        return Round([f"bcast {root}, x", "print x"])
    return Round([f"reduce {random.choice(REDUCTIONS)}, {root}, x % 1000 + rank, y", "print y"])


ROUNDS: tuple[Callable[[int, int], Round], ...] = (shift, shift, one_message, gathered, polled, collective, collective)


def program(most_ranks: int) -> Program:
    """A program of a few rounds, some of them in a loop."""
    ranks = random.randint(1, most_ranks)
    lines = ["var i", "var j", "var f", "var s", "var x", "var y", "array a[3]", "let x = rank + 1"]
    is_deterministic = True
    for tag in range(random.randint(1, 6)):
        made = random.choice(ROUNDS)(ranks, tag)
        is_looped = random.random() < 0.3
        is_deterministic = is_deterministic and made.is_deterministic and (made.is_deterministic_in_a_loop or not is_looped)
        if is_looped:
            lines += ["let j = 0", f"while j < {random.randint(1, 4)}", *made.lines, "let j = j + 1", "end"]
        else:
            lines += made.lines
    return Program("\n".join(lines) + "\n", ranks, is_deterministic)
