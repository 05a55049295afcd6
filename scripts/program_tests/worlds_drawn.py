"""Worlds under events by a fixed draw, and worlds whose ranks crash at each of their turns. `catch-up` leads each on.

Behind a way on each rank is up, has nothing left to replay and has made all its acts. Behind `--to-the-end` the world has
printed what some run of its program prints, which was worked out by hand, and each rank stands where that run leaves it.
Neither way has a refused event or a crash. On a way back a data frame that arrives was put just before.
"""

from __future__ import annotations

import json
from collections.abc import Iterator
from dataclasses import dataclass

from .case import Case, Expected, File, Join, Keep, Run

PLACE = "worlds_drawn"
LISTS = 334
ENDS = 100
EVENTS = 200
# Replies of a way on to the end: each event changes something.
IDLE = frozenset(("refused", "blocked", "held", "ended", "repeated", "gap"))

ONE_MESSAGE = "var x\nif rank == 0\nsend 1, 7, 41\nelse\nrecv any, any, x\nprint x + 1\nend\n"
THREE_MESSAGES = "var x\nif rank == 0\nsend 1, 7, 1\nsend 1, 7, 2\nsend 1, 8, 3\nelse\nrecv any, size + 5, x\nrecv any, any, x\nend\n"
PROBES = """var x
if rank == 0
send 1, 7, 1
send 1, 8, 2
send 1, 7, 3
else
probe 0, 7
recv source, gottag, x
iprobe 0, any, x
iprobe 0, any, x
probe any, 7
recv 0, any, x
print x + gottag + count
end
"""
CHAIN = "var x\nif rank == 0\nsend 1, 7, 10\nelse\nrecv any, any, x\nif rank == 1\nsend 2, 7, x + 1\nend\nprint x\nend\n"
RING = """var x
if rank == 0
send 1, 7, 1
recv size - 1, 7, x
else
recv rank - 1, any, x
send (rank + 1) % size, 7, x + rank
end
print x
"""
TWO_TAGS = """var x
if rank == 0
send 1, 1, 10
send 1, 2, 20
send 1, 1, 30
else
recv 0, 2, x
print x
recv any, any, x
print x
end
"""
# Rank 0 sends four numbers, and rank 1 answers each by its square.
SQUARES = """var i
var x
while i < 4
if rank == 0
send 1, 0, i
recv 1, 0, x
else
recv 0, 0, x
send 0, 0, x * x
end
let i = i + 1
end
print x
"""
THREE_PROBES = "var f\niprobe any, any, f\niprobe any, any, f\niprobe any, any, f\nprint f\n"
FIRST_COME = "var x\nif rank == 0\nrecv any, any, x\nprint source\nrecv any, any, x\nprint source\nelse\nsend 0, 0, 0\nend\n"
# Rank 1 waits at a probe for a tag that no message has.
STALLED = "var x\nif rank == 0\nsend 1, 3, 9\nelse\nprobe 0, 4\nprint 1\nend\n"
# A miss, a line, a message to itself past another tag's miss, and a miss or a hit of it again.
OWN_PROBES = """var f
var x
iprobe any, any, f
print f
send 0, 1, 5
iprobe 0, 2, f
recv 0, 1, x
print x + f
iprobe any, any, f
print f
"""
OWN = "var x\nsend 0, 3, 6\nsend 0, 3, 7\nrecv 0, 3, x\nprint x\nrecv 0, 3, x\nprint x\n"
COLLECTIVES = "var x\nreduce sum, 2, rank + 1, x\nbcast 2, x\nbarrier\nprint x\n"
# Four times each rank sends to the next, and receives.
AROUND = "var i\nvar x\nwhile i < 4\nsend (rank + 1) % size, 0, i\nrecv any, 0, x\nlet i = i + 1\nend\nprint x\n"
# Three probes, of which a way on finds one half replayed.
HALF_A_RUN = "step 0\n" * 4 + "store 0\nack 0\ncrash 0\nrestart 0\n" + "step 0\n" * 3


@dataclass(frozen=True)
class Program:
    """A text, its number of ranks, what its runs print, and what each rank wants at last."""

    text: str
    ranks: int
    printed: tuple[str, ...]
    wants: tuple[str, ...] = ()

    def last_wants(self) -> list[str]:
        return list(self.wants) or ["halted"] * self.ranks


PROGRAMS = (
    Program(ONE_MESSAGE, 2, ("1> 42",)),
    Program(THREE_MESSAGES, 2, ("",)),
    Program(PROBES, 2, ("1> 11",)),
    Program(CHAIN, 3, ("1> 10 2> 11",)),
    Program(RING, 3, ("0> 4 1> 1 2> 2",)),
    Program(TWO_TAGS, 2, ("1> 20 1> 10",)),
    Program(SQUARES, 2, ("0> 9 1> 3",)),
    Program(THREE_PROBES, 2, ("0> 0 1> 0",)),
    Program(FIRST_COME, 3, ("0> 1 0> 2", "0> 2 0> 1")),
    Program(STALLED, 2, ("",), ("halted", "probe")),
)
ALL_SIX = Program(COLLECTIVES, 3, ("0> 6 1> 6 2> 6",))
# Programs of which ranks are killed, with the most turns that one of them has.
KILLED = (
    (Program(SQUARES, 2, ("0> 9 1> 3",)), 14),
    (Program(OWN_PROBES, 1, ("0> 0 0> 5 0> 0",)), 12),
    (Program(OWN, 1, ("0> 6 0> 7",)), 8),
    (ALL_SIX, 12),
)


@dataclass(frozen=True)
class Led(Expected):
    """What `world --json` shows of a world behind a way on, which begins behind so many events."""

    events: int = 0
    program: Program = PROGRAMS[0]
    to_the_end: bool = False

    def fault(self, found: bytes) -> str:
        rows = [json.loads(line) for line in found.splitlines()]
        ranks = {it["rank"]["rank"]: it["rank"] for it in rows[1:] if isinstance(it.get("rank"), dict)}
        events = [it for it in rows if "event" in it]
        return self.way_fault(events[self.events :]) or self.world_fault(ranks, events)

    def way_fault(self, way: list[dict[str, object]]) -> str:
        """What is wrong with the way on."""
        put = ""
        for it in way:
            text, reply = str(it["text"]), str(it["reply"])
            word = text.split()[0]
            if reply == "refused" or word == "crash" or (self.to_the_end and reply.split()[0] in IDLE):
                return f"`{text}`: {reply}"
            if word == "arrive" and reply in ("accepted", "repeated", "gap") and text != put and not self.to_the_end:
                return f"`{text}` arrives, and was not put just before"
            put = f"arrive {text[4:]} {reply.split()[1]}" if word == "put" and "data" in reply else ""
        return ""

    def world_fault(self, ranks: dict[int, dict[str, object]], events: list[dict[str, object]]) -> str:
        """What is wrong with the world that it leads to."""
        for number, rank in sorted(ranks.items()):
            if rank["phase"] == "down" or rank.get("left", 0) != 0:
                return f"rank {number} is {rank['phase']}"
            if int(str(rank["clock"])) < int(str(rank["passed"])):
                return f"rank {number} hasn't made all its acts"
        if not self.to_the_end:
            return ""
        wants = [str(ranks[it]["wants"]["kind"]) for it in sorted(ranks)]  # type: ignore[index]
        if wants != self.program.last_wants():
            return f"the ranks want {wants}"
        lines = sorted(((it["rank"], it["clock"], it["value"]) for event in events for it in event.get("lines", ())))  # type: ignore[attr-defined]
        printed = " ".join(f"{rank}> {value}" for rank, _, value in lines)
        return "" if printed in self.program.printed else f"the lines are {printed}"


class Draw:
    """A fixed row of numbers."""

    def __init__(self, number: int) -> None:
        self.number = number

    def next(self) -> int:
        self.number = (self.number * 6_364_136_223_846_793_005 + 1_442_695_040_888_963_407) % 2**64
        return self.number >> 33

    def event(self, ranks: int) -> str:
        """An event of so many ranks."""
        rank, dest, kind = self.next() % ranks, self.next() % ranks, self.next() % 20
        if kind < 3:
            return f"put {rank} {dest}"
        if kind < 6:
            return f"arrive {rank} {dest} {self.next() % 8}"
        words = {6: "store", 7: "store", 8: "ack", 9: "ack", 10: "release", 11: "release", 12: "image", 13: "crash", 14: "restart"}
        return f"{words.get(kind, 'step')} {rank}"

    def events(self, ranks: int) -> str:
        return "".join(f"{self.event(ranks)}\n" for _ in range(EVENTS))


def cases() -> Iterator[Case]:
    """All of them."""
    draw = Draw(34)
    for text in (TWO_TAGS, SQUARES, THREE_PROBES):
        for number in range(LISTS):
            yield led(f"drawn events, list {number}", Program(text, 2, ()), draw.events(2))
    draw = Draw(35)
    for program in PROGRAMS:
        for number in range(ENDS):
            yield led(f"drawn events to the end, list {number}", program, draw.events(program.ranks), True)
    for program, turns in KILLED:
        for title, events in killed(program, turns):
            yield led(title, program, events, True)
    yield from all_down()
    yield led("a rank half through a run of misses", Program(THREE_PROBES, 1, ()), HALF_A_RUN)
    yield Case(PLACE, "nothing happened", [File("p", SQUARES.encode()), File("e", b""), Run((b"catch-up", b"--ranks", b"2", b"p", b"e"))])


def led(title: str, program: Program, events: str, to_the_end: bool = False) -> Case:
    """A world is led on from where these events leave it."""
    ranks = str(program.ranks).encode()
    words = (b"catch-up", b"--ranks", ranks, *([b"--to-the-end"] if to_the_end else []), b"p", b"e")
    shown = Led("", (), events.count("\n"), program, to_the_end)
    files = [File("p", program.text.encode()), File("e", events.encode())]
    played = Run((b"world", b"--json", b"--ranks", ranks, b"p", b"all"), 0, shown)
    return Case(PLACE, title, [*files, Run(words, 0, Expected("any")), Keep("way"), Join("all", ("e", "way")), played])


def passed(rank: int, ranks: int) -> list[str]:
    """What waits at the gate of a rank leaves, and what goes out of it arrives. Those that can't are refused."""
    events = [f"{word} {rank}" for word in ("store", "ack", "release")] * 3
    for dest in range(ranks):
        events += [f"put {rank} {dest}"] + [f"arrive {rank} {dest} {index}" for index in range(10)]
    return events


def killed(program: Program, turns: int) -> Iterator[tuple[str, str]]:
    """Worlds in which a rank crashes in each of its turns: before what it made is stored, or behind that; the same with an image
    in an earlier turn; and in two turns, or another rank in the second."""
    for rank in range(program.ranks):
        for turn in range(turns):
            for early in (True, False):
                yield f"rank {rank} crashes in turn {turn}, {early=}", played(program, turn + 1, {(turn, rank): early}, None)
            title = f"rank {rank} takes an image in turn {turn // 2} and crashes in turn {turn}"
            yield title, played(program, turn + 1, {(turn, rank): True}, (turn // 2, rank))
            for second in range(turn + 1, turns, 5):
                for other in sorted({rank, (rank + 1) % program.ranks}):
                    title = f"rank {rank} crashes in turn {turn} and rank {other} in turn {second}"
                    yield title, played(program, second + 1, {(turn, rank): True, (second, other): True}, None)


def played(program: Program, turns: int, crashes: dict[tuple[int, int], bool], image: tuple[int, int] | None) -> str:
    """So many turns of each rank, which is up again at the next one after a crash."""
    events: list[str] = []
    for turn in range(turns):
        for rank in range(program.ranks):
            early = crashes.get((turn, rank))
            events += [f"restart {rank}", f"step {rank}"]
            events += [f"crash {rank}"] if early else passed(rank, program.ranks)
            events += [f"image {rank}"] if image == (turn, rank) else []
            events += [f"crash {rank}"] if early is False else []
    return "".join(f"{it}\n" for it in events)


def all_down() -> Iterator[Case]:
    """All ranks are down, after turns in which some took images."""
    for text, ranks, imaged in ((SQUARES, 2, 0), (AROUND, 8, 7)):
        events: list[str] = []
        for turn in range(40):
            for rank in range(ranks):
                events += [f"step {rank}", *passed(rank, ranks)]
                events += [f"image {rank}"] if rank < imaged and turn % 8 == rank % 4 else []
        events += [f"crash {rank}" for rank in range(ranks)]
        last = " ".join(f"{it}> 3" for it in range(ranks)) if text is AROUND else "0> 9 1> 3"
        program = Program(text, ranks, (last,))
        down = "".join(f"{it}\n" for it in events)
        yield led(f"all {ranks} ranks are down", program, down)
        yield led(f"all {ranks} ranks are down, to the end", program, down, True)
    one = ["step 0"] * 3 + ["put 0 1", "arrive 0 1 0"] + ["step 1"] * 3 + ["store 1", "step 1", "crash 1"]
    yield led("one rank is down, after it took and stored a message", PROGRAMS[0], "".join(f"{it}\n" for it in one))
