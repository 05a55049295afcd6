"""Which programs `bench/schedules` runs, on how many ranks, by which policy, and how they crash.

The programs stall, race, poll, fill lanes and end in faults. Two of them are there for mistakes that
need their course: RELAY, RESENT.
"""
from __future__ import annotations

from collections.abc import Iterator
from typing import NamedTuple

POLICIES = ("round-robin", "uniform", "starve", "run-on", "recovery-first")

# Rank 0 takes the message of any other rank first, and prints in which order they came.
RACE = """\
var x
var i
if rank == 0
let i = 1
while i < size
recv any, 7, x
print x
let i = i + 1
end
else
send 0, 7, rank
end
"""

# Each rank waits for the one behind it, and nobody begins.
STALL = """\
var x
recv any, any, x
send 0, 7, x
"""

# All but rank 0 and rank 1 end; these two wait, the one for more than the other sends.
HALF_STALL = """\
var x
if rank == 0
send 1, 7, 1
recv 1, 8, x
print x
recv 1, 8, x
end
if rank == 1
recv 0, 7, x
send 0, 8, x + 1
recv 0, 7, x
end
"""

# A lane holds 64 frames: rank 0 sends more to each other rank before that takes any.
FULL_LANES = """\
var x
var i
var to
if rank == 0
let to = 1
while to < size
let i = 0
while i < 100
send to, 7, i
let i = i + 1
end
let to = to + 1
end
let to = 1
while to < size
recv to, 8, x
print x
let to = to + 1
end
else
let i = 0
while i < 100
recv 0, 7, x
let i = i + 1
end
send 0, 8, x + rank
end
"""

# A token goes round twice.
RING = """\
var x
if rank == 0
send 1, 7, 1
recv size - 1, 7, x
send 1, 7, x
recv size - 1, 7, x
print x
else
recv rank - 1, 7, x
send (rank + 1) % size, 7, x + 1
recv rank - 1, 7, x
send (rank + 1) % size, 7, x + 1
end
"""

# A rank that asks whether a message is there, which may be missed, and then waits.
POLL = """\
var x
var there
if rank == 0
iprobe any, 7, there
print there
recv any, 7, x
print x
else
if rank == 1
send 0, 7, 5
end
end
"""

# Rank 1 divides by what it got, which is 0 if rank 0 was first to send it.
FAULT = """\
var x
if rank == 0
send 1, 7, 0
else
if rank == 1
recv 0, 7, x
print 6 / x
end
end
"""

# All ranks meet three times.
MEET = """\
var x
reduce sum, 0, rank + 1, x
bcast 0, x
barrier
print x
"""

# Rank 2 answers two messages of rank 1, which works between them. All others wait for the end of it,
# and look again and again whether they wait in vain.
RELAY = """\
var x
var i
let i = 0
if rank == 1
while i < 8
send 2, 7, i
print i
print i
print i
send 2, 7, i
recv 2, 8, x
let i = i + 1
end
let i = 0
while i < size
if i != 1
send i, 9, x
end
let i = i + 1
end
else
if rank == 2
while i < 8
recv 1, 7, x
recv 1, 7, x
send 1, 8, x
let i = i + 1
end
end
recv 1, 9, x
end
"""

# Rank 1 has two messages to send again if rank 0 crashes when it has received them. Meanwhile rank 1
# waits for one of rank 2, and then goes on.
RESENT = """\
var x
var i
if rank == 0
recv 1, 7, x
recv 1, 7, x
recv 1, 7, x
end
if rank == 1
send 0, 7, 1
send 0, 7, 2
recv 2, 7, x
print x
print x
send 0, 7, 3
end
if rank == 2
let i = 0
while i < 4
print i
let i = i + 1
end
send 1, 7, 5
end
"""

PROGRAMS = {
    "race": (RACE, (2, 3, 4)),
    "stall": (STALL, (2, 5, 16)),
    "half_stall": (HALF_STALL, (2, 4)),
    "full_lanes": (FULL_LANES, (2, 3, 16)),
    "ring": (RING, (2, 7, 16)),
    "poll": (POLL, (2, 3)),
    "fault": (FAULT, (2, 6)),
    "meet": (MEET, (2, 5, 16)),
    "relay": (RELAY, (3, 4, 16)),
    "resent": (RESENT, (3,)),
}


class Manner(NamedTuple):
    """How a run goes on beside its schedule: kills and images of its script at most, how many acts
    there are from an image to the next, and after how many idle turns a rank that waits looks."""

    kills: int
    images: int
    every: int
    idle: int


# Ranks that look at once come to rest again and again, while frames are on their way.
MANNERS = (Manner(2, 2, 0, 64), Manner(8, 3, 0, 1), Manner(3, 1, 3, 2), Manner(0, 2, 0, 1))


class Corner(NamedTuple):
    """What all schedules of a soak have in common."""

    name: str
    text: str
    ranks: int
    policy: str
    manner: Manner

    def words(self, runs: int, seed: int, turns: int) -> tuple[str, ...]:
        """The words of a soak, except for the path of the program."""
        manner = self.manner
        every = ("--images-every", str(manner.every)) if manner.every else ()
        counts = ("--runs", str(runs), "--seed", str(seed), "--turns", str(turns), "--idle", str(manner.idle))
        scripts = ("--kills", str(manner.kills), "--images", str(manner.images), *every)
        return ("soak", "--ranks", str(self.ranks), "--schedule", self.policy, *counts, *scripts)


def corners() -> Iterator[Corner]:
    for manner in MANNERS:
        for name, (text, sizes) in PROGRAMS.items():
            for ranks in sizes:
                for policy in POLICIES:
                    yield Corner(name, text, ranks, policy, manner)
