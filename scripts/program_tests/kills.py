"""Runs whose ranks are killed at each of their acts: once, above an image, twice, and both ranks.

The number of acts of each rank, what the run prints, and how often it calls the event logger (once
for each stored event, and once for each crash) were found by hand.
"""

from __future__ import annotations

from collections.abc import Iterator
from dataclasses import dataclass

from .case import Case, File, run_of

PLACE = "scripts/program_tests/kills.py"

# Four round trips of two ranks.
TRIPS = """\
var i
var x
while i < 4
  if rank == 0
    send 1, 0, i
    recv 1, 0, x
  else
    recv 0, 0, x
    send 0, 0, x * x
  end
  let i = i + 1
end
print x
"""

# A miss, a line, a message to itself past another tag's miss, and a miss again.
PROBES = """\
var f
var x
iprobe any, any, f
print f
send 0, 1, 5
iprobe 0, 2, f
recv 0, 1, x
print x + f
iprobe any, any, f
print f
"""

# A rank takes two messages of its own.
OWN = """\
var x
send 0, 3, 6
send 0, 3, 7
recv 0, 3, x
print x
recv 0, 3, x
print x
"""

# A reduce, a broadcast and a barrier of three ranks.
COLLECTIVES = """\
var x
reduce sum, 2, rank + 1, x
bcast 2, x
barrier
print x
"""

OF_TRIPS = "0> 9\n1> 3\nrank 0: halted\nrank 1: halted\n"
OF_COLLECTIVES = "0> 6\n1> 6\n2> 6\nrank 0: halted\nrank 1: halted\nrank 2: halted\n"


@dataclass(frozen=True)
class Killed:
    """A rank of a program that is killed: its number of acts, the clock of an image and the first
    one above that, and what the run prints except for its last line, with the logger's calls where
    it crashes once."""

    name: str
    ranks: int
    program: str
    rank: int
    acts: int
    image: int
    above: int
    out: str
    calls: int

    def case(self, script: str, crashes: int, calls: int) -> Case:
        """A run under this script."""
        out = f"{self.out}crashes {crashes}, logger calls {calls}\n"
        files = [File("p", self.program.encode()), File("s", script.encode())]
        title = f"{self.name}: {', '.join(script.splitlines())}"
        return Case(PLACE, title, [*files, run_of(f"run --ranks {self.ranks} --script s p", out=out.encode())])


KILLED = (
    Killed("round trips", 2, TRIPS, 0, 9, 4, 5, OF_TRIPS, 9),
    Killed("round trips", 2, TRIPS, 1, 9, 4, 5, OF_TRIPS, 9),
    Killed("probes", 1, PROBES, 0, 8, 4, 5, "0> 0\n0> 5\n0> 0\nrank 0: halted\n", 5),
    Killed("own messages", 1, OWN, 0, 6, 3, 4, "0> 6\n0> 7\nrank 0: halted\n", 3),
    # A send of the reduce, a reception of the broadcast, a barrier's two receptions and two sends, and a line.
    Killed("collectives", 3, COLLECTIVES, 0, 7, 3, 4, OF_COLLECTIVES, 9),
    Killed("collectives", 3, COLLECTIVES, 1, 5, 3, 4, OF_COLLECTIVES, 9),
    # The root of the reduce, with an image between its two receptions.
    Killed("collectives", 3, COLLECTIVES, 2, 7, 1, 2, OF_COLLECTIVES, 9),
)


def cases() -> Iterator[Case]:
    """The second of two kills of a rank comes after the first, at the same act, or in the replay."""
    for it in KILLED:
        for clock in range(1, it.acts + 1):
            yield it.case(f"kill {it.rank} at {clock}\n", 1, it.calls)
        for clock in range(it.above, it.acts + 1):
            yield it.case(f"image {it.rank} at {it.image}\nkill {it.rank} at {clock}\n", 1, it.calls)
    first, second = KILLED[:2]
    for one, other in ((first, first), (second, second), (first, second)):
        for clock in range(1, one.acts + 1):
            for again in range(1, other.acts + 1):
                yield one.case(f"kill {one.rank} at {clock}\nkill {other.rank} at {again}\n", 2, 10)
