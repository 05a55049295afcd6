"""Worlds, runs and outcomes at their limits: misses without end, many messages, images of the greatest sizes."""

from __future__ import annotations

from collections.abc import Iterator

from .case import Case, Expected, File, Run, run_of

PLACE = "scripts/program_tests/worlds_at_limits.py"
MOVED, REFUSED = "moved", "refused"
# Events, each with its reply.
Rows = list[tuple[str, str]]

# Rank 1 asks without end, and rank 0 sends once.
ASKS_ON = """var x
if rank == 0
  send 1, 7, 9
else
  while 1
    iprobe any, any, x
  end
end
"""

# Rank 1 takes 4095 messages and then asks without end.
TAKES_AND_ASKS_ON = """var n
var x
while n < 4096
  if rank == 0
    send 1, 7, n
  else
    if n < 4095
      recv 0, 7, x
    else
      iprobe any, 8, x
      iprobe any, 8, x
      iprobe any, any, x
      iprobe any, any, x
    end
  end
  let n = n + 1
end
"""

# Rank 1 sends 300 messages and takes what rank 0 makes of each.
GIVES_BACK = """var x
var n
if rank == 1
  while n < 300
    let n = n + 1
    send 0, 7, 10 * n
  end
  let n = 0
end
while n < 300
  if rank == 0
    recv 1, 7, x
    send 1, 7, x + 1
  else
    recv 0, 7, x
  end
  let n = n + 1
end
print x
"""

# Rank 1 takes the even ones of 300 messages, which have tag 0, then the odd ones, and last what comes in a broadcast.
EVEN_AND_ODD = """var x
var n
var right
if rank == 0
  while n < 300
    let n = n + 1
    send 1, n % 2, n
  end
  let x = 7
  bcast 0, x
else
  while n < 150
    let n = n + 1
    recv 0, 0, x
    let right = right + (x == 2 * n)
  end
  print right
  while n < 300
    let n = n + 1
    recv 0, any, x
    let right = right + (x == 2 * (n - 150) - 1)
  end
  print right
  bcast 0, x
  print x
end
"""

# Rank 0 sends 300 messages to each of sixteen ranks in turn, itself among them. Each counts those that it gets in order.
TO_EACH = """var dest
var n
var x
var right
if rank == 0
  while n < 300
    let n = n + 1
    let dest = 0
    while dest < size
      send dest, 3, 1000 * dest + n
      let dest = dest + 1
    end
  end
  let n = 0
end
while n < 300
  let n = n + 1
  recv 0, 3, x
  let right = right + (x == 1000 * rank + n)
end
print right
"""

# Rank 0 sends 300 numbers to rank 1, which prints each.
STREAM = """var i
var x
while i < 300
  let i = i + 1
  if rank == 0
    send 1, 7, i
  else
    recv 0, 7, x
    print x
  end
end
"""

# 1001 round trips, of which neither rank can make one before the other has gone on.
ROUND_TRIPS = """var i
var x
while i < 1001
  let i = i + 1
  if rank == 0
    send 1, 7, i
    recv 1, 7, x
  else
    recv 0, 7, x
    send 0, 7, x
  end
end
print x
"""


def cases() -> Iterator[Case]:
    """All of them."""
    yield world("5000 misses and a hit are two events", ASKS_ON, misses_and_a_hit())
    yield world("a run of misses is the last event; further ones join it, and a hit is refused", TAKES_AND_ASKS_ON, full_but_for_misses())
    for script in ("", "kill 0 at 601\n", "kill 1 at 600\n", "image 1 at 300\nkill 1 at 500\n", "kill 0 at 300\nkill 1 at 301\n"):
        yield ran(f"300 messages are given back, {script!r}", GIVES_BACK, 2, script, "0> 3000\n1> 3001\n")
    for script in ("", "kill 1 at 300\n", "kill 0 at 300\n", "image 0 at 150\nkill 0 at 299\n"):
        yield ran(f"300 messages are taken in another order, {script!r}", EVEN_AND_ODD, 2, script, "1> 150\n1> 300\n1> 7\n")
    each = "".join(f"{rank}> 300\n" for rank in range(16))
    for script in ("", "kill 0 at 4800\n", "image 3 at 200\nkill 3 at 250\nkill 15 at 300\n"):
        yield ran(f"300 messages go to each of sixteen ranks, {script!r}", TO_EACH, 16, script, each)
    yield ran("1001 round trips", ROUND_TRIPS, 2, "", "0> 1001\n1> 1001\n")
    yield from wide_images()
    yield from long_outcomes()


def world(title: str, program: str, rows: Rows, lines: str = "") -> Case:
    """A world of two ranks."""
    events = "".join(f"{it}\n" for it, _ in rows)
    replies = "".join(f"{it}\n" for _, it in rows)
    files = [File("p", program.encode()), File("e", events.encode())]
    return Case(PLACE, title, [*files, run_of("world --ranks 2 p e", 0, (replies + lines).encode())])


def ran(title: str, program: str, ranks: int, script: str, lines: str) -> Case:
    """A run under a script, in which each rank halts: these are its lines."""
    ends = "".join(f"rank {it}: halted\n" for it in range(ranks))
    words = (b"run", b"--ranks", str(ranks).encode(), b"--script", b"s", b"p")
    crashes = f"crashes {script.count('kill')}, "
    run = Run(words, 0, Expected("with", ((lines + ends + crashes).encode(),)))
    return Case(PLACE, title, [File("p", program.encode()), File("s", script.encode()), run])


def message(index: int) -> Rows:
    """The next message of rank 0 goes to rank 1."""
    return [("put 0 1", f"put {index} data {index + 1}"), (f"arrive 0 1 {index}", "accepted")]


def misses_and_a_hit() -> Rows:
    """5000 rounds without a message, and one with it."""
    rows = [("step 1", MOVED)] * (2 + 3 * 5000)
    rows += [("step 0", MOVED)] * 3 + message(0) + [("step 1", MOVED)] * 3
    rows += [("store 1", "stored 1"), ("store 1", "stored 2"), ("store 1", REFUSED)]
    return rows + [("ack 1", "acked"), ("ack 1", "acked"), ("ack 1", REFUSED)]


def full_but_for_misses() -> Rows:
    """4095 receptions, two misses, a third one, and then a message for the fourth probe."""
    rows = [("step 0", MOVED)] * 2 + [("step 1", MOVED)] * 2
    for index in range(4095):
        rows += [("step 0", MOVED)] * 6 + message(index)
        # while, if, if, recv, else, end, let, end
        rows += [("step 1", MOVED)] * 8
    # while, if, if, and three misses
    rows += [("step 1", MOVED)] * 6
    rows += [("step 0", MOVED)] * 6 + message(4095)
    return rows + [("step 1", REFUSED)] * 3


def wide_images() -> Iterator[Case]:
    """A rank with 64 variables and 16 arrays of 256 items takes an image with 400 messages in its inbox, and starts again at it."""
    declared = "".join(f"var v{it}\n" for it in range(64)) + "".join(f"array a{it}[256]\n" for it in range(16))
    sends = "while v0 < 400\nlet v0 = v0 + 1\nsend 1, 1, v0\nend\nsend 1, 2, a0\nsend 1, 0, 0\n"
    sets = "".join(f"let v{it} = {it} - 30\n" for it in range(64)) + "".join(f"let a{it}[{255 - it}] = {it} * 1000\n" for it in range(16))
    # the message of tag 0 comes last, so that all others are in the inbox when it is taken
    takes = "let v0 = 0\nwhile v0 < 400\nlet v0 = v0 + 1\nrecv 0, 1, v2\nlet v1 = v1 + (v2 == v0)\nend\n"
    shown = "".join(f"print v{it}\n" for it in (1, 2, 3, 63)) + "".join(f"print a{it}[{255 - it}]\n" for it in (0, 15))
    taken = f"recv 0, 0, v2\n{sets}print 1\n{takes}{shown}recv 0, 2, a7\nprint count\nprint a7[248]\n"
    program = f"{declared}if rank == 0\n{sends}else\n{taken}end\n"
    lines = "".join(f"1> {it}\n" for it in (1, -29 + 400, 400, -27, 33, 0, 15000, 256, 0))
    for script in ("", "image 1 at 2\nkill 1 at 3\n", "image 1 at 2\nkill 1 at 300\n", "image 1 at 2\nkill 0 at 402\nkill 1 at 410\n"):
        yield ran(f"an image of the greatest sizes, {script!r}", program, 2, script, lines)


def long_outcomes() -> Iterator[Case]:
    """What so many messages come to is an outcome, but not with fewer steps, nor that of fewer messages."""
    for count, steps, answer in ((300, 10000, "yes"), (300, 1000, "no\naudit fault 5"), (299, 10000, "no\naudit fault 4")):
        acts = "".join(f"recv 1 at {2 * it - 1} from 0 at {it}\nprint 1 at {2 * it} {it}\n" for it in range(1, count + 1))
        yield judged(f"{count} of 300 messages in {steps} steps", STREAM, acts, steps, answer)
    trips = ROUND_TRIPS.removesuffix("print x\n")
    for count, answer in ((1001, "yes"), (1000, "no\naudit fault 4")):
        acts = "".join(f"recv 0 at {2 * it} from 1 at {2 * it}\n" for it in range(1, count + 1))
        acts += "".join(f"recv 1 at {2 * it - 1} from 0 at {2 * it - 1}\n" for it in range(1, count + 1))
        yield judged(f"{count} of 1001 round trips", trips, acts, 100_000, answer)


def judged(title: str, program: str, acts: str, steps: int, answer: str) -> Case:
    """An outcome of two ranks that have halted."""
    files = [File("p", program.encode()), File("o", f"{acts}end 0 halted\nend 1 halted\n".encode())]
    words = (b"judge", b"--ranks", b"2", b"--steps", str(steps).encode(), b"p", b"o")
    return Case(PLACE, title, [*files, Run(words, int(answer != "yes"), Expected("with", (answer.encode(),)))])
