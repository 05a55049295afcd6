"""Texts and words of as many lines, bytes and events as may be, and of one more."""

from __future__ import annotations

from collections.abc import Iterator

from .case import Case, Expected, File, Run, run_of

PLACE = "scripts/program_tests/limits.py"

# A line, how often it stands in a script, what stands behind it, and what standard error says.
SCRIPTS = (
    ("\n", 256, "", ""),
    ("# nothing\n", 256, "", ""),
    ("\n", 256, " ", "script line 257: fault 3 Limit\n"),
    ("\n", 257, "", "script line 257: fault 3 Limit\n"),
    ("\n", 256, "#", "script line 257: fault 3 Limit\n"),
    ("\n", 256, "x", "script line 257: fault 1 BadLine\n"),
)

# A rank sends messages to itself for ever.
TO_ITSELF = b"var x\nwhile 1\nsend 0, 0, 1\nrecv 0, 0, x\nend\n"
# As many events as a rank may have.
EVENTS = 4096

# How long an argument is, and how many there are. Linux allows 131071 bytes.
LENGTHS = (0, 255, 256, 257, 512, 100000)
COUNTS = (1, 63, 64, 255, 256, 10000)


def cases() -> Iterator[Case]:
    yield from (script(*row) for row in SCRIPTS)
    yield world()
    yield from (long_word(it) for it in LENGTHS)
    yield from (many_words(it) for it in COUNTS)
    yield from names()


def script(line: str, count: int, last: str, error: str) -> Case:
    """A script of such lines is read, or refused with this text."""
    text = line * count + last
    run = Run(tuple(b"run --ranks 1 --script s p".split()), 2, err=Expected("", (error.encode(),)))
    if not error:
        run = run_of("run --ranks 1 --script s p", out=b"rank 0: halted\ncrashes 0, logger calls 0\n")
    return Case(PLACE, f"a script of {count} times {line!r}, and {last!r}", [File("p", b""), File("s", text.encode()), run])


def world() -> Case:
    """After 4096 receptions the next one is refused, and so it is behind a replay of them all."""
    rounds, replay = "step 0\n", "crash 0\nrestart 0\nstep 0\n"
    for number in range(EVENTS):
        rounds += f"step 0\nstep 0\nput 0 0\narrive 0 0 {number}\nstep 0\nstore 0\nack 0\nstep 0\n"
        replay += f"step 0\nstep 0\narrive 0 0 {number}\nstep 0\nstep 0\n"
    one_more = f"step 0\nstep 0\nput 0 0\narrive 0 0 {EVENTS}\nstep 0\nstep 0\n"
    again = f"step 0\nstep 0\narrive 0 0 {EVENTS}\nstep 0\n"
    return Case(
        PLACE,
        f"event {EVENTS + 1} in a world",
        [
            File("p", TO_ITSELF),
            File("e", (rounds + one_more + replay + again).encode()),
            run_of("world --ranks 1 p e", out=replies().encode()),
        ],
    )


def replies() -> str:
    """What the world answers. In the replay the frames of the wires come again."""
    found = "moved\n"
    for number in range(EVENTS):
        found += f"moved\nmoved\nput {number} data {number + 1}\naccepted\nmoved\nstored {number + 1}\nacked\nmoved\n"
    found += f"moved\nmoved\nput {EVENTS} data {EVENTS + 1}\naccepted\nrefused\nrefused\n"
    found += f"crashed\nrestarted {EVENTS}\nmoved\n" + "moved\nmoved\naccepted\nmoved\nmoved\n" * EVENTS
    return found + "moved\nmoved\naccepted\nrefused\n"


def long_word(length: int) -> Case:
    """An argument of any length is a word, byte for byte."""
    name = b"x" * length
    error = Expected("", (b"cannot read " + name + b"\n",))
    return Case(PLACE, f"an argument of {length} bytes", [Run((b"check", name), 2, err=error)])


def many_words(count: int) -> Case:
    """All arguments are read, up to the last one."""
    words = (b"x",) * (count - 1) + (b"\xff",)
    return Case(PLACE, f"{count} arguments behind the program's name", [Run(words, 3, err=not_utf8(count))])


def not_utf8(number: int) -> Expected:
    """What is said of the argument of this number."""
    return Expected("", (f"argument {number} isn't UTF-8\n".encode(),))


def names() -> Iterator[Case]:
    """The program's name is argument 0; it and its words may be empty."""
    yield Case(PLACE, "the program's name isn't UTF-8", [Run((b"check", b"p"), 3, err=not_utf8(0), name=b"\xff")])
    yield Case(PLACE, "three empty words", [Run((b"", b""), 3, err=Expected("with", (b"error: ",)), name=b"")])
