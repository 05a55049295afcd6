"""Texts at their limits: programs, scripts and events of as much as there may be, and of one more."""

from __future__ import annotations

import re
from collections.abc import Iterator

from .case import Case, Expected, File, Run, run_of

PLACE = "scripts/program_tests/texts_at_limits.py"

# The bytes of a line, the nodes of an expression and its parentheses: a text, and its canonical text or its first fault, both as
# `spread` reads them. Where a limit is passed, also what is lower than that.
EXPRESSIONS = (
    ("print 1{8185| }", "print 1\n"),
    ("print 1{8186| }", "line 1: fault 8 Limit"),
    ("{8185| }print 1", "print 1\n"),
    ("{8186| }print 1", "line 1: fault 8 Limit"),
    ("{8192|#}", ""),
    ("{8193|#}", "line 1: fault 8 Limit"),
    ("foo{8190| }", "line 1: fault 8 Limit"),
    ("foo{8190| }\t", "line 1: fault 1 NotText"),
    ("print -1{31|+1}", "print {31|(}-1{31|) + 1}\n"),
    ("print --1{31|+1}", "line 1: fault 8 Limit"),
    ("while --1{31|+1}", "line 1: fault 8 Limit"),
    ("if --1{31|+1}", "line 1: fault 8 Limit"),
    ("send --1{31|+1}, 0, 0", "line 1: fault 8 Limit"),
    ("send 0, --1{31|+1}, 0", "line 1: fault 8 Limit"),
    ("send 0, 0, --1{31|+1}", "line 1: fault 8 Limit"),
    ("send -1{31|+1}, -1{31|+1}, -1{31|+1}", "send {31|(}-1{31|) + 1}, {31|(}-1{31|) + 1}, {31|(}-1{31|) + 1}\n"),
    ("var x\nrecv --1{31|+1}, 0, x", "line 2: fault 8 Limit"),
    ("var x\nrecv 0, --1{31|+1}, x", "line 2: fault 8 Limit"),
    ("probe --1{31|+1}, 0", "line 1: fault 8 Limit"),
    ("probe 0, --1{31|+1}", "line 1: fault 8 Limit"),
    ("probe -1{31|+1}, -1{31|+1}", "probe {31|(}-1{31|) + 1}, {31|(}-1{31|) + 1}\n"),
    ("var f\niprobe --1{31|+1}, 0, f", "line 2: fault 8 Limit"),
    ("var f\niprobe 0, --1{31|+1}, f", "line 2: fault 8 Limit"),
    ("probe {65|(}0{65|)}, 0", "line 1: fault 8 Limit"),
    ("var x\nlet x = --1{31|+1}", "line 2: fault 8 Limit"),
    ("array a[1]\nprint a[1{31|+1}]", "array a[1]\nprint a[{30|(}1{30| + 1)} + 1]\n"),
    ("array a[1]\nprint a[-1{31|+1}]", "line 2: fault 8 Limit"),
    ("array a[1]\nlet a[-1{31|+1}] = -1{31|+1}", "array a[1]\nlet a[{31|(}-1{31|) + 1}] = {31|(}-1{31|) + 1}\n"),
    ("array a[1]\nlet a[--1{31|+1}] = 1", "line 2: fault 8 Limit"),
    ("array a[1]\nlet a[1] = --1{31|+1}", "line 2: fault 8 Limit"),
    ("print {64|(}1{64|)}", "print 1\n"),
    ("print {65|(}1{65|)}", "line 1: fault 8 Limit"),
    ("print {4092|(}1{4092|)}", "line 1: fault 8 Limit"),
    ("print {2700|-}1", "line 1: fault 8 Limit"),
    ("print {8000|(}", "line 1: fault 3 BadForm"),
    ("print {8185|-}1", "line 1: fault 8 Limit"),
    ("print {2700|a[}1{2700|]}", "line 1: fault 4 Undeclared"),
    ("print y + -1{31|+1}", "line 1: fault 4 Undeclared"),
    ("print -9223372036854775808{32|+1}", "line 1: fault 8 Limit"),
    ("print {8000|-}q", "line 1: fault 4 Undeclared"),
    ("print {8000|-}1", "line 1: fault 8 Limit"),
    ("print {4000|1+}q", "line 1: fault 4 Undeclared"),
    ("print {4000|1+}1", "line 1: fault 8 Limit"),
    ("print {64|(1+}q{64|)}", "line 1: fault 4 Undeclared"),
    ("print {64|(1+}1{64|)}", "line 1: fault 8 Limit"),
    ("print {31|(1+}q{31|)}", "line 1: fault 4 Undeclared"),
    ("print {31|(1+}1{31|)}", "print 1{30| + (1} + 1{30|)}\n"),
    ("print {32|(1+}1{32|)}", "line 1: fault 8 Limit"),
)
# Lines and blocks, likewise.
LINES = (
    ("{1000|print 1\n}", "{1000|print 1\n}"),
    ("{1000|print 1\n}print 1", "line 1001: fault 8 Limit"),
    ("{1000|print 1\n}\n", "line 1001: fault 8 Limit"),
    ("{1000|print 1\n}# 1", "line 1001: fault 8 Limit"),
    ("{1001|\n}", "line 1001: fault 8 Limit"),
    ("{1000|\n}", ""),
    ("{1000|print 1\n}print 1\t", "line 1001: fault 1 NotText"),
    ("{1000|print 1\n}foo", "line 1001: fault 2 NotAStatement"),
    ("{1000|print 1\n}print", "line 1001: fault 3 BadForm"),
    ("{1000|print 1\n}print q", "line 1001: fault 4 Undeclared"),
    ("var x\n{999|print 1\n}var x", "line 1001: fault 5 DeclaredTwice"),
    ("if 1\n{999|print 1\n}", "line 1001: fault 6 BlockOpen"),
    ("{1000|print 1\n}end", "line 1001: fault 7 BlockStray"),
    ("{1000|print 1\n}print 9223372036854775808", "line 1001: fault 8 Limit"),
    ("{32|if 1\n}if 9223372036854775808", "line 33: fault 8 Limit"),
    ("{32|if 1\n}while 1", "line 33: fault 8 Limit"),
)
# A line behind tables that are full, and its fault.
MORE_NAMES = (
    ("var z", "line 161: fault 8 Limit"),
    ("array z[1]", "line 161: fault 8 Limit"),
    ("var abcdefghijklmnaa", "line 161: fault 5 DeclaredTwice"),
    ("array abcdefghijklmnaa[1]", "line 161: fault 5 DeclaredTwice"),
    ("print z", "line 161: fault 4 Undeclared"),
)
# A line, how often it stands in a script, what stands behind it, and the fault.
LONG_SCRIPTS = (
    ("kill 0 at 1\n", 257, "", "line 257: fault 3 Limit"),
    ("kill 0 at 1\n", 256, "kill 0 at 1", "line 257: fault 3 Limit"),
    ("\n", 257, "", "line 257: fault 3 Limit"),
    ("\n", 256, " ", "line 257: fault 3 Limit"),
    ("\n", 256, "#", "line 257: fault 3 Limit"),
    ("# nothing\n", 300, "kill 0 at 0", "line 257: fault 3 Limit"),
    ("\n", 256, "kill 0 at 0", "line 257: fault 1 BadLine"),
    ("\n", 256, "kill 2 at 1", "line 257: fault 2 BadRank"),
    ("\n", 255, "kill 2 at 1\n\n", "line 256: fault 2 BadRank"),
)
# The longest line of a script that there is here has 128 bytes, and the longest comment 127.
LONG_LINE = "kill 0                                                        at  0000000000000000000000000000000000000000000000000000000000001\n"
LONG_COMMENT = (
    "# nothing is asked for here, nor in any of the many lines that stand around "
    "this one, however often one would like to read it.\n"
)
# A line, how often it stands in a script of 256 lines, what stands behind it, and the number of the last line that is no comment,
# with that line.
FULL_SCRIPTS = (
    ("kill 0 at 1\n", 256, "", "line 256: kill 0 at 1: "),
    ("image 1 at 5\n", 255, "kill 0 at 6", "line 256: kill 0 at 6: "),
    ("\n", 255, "kill 1 at 2", "line 256: kill 1 at 2: "),
    (LONG_LINE, 256, "", "line 256: kill 0 at 1: "),
    (LONG_COMMENT, 255, "image 1 at 5", "line 256: image 1 at 5: "),
)
# A line of events, what stands behind 100000 of it, and the fault of the next line.
LONG_EVENTS = (
    ("ack 0\n", "ack 0", "events line 100001: fault 2 Limit\n"),
    ("\n", "#", "events line 100001: fault 2 Limit\n"),
    ("\n", "ack", "events line 100001: fault 1 BadLine\n"),
)


def cases() -> Iterator[Case]:
    """All of them."""
    for text, want in (*EXPRESSIONS, *LINES):
        yield checked(text, spread(text), spread(want))
    for count in range(1, 33):
        yield checked(f"{count} blocks in each other", blocks(count), blocks(count))
    yield checked("33 blocks in each other", blocks(33), "line 33: fault 8 Limit")
    yield checked("64 variables and 16 arrays", full_tables(), full_tables())
    for line, want in MORE_NAMES:
        yield checked(f"{line} behind full tables", full_tables() + line, want)
    for first in range(1, 257, 16):
        yield checked(f"arrays of {first} items and of 15 numbers more", lengths(first), lengths(first))
    lines = "".join(f"print {it}\n" for it in range(1000))
    yield checked("1000 lines", lines, lines)
    yield from long_scripts()
    yield from long_events()


def spread(short: str) -> str:
    """The text that is meant: `{64|(}` in it stands for `(` 64 times."""
    return re.sub(r"\{(\d+)\|([^}]*)\}", lambda it: it[2] * int(it[1]), short)


def checked(title: str, text: str, want: str) -> Case:
    """A program's text is answered by its canonical text, or by its fault."""
    if want.startswith("line "):
        run = run_of("check p", 2, b"", f"{want}\n".encode())
    else:
        run = run_of("check p", 0, want.encode())
    return Case(PLACE, title, [File("p", text.encode()), run])


def blocks(count: int) -> str:
    """So many blocks inside each other: an `if`, and a `while` in each second place."""
    begins = ["  " * it + ("while 2\n" if it % 2 else "if 1\n") for it in range(count)]
    ends = ["  " * it + "end\n" for it in reversed(range(count))]
    return "".join([*begins, "  " * count + "print 3\n", *ends])


def full_tables() -> str:
    """64 variables and 16 arrays, whose names have 16 bytes, each of them used."""
    front = "abcdefghijklmn"
    variables = [f"{front}{one}{two}" for one in "abcdefgh" for two in "abcdefgh"]
    arrays = [f"{front}_{one}" for one in "abcdefghijklmnop"]
    lines = [f"var {it}" for it in variables] + [f"array {it}[256]" for it in arrays]
    lines += [f"print {it}" for it in variables] + [f"let {it}[0] = 1" for it in arrays]
    return "".join(f"{it}\n" for it in lines)


def lengths(first: int) -> str:
    """Sixteen arrays, each one item longer than the one before."""
    return "".join(f"array a{it}[{it}]\n" for it in range(first, first + 16))


def long_scripts() -> Iterator[Case]:
    """Scripts of 256 lines, whose last line `trace` names as one that wasn't used, and of one more."""
    for line, times, end, want in LONG_SCRIPTS:
        script = File("s", (line * times + end).encode())
        run = run_of("run --ranks 2 --script s p", 2, b"", f"script {want}\n".encode())
        yield Case(PLACE, f"a script of {times} lines {line!r} and {end!r}", [File("p", b""), script, run])
    for line, times, end, want in FULL_SCRIPTS:
        script = File("s", (line * times + end).encode())
        run = Run((b"trace", b"--ranks", b"2", b"--script", b"s", b"p"), 0, Expected("with", (want.encode(),)))
        yield Case(PLACE, f"a script of {times} lines {line!r} and {end!r}", [File("p", b""), script, run])


def long_events() -> Iterator[Case]:
    """Texts of 100000 events, and of one line more."""
    acks = File("e", b"ack 0\n" * 100_000)
    run = run_of("world --ranks 1 p e", 0, b"refused\n" * 100_000)
    yield Case(PLACE, "100000 events", [File("p", b""), acks, run])
    for line, end, want in LONG_EVENTS:
        events = File("e", (line * 100_000 + end).encode())
        run = run_of("world --ranks 1 p e", 2, b"", want.encode())
        yield Case(PLACE, f"{end!r} behind 100000 lines {line!r}", [File("p", b""), events, run])
