"""Loops in which no rank sends, for bench/against_mpi: each is one text, which Lua and CPython run too.

Values are never negative there, so a quotient is the same whichever way it is cut.
"""
from __future__ import annotations

import re
from typing import NamedTuple

LUA = (
    (r"^array (\w+)\[(\d+)\]", r"local \1 = {} for i = 0, \2 - 1 do \1[i] = 0 end"),
    (r"^var (\w+)", r"local \1 = 0"),
    (r"\blet ", ""),
    (r"\b(while .*)", r"\1 do"),
    (r"\b(if .*)", r"\1 then"),
    ("/", "//"),
    ("!=", "~="),
)
# (in a function, as names of a module are looked up)
CPYTHON = (
    (r"^( *)array (\w+)\[(\d+)\]", r"\1\2 = [0] * \3"),
    (r"^( *)var (\w+)", r"\1\2 = 0"),
    (r"\blet ", ""),
    (r"\b((?:while|if) .*|else)", r"\1:"),
    (r" *\bend\b", ""),
    ("/", "//"),
)


def translated(text: str, rules: tuple[tuple[str, str], ...]) -> str:
    """The text with each rule's pattern replaced, line by line."""
    for pattern, by in rules:
        text = re.sub(pattern, by, text, flags=re.MULTILINE)
    return text


class OwnLoop(NamedTuple):
    """A loop of `rounds` rounds: its program, in which ROUNDS stands for their number, and what the
    tables call it."""

    name: str
    shown: str
    rounds: int
    program: str

    def text(self, who: str) -> str:
        """The program as ftmpi, Lua or CPython run it."""
        text = self.program.replace("ROUNDS", str(self.rounds))
        if who == "Lua":
            return translated(text, LUA)
        if who == "CPython":
            indented = "".join(f"  {line}\n" for line in text.splitlines())
            return f"def loop():\n{translated(indented, CPYTHON)}\nloop()\n"
        return text


COUNTING = """\
var i
while i < ROUNDS
  let i = i + 1
end
"""
SUM = """\
var i
var s
while i < ROUNDS
  let s = s + i
  let i = i + 1
end
"""
SIEVE = """\
array marks[256]
var r
var n
var m
var found
while r < ROUNDS
  let n = 0
  while n < 256
    let marks[n] = 0
    let n = n + 1
  end
  let n = 2
  while n < 256
    if marks[n] == 0
      let found = found + 1
      let m = n + n
      while m < 256
        let marks[m] = 1
        let m = m + n
      end
    end
    let n = n + 1
  end
  let r = r + 1
end
"""
COLLATZ = """\
var n
var x
var steps
let n = 1
while n <= ROUNDS
  let x = n
  while x != 1
    if x % 2 == 0
      let x = x / 2
    else
      let x = 3 * x + 1
    end
    let steps = steps + 1
  end
  let n = n + 1
end
"""
FIBONACCI = """\
var i
var a
var b
var c
let b = 1
while i < ROUNDS
  let c = (a + b) % 1000000007
  let a = b
  let b = c
  let i = i + 1
end
"""
MATRIX = """\
array a[256]
array b[256]
array c[256]
var r
var i
var j
var k
var s
while i < 256
  let a[i] = i % 7
  let b[i] = i % 5
  let i = i + 1
end
while r < ROUNDS
  let i = 0
  while i < 16
    let j = 0
    while j < 16
      let s = 0
      let k = 0
      while k < 16
        let s = s + a[i * 16 + k] * b[k * 16 + j]
        let k = k + 1
      end
      let c[i * 16 + j] = s
      let j = j + 1
    end
    let i = i + 1
  end
  let r = r + 1
end
"""

# The tables divide by the rounds; each loop has a million steps of a rank or some more.
OWN_LOOPS = (
    OwnLoop("counting", "a counting loop", 1_000_000, COUNTING),
    OwnLoop("sum", "a loop that adds", 1_000_000, SUM),
    OwnLoop("sieve", "a sieve of 256 numbers", 1000, SIEVE),
    OwnLoop("collatz", "Collatz sequences", 20_000, COLLATZ),
    OwnLoop("fibonacci", "Fibonacci numbers", 1_000_000, FIBONACCI),
    OwnLoop("matrix", "a product of matrices, 16 by 16", 200, MATRIX),
)
