"""What a case is: the files of a folder, and calls of the program there with what they must answer."""

from __future__ import annotations

import json
import re
from dataclasses import dataclass, field
from typing import Union

PRINTED = re.compile(rb"^\d+> -?\d+\n", re.MULTILINE)
# The most bytes of a line that a fault shows.
SHOWN = 200
# The most bytes of a line of help.
COLUMNS = 80


@dataclass(frozen=True)
class Expected:
    """What a stream must have. `how` is one of HOWS."""

    how: str = ""
    texts: tuple[bytes, ...] = (b"",)

    def fault(self, found: bytes) -> str:
        """What is wrong with this, in a line; or nothing."""
        if self.how == "any":
            return ""
        if self.how == "some":
            return "" if found else "it is empty"
        if self.how == "with":
            missing = [it for it in self.texts if it not in found]
            return f"there is no {shown(missing[0])} in {shown(found)}" if missing else ""
        if self.how == "narrow":
            wide = [it for it in found.splitlines() if len(it) > COLUMNS]
            return f"a line is too long: {shown(wide[0])}" if wide else "" if found else "it is empty"
        if self.how == "lines":
            if b"refused" in found.splitlines():
                return "an event is refused"
            found = b"".join(PRINTED.findall(found))
        if self.how == "in any order":
            (text,) = self.texts
            return difference(in_order(text), in_order(found)) if in_order(text) != in_order(found) else ""
        if self.how == "objects" and (line := no_object(found)):
            return f"no object of JSON in the order of names: {shown(line)}"
        if found in self.texts:
            return ""
        return " or ".join(difference(it, found) for it in self.texts)


# How a stream is compared: tests/README.md says what each word means.
HOWS = ("", "any", "some", "narrow", "with", "one of", "in any order", "lines", "objects")
# Those without a text.
WITHOUT_TEXT = ("any", "some", "narrow")


@dataclass(frozen=True)
class File:
    """A file of the case."""

    name: str
    text: bytes


@dataclass(frozen=True)
class Keep:
    """A file with what the run before printed."""

    name: str


@dataclass(frozen=True)
class Join:
    """A file of others, one behind another."""

    name: str
    parts: tuple[str, ...]


@dataclass(frozen=True)
class Run:
    """A call of the program, and what it answers."""

    words: tuple[bytes, ...]
    status: int = 0
    out: Expected = Expected()
    err: Expected = Expected()
    name: bytes = b"ftmpi"
    # the file that standard output is, if it isn't compared
    to: str = ""

    def faults(self, status: int, out: bytes, err: bytes) -> list[str]:
        """What is wrong with an answer."""
        wrong = [f"status: expected {self.status}, found {status}"] if status != self.status else []
        streams = (("stdout", self.out.fault(out)), ("stderr", self.err.fault(err)))
        return wrong + [f"{name}: {fault}" for name, fault in streams if fault]


Step = Union[File, Keep, Join, Run]


@dataclass
class Case:
    """Steps that are made one behind another in a folder of their own."""

    place: str
    title: str
    steps: list[Step] = field(default_factory=list)


def run_of(words: str, status: int = 0, out: bytes = b"", err: bytes = b"") -> Run:
    """A call with words between spaces, whose streams must have exactly this."""
    return Run(tuple(words.encode().split()), status, Expected("", (out,)), Expected("", (err,)))


def in_order(text: bytes) -> bytes:
    """The lines of a text, sorted."""
    return b"".join(sorted(text.splitlines(True)))


def no_object(text: bytes) -> bytes:
    """The first line that isn't an object of JSON, written with its members in the order of their names and without spaces."""
    for line in text.splitlines():
        try:
            read = json.loads(line)
        except ValueError:
            return line
        written = json.dumps(read, ensure_ascii=False, separators=(",", ":"), sort_keys=True)
        if not isinstance(read, dict) or written.encode() != line:
            return line
    return b""


def difference(wanted: bytes, found: bytes) -> str:
    """The first line in which two texts differ."""
    ours, theirs = wanted.splitlines(True), found.splitlines(True)
    for number, (one, other) in enumerate(zip(ours, theirs), 1):
        if one != other:
            return f"line {number}: expected {shown(one)}, found {shown(other)}"
    number = min(len(ours), len(theirs)) + 1
    one, other = (shown(it[number - 1]) if len(it) >= number else "nothing" for it in (ours, theirs))
    return f"line {number}: expected {one}, found {other}"


def shown(text: bytes) -> str:
    """A text for people, on one line."""
    it = text if len(text) <= SHOWN else text[:SHOWN] + b".."
    return repr(it)[1:]
