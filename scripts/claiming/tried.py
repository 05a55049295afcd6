"""What is known of the mutants of wrong/: when they were tried, and how they were refused.

scripts/mutants.tried has a row for each folder of mutants, and below it names:

    explore 74929b0f changed
      answer a_miss_is_dropped
      test a_name
      untried another_name

The row has the folder (a crate, or a crate and a folder of its wrong/), the commit of the last run, and over what it ran: a checksum of
the crate's sources and of the folder, or 'changed' if these are others since, or 'merged' if the crates have been merged since. The names
are of mutants that were refused at a written answer, by a test only, or not tried. All others were refused at a goal of their own
function. A folder that was never tried has '-' in both places.
"""

from __future__ import annotations

import fcntl
import hashlib
import os
from contextlib import contextmanager
from dataclasses import dataclass, field
from typing import Iterator

from .mutants import ENDS, name_of
from .pages import Written
from .places import Crate, Fault, files_below, text_of

DATA = "scripts/mutants.tried"
PAGE = "docs/reference/MUTANTS.md"
KINDS = ("answer", "test", "untried")
MERGED, CHANGED, NEVER = "merged", "changed", "-"
OVER = {MERGED: "before the crates were merged", CHANGED: "older sources", NEVER: "not recorded"}
HEAD = """# Mutants, and when they were tried

`scripts/mutants --table` writes this page from `scripts/mutants.tried`: a row for each folder of
`wrong/`. A mutant is refused *at a goal of its own function*; or *at a written answer*, one of a
proof file that then finds no proof, which shows less; or only *by a test*. *Not tried*: no run of
it is recorded. A last run is a commit, and the sources that it was over. `scripts/claims` counts
the rows whose sources are others now ([TESTING](../TESTING.md#mutants)).

| Mutants of | In all | Own goal | Written answer | Test | Not tried | Last run | Over |
| --- | --- | --- | --- | --- | --- | --- | --- |
"""


@dataclass
class Row:
    """What is known of the mutants of one folder."""

    folder: str
    commit: str
    over: str
    line: int = 0
    names: dict[str, list[str]] = field(default_factory=lambda: {it: [] for it in KINDS})

    def text(self) -> str:
        below = [f"  {kind} {name}\n" for kind in KINDS for name in sorted(self.names[kind])]
        return f"{self.folder} {self.commit} {self.over}\n" + "".join(below)

    def crate(self) -> str:
        return self.folder.partition("/")[0]


def read_rows(text: str) -> Iterator[Row]:
    row = None
    for number, line in enumerate(text.splitlines(), 1):
        words = line.split()
        if not words or words[0].startswith("#"):
            continue
        if line.startswith(" "):
            if row is None or len(words) != 2 or words[0] not in KINDS:
                raise ValueError(f"{DATA}:{number}: no row of a folder, and no kind and name of a mutant")
            row.names[words[0]].append(words[1])
            continue
        if row is not None:
            yield row
        if len(words) != 3:
            raise ValueError(f"{DATA}:{number}: no folder, commit and checksum")
        row = Row(*words, line=number)
    if row is not None:
        yield row


def rows_of(top: str) -> list[Row]:
    path = os.path.join(top, DATA)
    return list(read_rows(text_of(path))) if os.path.isfile(path) else []


def comment_of(top: str) -> str:
    """The lines of the data above its first row."""
    return "".join(it + "\n" for it in text_of(os.path.join(top, DATA)).splitlines() if it.startswith("#"))


def folders_of(top: str, crates: list[Crate]) -> dict[str, list[str]]:
    """The folders of mutants, in the order of the crates, each with its files."""
    found: dict[str, list[str]] = {}
    for crate in crates:
        for path in files_below(top, f"{crate.folder()}/wrong", (ENDS,)):
            below = os.path.dirname(path).removeprefix(f"{crate.folder()}/wrong")
            found.setdefault(crate.name + below, []).append(path)
    return found


def sum_of(top: str, folder: str, edits: list[str]) -> str:
    """A checksum of a crate's sources, and of these mutants."""
    above = f"crates/{folder.partition('/')[0]}"
    files = [it for part in ("src", "specs", "proofs") for it in files_below(top, f"{above}/{part}", (".rt", ".antt"))]
    whole = hashlib.sha256()
    for path in [*files, *edits]:
        text = text_of(os.path.join(top, path)).encode()
        whole.update(f"{path} {len(text)}\n".encode() + text)
    return whole.hexdigest()[:16]


def page_of(top: str, crates: list[Crate]) -> Written:
    rows = {it.folder: it for it in rows_of(top)}
    lines, sums = [], [0] * 5
    for folder, edits in folders_of(top, crates).items():
        row = rows.get(folder, Row(folder, NEVER, NEVER))
        counts = counts_of(row, len(edits))
        sums = [one + other for one, other in zip(sums, counts)]
        commit = "-" if row.commit == NEVER else f"`{row.commit}`"
        lines.append(f"| `{folder}` | {' | '.join(map(str, counts))} | {commit} | {OVER.get(row.over, 'its sources then')} |\n")
    return Written(PAGE, HEAD + "".join(lines) + f"| all | {' | '.join(map(str, sums))} | | |\n")


def counts_of(row: Row, in_all: int) -> list[int]:
    """In all, at a goal of their own, at a written answer, by a test, not tried."""
    if row.commit == NEVER:
        return [in_all, 0, 0, 0, in_all]
    named = [len(row.names[it]) for it in KINDS]
    return [in_all, in_all - sum(named), *named]


def faults_of(top: str, crates: list[Crate]) -> Iterator[Fault]:
    """Folders without a row, rows without a folder, and names that are no mutants there."""
    if not os.path.isfile(os.path.join(top, DATA)):
        return
    folders = folders_of(top, crates)
    rows = {it.folder: it for it in rows_of(top)}
    for folder in folders.keys() - rows.keys():
        yield Fault(DATA, 1, f"`{folder}` has mutants and no row")
    for row in rows.values():
        if row.folder not in folders:
            yield Fault(DATA, row.line, f"`{row.folder}` has no mutants")
        known = set(map(name_of, folders.get(row.folder, [])))
        for name in (it for kind in KINDS for it in row.names[kind] if it not in known):
            yield Fault(DATA, row.line, f"`{name}` is no mutant of `{row.folder}`")


def stale(top: str, crates: list[Crate]) -> list[str]:
    """The folders whose mutants weren't tried over the sources as they are."""
    rows = {it.folder: it for it in rows_of(top)}
    return [it for it, edits in folders_of(top, crates).items() if it not in rows or rows[it].over != sum_of(top, it, edits)]


@contextmanager
def held(top: str) -> Iterator[None]:
    """Keeps other runs, which note rows at the same time, from the data."""
    with open(os.path.join(top, DATA), encoding="utf-8") as door:
        fcntl.flock(door, fcntl.LOCK_EX)
        yield


def refused_by(top: str, crates: list[Crate]) -> set[str]:
    """The mutants of these crates that were refused over the sources as they are."""
    with held(top):
        rows, found = {it.folder: it for it in rows_of(top)}, set()
    for folder, edits in folders_of(top, crates).items():
        row = rows.get(folder)
        if row is not None and row.over == sum_of(top, folder, edits):
            found |= set(map(name_of, edits)).difference(row.names["untried"], row.names["test"])
    return found


def note_refused(top: str, crates: list[Crate], commit: str, refused: set[str], answers: set[str]) -> None:
    """Notes in the rows of these crates that these mutants were refused over the sources as they are,
    those in answers at a written answer only. Where a row is of other sources, none was tried."""
    with held(top):
        rows, new = {it.folder: it for it in rows_of(top)}, []
        for folder, edits in folders_of(top, crates).items():
            over, names = sum_of(top, folder, edits), set(map(name_of, edits))
            row = rows.get(folder)
            if row is None or row.over != over:
                row = Row(folder, commit, over)
                row.names["untried"] = list(names)
            row.commit, seen = commit, refused & names
            for kind in KINDS:
                row.names[kind] = [it for it in row.names[kind] if it not in seen]
            row.names["answer"] += answers & names
            new.append(row)
        write_rows(top, new)


def write_rows(top: str, rows: list[Row]) -> None:
    """Puts these rows in place of those of their folders, or behind all."""
    new = {it.folder: it for it in rows}
    text = comment_of(top)
    for row in rows_of(top):
        text += new.pop(row.folder, row).text()
    text += "".join(it.text() for it in new.values())
    with open(os.path.join(top, DATA), "w", encoding="utf-8") as file:
        file.write(text)
