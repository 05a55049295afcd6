"""Makes programs with a mistake planted in the code: for `bench/schedules --planted`.

A mistake is an edit of crates/rank_threads, a file NAME.edit of bench/planted. Its form is that of
the mutants of crates/*/wrong (scripts/mutants), but a line `file: ` may follow texts of another file,
lines `old: ` or `new: ` on end are one text, and lines from # on are comments. An edit whose first
comment begins with `right: ` is no mistake: the program must stay without faults.

The quick program of each edited copy is kept in crates/ftmpi/out/planted, with the checksum of the
sources from which it was made.
"""
from __future__ import annotations

import os
import pathlib
import shutil
import sys
from typing import NamedTuple

TOP = pathlib.Path(__file__).resolve().parent.parent
sys.path[:0] = [str(TOP / "scripts")]
sys.dont_write_bytecode = True

from building.files import kit_line, text_of, write  # noqa: E402
from building.making import quick, room  # noqa: E402
from building.sources import Sources  # noqa: E402

EDITS, CRATE = TOP / "bench/planted", "rank_threads"
KEPT = TOP / "crates/ftmpi/out/planted"


class BadEdit(Exception):
    """An edit that can't be read, or doesn't apply."""


class Change(NamedTuple):
    """A text of a file and the one in its place."""

    file: str
    old: str
    new: str


class Planted(NamedTuple):
    name: str
    says: str
    is_right: bool
    changes: list[Change]


def planted(name: str) -> Planted:
    """The edit of this name."""
    comments: list[str] = []
    changes: list[Change] = []
    file, before = "", ""
    for line in text_of(f"{EDITS}/{name}.edit").splitlines():
        kind, _, text = line.partition(" ")
        if kind == "#":
            comments.append(text)
        elif kind == "file:":
            file = text
        elif kind == "old:" and before == "old:":
            changes[-1] = changes[-1]._replace(old=f"{changes[-1].old}\n{text}")
        elif kind == "old:":
            changes.append(Change(file, text, ""))
        elif kind == "new:" and changes:
            changes[-1] = changes[-1]._replace(new=text if before == "old:" else f"{changes[-1].new}\n{text}")
        else:
            raise BadEdit(f"{name}: {line!r} is no line of an edit")
        before = kind
    says = " ".join(comments)
    return Planted(name, says.removeprefix("right: "), says.startswith("right: "), changes)


def all_planted() -> list[Planted]:
    return [planted(it.stem) for it in sorted(EDITS.glob("*.edit"))]


def apply(edit: Planted, top: str) -> None:
    """Makes the changes in a copy of the sources. Each old text occurs there once."""
    for change in edit.changes:
        path = f"{top}/crates/{CRATE}/{change.file}"
        text = text_of(path)
        if text.count(change.old) != 1:
            raise BadEdit(f"{edit.name}: its text occurs {text.count(change.old)} times: {change.old}")
        write(path, text.replace(change.old, change.new))


def program_of(edit: Planted) -> str:
    """The path of the quick program with this mistake. Makes it, if it isn't there."""
    path = KEPT / edit.name
    with room() as folder:
        sources = Sources(str(TOP), "ftmpi").copy_to(f"{folder}/repository")
        apply(edit, sources.top)
        record = f"{sources.sum()}\n{kit_line()}\n"
        if path.exists() and path.with_suffix(".sum").exists() and text_of(str(path.with_suffix(".sum"))) == record:
            return str(path)
        sources.cut()
        os.makedirs(KEPT, exist_ok=True)
        shutil.copy(quick(sources, folder), path)
        write(str(path.with_suffix(".sum")), record)
    return str(path)
