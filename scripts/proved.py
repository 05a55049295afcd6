"""proved.txt, which ./check writes: the sources that it proved."""

from __future__ import annotations

import os
import shutil
import subprocess

from building.files import kit_line, sum_of
from building.sources import LISTS
from building.whole import PROVED, on_disk

HEADING = "# Written by ./check when all had passed; scripts/README.md says what the sums cover.\n"


def sum_of_all(top: str) -> str:
    """The checksum of all that the proofs and tests of `rt ci` read: crates.txt, HANDLES, and each
    file of crates/, except for what is built, what is written for readers, and hidden files."""
    paths = LISTS.copy()
    for at, folders, files in os.walk(f"{top}/crates"):
        folders[:] = [it for it in folders if it not in ("out", "__pycache__")]
        paths += [os.path.relpath(f"{at}/{it}", top) for it in files if not it.endswith(".md") and not it.startswith(".")]
    return sum_of(top, paths)


def text_for(top: str, program: str, verdict: str) -> str:
    """The contents, with the checksum of the program's sources and the last line of `./check`."""
    return f"{HEADING}sources {sum_of_all(top)}\nprogram {program} by {kit_line()}\n./check: {verdict}\n"


def names_the_same(one: str, other: str) -> bool:
    """Whether both files name the same sources, and the same last line. Another toolchain may have
    proved them."""
    without_kit = lambda text: [line.partition(" by ")[0] for line in text.splitlines()]
    return without_kit(one) == without_kit(other)


def committed(top: str) -> str:
    """The file's contents in the last commit; without git, on the disk. Empty if it isn't there."""
    if not os.path.exists(f"{top}/.git") or not shutil.which("git"):
        return on_disk()
    show = ["git", "-c", "safe.directory=*", "-C", top, "show", f"HEAD:./{PROVED}"]
    return subprocess.run(show, capture_output=True, text=True, check=False).stdout
