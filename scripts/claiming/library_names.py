"""Items that have the name of a library that their crate names: `rt ci` refuses the crate, and with it all above."""

from __future__ import annotations

import re
from typing import Iterable, Iterator

from .places import Fault

STANDARD = {"core", "std"}
ITEM = re.compile(r"^(?!\s*//).*?\b(?:mod|struct|enum|trait|type)\s+(\w+)")


def faults_of(sources: dict[str, str], libraries: Iterable[str]) -> Iterator[Fault]:
    """Of a crate with these files, and what it can name: the libraries of its line and the crates below it."""
    names = STANDARD.union(libraries)
    for path, text in sources.items():
        for number, line in enumerate(text.splitlines(), 1):
            item = ITEM.match(line)
            if item and item[1] in names:
                yield Fault(path, number, f"{item[1]} is the name of a library: `rt ci` refuses the crate")
