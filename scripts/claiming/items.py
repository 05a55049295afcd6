"""What has a name: functions with their clauses, types, definitions, lemmas."""

from __future__ import annotations

import re
from collections import defaultdict
from typing import Iterable, Mapping, NamedTuple

FUNCTION, TYPE, TRAIT, MEMBER, CONSTANT, MODULE = "function", "type", "trait", "member", "constant", "module"
DEFINITION, LEMMA = "definition", "lemma"
# a name that a crate gives on from another one
REEXPORT = "reexport"


class Item(NamedTuple):
    """A name, and all that it stands in: crate, modules, type or trait."""

    kind: str
    within: tuple[str, ...]
    name: str
    # what it says, without comments
    text: str = ""
    file: str = ""
    # of a function: the clauses and the premises that have names, with what they say
    clauses: Mapping[str, str] = {}
    premises: Mapping[str, str] = {}


def segments_of(span: str) -> list[str]:
    return re.split(r"::|\.", span.removesuffix("()"))


def is_within(segments: list[str], within: Iterable[str]) -> bool:
    """Whether these segments stand among those, in their order."""
    rest = iter(within)
    return all(it in rest for it in segments)


class Index:
    """The items of some crates, by their names."""

    def __init__(self, items: Iterable[Item]) -> None:
        self.by_name: dict[str, list[Item]] = defaultdict(list)
        for it in items:
            self.by_name[it.name].append(it)

    def named(self, span: str) -> list[Item]:
        """The items that a code span may mean."""
        *outer, name = segments_of(span)
        return [it for it in self.by_name.get(name, []) if is_within(outer, it.within)]
