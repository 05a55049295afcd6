"""Whether the clauses that a document names belong to the function before the colon: `Inbox::accept`: `answer` (`answer_to`)."""

from __future__ import annotations

import re
from typing import Iterator

from .items import MEMBER, MODULE
from .markdown import Block, blocks_of, line_at
from .naming import Name, Naming
from .places import Fault

SPAN = r"`[^`\s]+`"
LIST = rf"{SPAN}(?:(?:,\s+and\s+|,\s+|\s+and\s+){SPAN})*"
PAIR = re.compile(rf"({SPAN}):\s+({LIST})(?:\s+\(({LIST})\))?")


def names_in(block: Block, found: re.Match[str], number: int) -> list[Name]:
    """The names of a part of a match, each with its line."""
    begins = found.start(number)
    spans = re.finditer(SPAN, found.group(number) or "")
    return [Name(line_at(block, begins + it.start()), it.group(0).strip("`"), "") for it in spans]


def faults_of_pair(document: str, naming: Naming, subject: Name, names: list[Name]) -> Iterator[Fault]:
    meant = naming.meant(subject.text)
    items = [more for it in meant if it.kind not in (MEMBER, MODULE) for more in naming.contracts(it)]
    if not items:
        return
    reached = naming.reached(items, set())
    places = {(it.file, it.name) for it in reached}
    owners = {it.name for it in reached}
    for name in names:
        is_clause = any(name.text in it.clauses or name.text in it.premises for it in items)
        known = naming.meant(name.text)
        if not is_clause and not any((it.file, it.name) in places or it.kind == MEMBER and it.within[-1] in owners for it in known):
            yield Fault(document, name.line, f"`{name.text}` is no clause of `{subject.text}`, and nothing that it applies")


def faults_of(document: str, text: str, naming: Naming) -> Iterator[Fault]:
    for block in blocks_of(text):
        for found in PAIR.finditer(block.text):
            subject = names_in(block, found, 1)[0]
            yield from faults_of_pair(document, naming, subject, names_in(block, found, 2) + names_in(block, found, 3))
