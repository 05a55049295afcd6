"""The text of a claim's clauses, with a link at each function and each definition to the file where it stands."""

from __future__ import annotations

import os
from collections.abc import Iterable

from .claims import Part
from .items import DEFINITION, FUNCTION, LEMMA, TYPE, Item
from .markdown import SPAN
from .naming import Naming, groups_of

LINKED = (FUNCTION, TYPE, DEFINITION, LEMMA)


def crate_of(item: Item) -> str:
    """The crate in whose folder the item stands: crates/NAME/.."""
    return item.file.split("/")[1]


class Linking:
    """Links from the pages of a folder, for names that mean one thing."""

    def __init__(self, naming: Naming, folder: str) -> None:
        self.naming = naming
        self.folder = folder

    def linked(self, name: str, ends: str, places: Iterable[list[Item]]) -> str:
        """The name with a link to its file, by the first of these lists that has it in one file that ends so, or else in one."""
        meant = [it for it in self.naming.meant(name) if it.kind in LINKED]
        for place in places:
            there = {(it.file, it.name) for it in place}
            files = {it.file for it in meant if (it.file, it.name) in there}
            for found in ({it for it in files if it.endswith(ends)}, files):
                if len(found) == 1:
                    return f"[`{name}`]({os.path.relpath(found.pop(), self.folder)})"
        return f"`{name}`"

    def links_of(self, part: Part) -> tuple[dict[str, str], dict[str, str]]:
        """The links of the functions that are named, and those of the definitions in parentheses."""
        functions: dict[str, str] = {}
        definitions: dict[str, str] = {}
        subjects: list[Item] = []
        reached: list[Item] = []
        for group in groups_of(part):
            items = self.naming.items_of(group)
            subjects += items
            reached += self.naming.reached(items, {it.text for it in group.clauses})
            crates = {crate_of(it) for it in subjects}
            near = [it for it in reached if crate_of(it) in crates]
            functions |= {it.text: self.linked(it.text, ".rt", [items]) for it in group.subjects}
            definitions |= {it.text: self.linked(it.text, ".antt", [reached, near]) for it in group.applied}
        return functions, definitions

    def clauses(self, part: Part) -> str:
        functions, definitions = self.links_of(part)
        text, depth, shown, end = part.text(), 0, "", 0
        for span in SPAN.finditer(text):
            between = text[end : span.start()]
            depth += between.count("(") - between.count(")")
            links = definitions if depth else functions
            shown += between + links.get(span.group(2), span.group(0))
            end = span.end()
        return shown + text[end:]
