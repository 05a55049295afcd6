"""Whether each name of a claim exists, and fits the contract it is named for."""

from __future__ import annotations

import re
from typing import Iterator, NamedTuple

from .claims import Claim, Part
from .code import CLAUSE
from .items import DEFINITION, FUNCTION, LEMMA, MEMBER, REEXPORT, TRAIT, TYPE, Index, Item, segments_of
from .places import Fault
from .reach import Reach, types_around

# where a name may come from, by the word before it
KINDS = {"type": (TYPE,), "lemma": (LEMMA, DEFINITION), "law": (FUNCTION,), "record": (DEFINITION, TYPE), "trait": (TRAIT,)}


class Name(NamedTuple):
    line: int
    text: str
    # the word before it
    lead: str


class Group(NamedTuple):
    """What stands between semicolons: `F`, `G`: `a`, `b` (`Definition`)."""

    subjects: list[Name]
    clauses: list[Name]
    applied: list[Name]


def groups_of(part: Part) -> Iterator[Group]:
    group, depth, behind_colon, line, lead = Group([], [], []), 0, False, part.line, ""
    for it in re.findall(r"`[^`]*`|\n|[^\S\n]+|[();:]|[^\s`();:]+", "\n".join(part.lines)):
        if it == "\n":
            line += 1
        elif it.startswith("`"):
            place = group.applied if depth else group.clauses if behind_colon else group.subjects
            place.append(Name(line, " ".join(it.strip("`").split()), lead))
        elif it in ("(", ")"):
            depth = max(depth + (1 if it == "(" else -1), 0)
        elif it == ":" and not depth:
            behind_colon = True
        elif it == ";" and not depth:
            yield group
            group, behind_colon = Group([], [], []), False
        line += it.count("\n") if it.startswith("`") else 0
        lead = lead if not it.strip() else it if it.isalpha() else ""
    if group.subjects or group.clauses or group.applied:
        yield group


class Naming:
    """The names that a crate's claims may use: its own, and those of the crates below it."""

    def __init__(self, own: list[Item], below: list[Item], reach: Reach) -> None:
        self.own = Index(own)
        self.all = Index([*own, *below])
        self.reach = reach

    def meant(self, name: str) -> list[Item]:
        """The items of this name: the crate's own, or else those of crates below; of a name that is given on, what it is there."""
        found = [it for it in self.own.named(name) if it.kind != REEXPORT] or self.all.named(name)
        if found and all(it.kind == REEXPORT for it in found):
            found = self.all.named(segments_of(name)[-1])
        return [it for it in found if it.kind != REEXPORT]

    def subjects(self, names: list[Name]) -> list[list[Item]]:
        """What each subject may mean: a lone name goes with the type of the one before it, if that type has it."""
        found: list[list[Item]] = []
        outer: list[str] = []
        for name in names:
            *of, last = segments_of(name.text)
            wanted = KINDS.get(name.lead)
            same = self.meant("::".join([*outer, last])) if outer and not of else []
            meant = same or self.meant(name.text)
            found.append([it for it in meant if wanted is None or it.kind in wanted])
            outer = of or outer
        return found

    def contracts(self, item: Item) -> list[Item]:
        """The item itself, and for a function of a trait's impl the one of the trait."""
        if item.kind != FUNCTION:
            return [item]
        traits = types_around(item)
        return [item] + [it for it in self.all.by_name[item.name] if it.kind == FUNCTION and it.within[-1] in traits and it != item]

    def texts_of(self, items: list[Item], names: set[str]) -> list[tuple[str, str]]:
        """What the clauses of these names say; without such ones, all that is written of the items."""
        named = [(it.file, text) for it in items for name, text in [*it.clauses.items(), *it.premises.items()] if name in names]
        around = [self.reach.of_type.get(outer, []) for it in items if it.kind == FUNCTION for outer in types_around(it)]
        return named or [text for found in [items, *around] for it in found for text in self.reach.texts_of(it)]

    def reached(self, items: list[Item], names: set[str]) -> list[Item]:
        """The items, those of their signatures, and what their clauses of these names apply."""
        signatures = [more for it in items if it.kind == FUNCTION for more in self.reach.applied(it.file, CLAUSE.split(it.text)[0])]
        return [*items, *signatures, *self.reach.reached(self.texts_of(items, names))]

    def faults_of_clauses(self, path: str, group: Group, items: list[Item]) -> Iterator[Fault]:
        owners = {it.name for it in items} | {segments_of(it.text)[-1] for it in group.applied}
        for name in group.clauses:
            is_clause = any(name.text in it.clauses or name.text in it.premises for it in items)
            if not is_clause and not any(it.kind == MEMBER and it.within[-1] in owners for it in self.all.named(name.text)):
                wrong = f"`{name.text}` is no clause of {those(group)}, nor a field of a definition that stands beside it"
                yield Fault(path, name.line, wrong)

    def faults_of_applied(self, path: str, group: Group, reached: list[Item]) -> Iterator[Fault]:
        places = {(it.file, it.name) for it in reached}
        owners = {outer for it in reached for outer in [it.name, *types_around(it)]}
        for name in group.applied:
            meant = self.meant(name.text)
            if not meant:
                yield Fault(path, name.line, f"`{name.text}` names nothing of the crate or of one below it")
            elif not any((it.file, it.name) in places or it.kind == MEMBER and it.within[-1] in owners for it in meant):
                yield Fault(path, name.line, f"`{name.text}` isn't applied by what is named of {those(group)}")

    def items_of(self, group: Group) -> list[Item]:
        return [more for meant in self.subjects(group.subjects) for it in meant for more in self.contracts(it)]

    def faults_of_subjects(self, path: str, group: Group) -> Iterator[Fault]:
        for name, meant in zip(group.subjects, self.subjects(group.subjects)):
            if not meant:
                kind = name.lead if name.lead in KINDS else "function, type or definition"
                yield Fault(path, name.line, f"`{name.text}` names no {kind} of the crate or of one below it")

    def faults(self, path: str, claim: Claim) -> Iterator[Fault]:
        part = claim.parts.get("Clauses")
        groups = list(groups_of(part)) if part else []
        if part and not any(it.subjects for it in groups):
            yield Fault(path, part.line, "'Clauses:' names no function, type or law")
        # (definitions in parentheses are for all groups since the last that had some)
        reached: list[Item] = []
        for group in groups:
            items = self.items_of(group)
            yield from self.faults_of_subjects(path, group)
            yield from self.faults_of_clauses(path, group, items) if items else ()
            reached += self.reached(items, {it.text for it in group.clauses})
            if group.applied:
                yield from self.faults_of_applied(path, group, reached) if items else ()
                reached = []


def those(group: Group) -> str:
    return ", ".join(f"`{it.text}`" for it in group.subjects)
