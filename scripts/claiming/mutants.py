"""Whether each mutant stands at a claim, and each that a claim names exists."""

from __future__ import annotations

import os
from typing import Iterator

from .claims import Claims
from .places import Crate, Fault, files_below

FOLDERS = ("must-fail", "wrong")
ENDS = ".edit"


def mutants_of(top: str, crate: str) -> list[str]:
    """The files of a crate's mutants."""
    return [it for folder in FOLDERS for it in files_below(top, f"crates/{crate}/{folder}", (ENDS,))]


def name_of(path: str) -> str:
    return os.path.basename(path).removesuffix(ENDS)


def faults_of_names(files: list[str]) -> Iterator[Fault]:
    """Mutants of one crate that have the same name."""
    seen: dict[str, str] = {}
    for path in files:
        if name_of(path) in seen:
            yield Fault(path, 1, f"{seen[name_of(path)]} has the same name")
        seen.setdefault(name_of(path), path)


def faults_of_claims(crate: Crate, claims: Claims, known: dict[str, list[str]]) -> Iterator[Fault]:
    """Names at claims that are no mutants, and mutants that no claim names."""
    named = set()
    for claim in claims.claims:
        part = claim.parts.get("Mutants")
        for span in part.spans() if part else []:
            of, _, name = span.text.rpartition("/")
            of = of or crate.name
            if name not in map(name_of, known.get(of, [])):
                yield Fault(crate.readme(), span.line, f"`{span.text}` names no mutant of {of}")
            named.add((of, name))
    for path in known[crate.name]:
        if (crate.name, name_of(path)) not in named:
            yield Fault(path, 1, f"no claim of {crate.readme()} names this mutant")
