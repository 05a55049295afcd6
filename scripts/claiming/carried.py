"""docs/reference/CARRIED.md: which clauses, definitions and mutants carry each sentence of docs/THEOREMS.md."""

from __future__ import annotations

import re
from typing import Iterator

from .claims import Claim, claims_in
from .linking import Linking
from .markdown import HEADING, rows_of, slug
from .naming import Naming
from .pages import FOLDER, Written, paragraphs
from .places import Fault
from .wrapping import wrapped

DATA = "scripts/theorems.carried"
PAGE = f"{FOLDER}/CARRIED.md"
THEOREMS = "docs/THEOREMS.md"
NUMBERED = re.compile(r"\d+\. ")
HEAD = (
    "`scripts/claims --write` writes this page from `scripts/theorems.carried`, and `./check` compares it with the code: each clause"
    " belongs to its function, each definition is one that the clause applies, and each mutant is one that stands at a claim of its crate.",
    "Each sentence of [THEOREMS](../THEOREMS.md) stands here with what carries it. A clause is named by its function, which leads to the"
    " file where it stands, then by the name of its `ensures`. In parentheses stand definitions that it applies, which lead to theirs. Some of"
    " the mutants that break it stand below; [CLAUSES](CLAUSES.md) has all of them. A law has no body, and so no mutant.",
)


class Carried:
    """What the data says, and the names that it may use: those of all crates."""

    def __init__(self, text: str, naming: Naming) -> None:
        self.claims = claims_in(DATA, text)
        self.naming = naming
        self.linking = Linking(naming, FOLDER)

    def lines_of(self, claim: Claim) -> list[str]:
        lines = wrapped(claim.sentence.text(), "- ", "  ")
        for label, part in claim.parts.items():
            text = self.linking.clauses(part) if label == "Clauses" else part.text()
            lines += wrapped(f"{label}: {text}", "  - ", "    ")
        return lines

    def page(self) -> Written:
        lines, group = ["# What carries the theorems", "", *paragraphs(HEAD)], ""
        for claim in self.claims.claims:
            if claim.group != group:
                group = claim.group
                lines += ["", f"## {group}", ""] if lines[-1] else [f"## {group}", ""]
                lines += [f"[What it says](../THEOREMS.md#{slug(group)}).", ""]
            lines += self.lines_of(claim)
        return Written(PAGE, "\n".join(lines) + "\n")

    def named(self) -> dict[str, set[str]]:
        """The names of each theorem's clauses and definitions, by its heading."""
        found: dict[str, set[str]] = {}
        for claim in self.claims.claims:
            found.setdefault(claim.group, set()).update(it.text for it in claim.parts["Clauses"].spans())
        return found

    def faults(self, theorems: str, at_claims: set[str]) -> Iterator[Fault]:
        """Names that don't fit, other headings than those of the theorems, and mutants at no claim."""
        yield from self.claims.faults
        for claim in self.claims.claims:
            yield from self.naming.faults(DATA, claim)
            part = claim.parts.get("Mutants")
            for span in part.spans() if part else []:
                if span.text not in at_claims:
                    yield Fault(DATA, span.line, f"`{span.text}` is no mutant at a claim of its crate")
        mine, its = list(dict.fromkeys(it.group for it in self.claims.claims)), headings_of(theorems)
        if mine != its:
            wrong = next((it for it in [*mine, *its] if (it in mine) != (it in its)), "the order")
            yield Fault(DATA, 1, f"the headings aren't those of {THEOREMS}: {wrong}")


def headings_of(text: str) -> list[str]:
    """The headings that begin with a number."""
    found = [HEADING.match(row.text) for row in rows_of(text) if not row.in_fence]
    return [it.group(2) for it in found if it and NUMBERED.match(it.group(2))]
