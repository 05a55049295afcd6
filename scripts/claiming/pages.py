"""docs/reference/CLAUSES.md and DEFINITIONS.md."""

from __future__ import annotations

import os
import re
from typing import NamedTuple

from .claims import Claim, Claims
from .linking import Linking
from .markdown import slug
from .naming import Naming
from .places import Crate
from .specs import Definition, Page
from .wrapping import escaped, wrapped

FOLDER = "docs/reference"
CLAUSES = f"{FOLDER}/CLAUSES.md"
DEFINITIONS = f"{FOLDER}/DEFINITIONS.md"
TARGET = re.compile(r"\]\((?![a-z]+:)([^)#\s]*)(#[^)\s]*)?\)")

CLAUSES_HEAD = (
    "`scripts/claims --write` writes this page from the sections \"Claims\" of the crates' READMEs, and `./check` compares it with them."
    " To change a claim, change the README of its crate.",
    "Each claim is a sentence in bold. Below it stand:",
)
CLAUSES_LABELS = (
    "**Clauses**: what the prover checked. A clause is named by its function, which leads to its file, then by the name of its `ensures`. In"
    " parentheses stand the definitions that it applies, which lead to theirs; [DEFINITIONS.md](DEFINITIONS.md) has a sentence for each. A function without the name of a clause"
    " is named for its whole contract, which often has one clause, without a name. \"Type\" names a type whose invariant says it,"
    " \"law\" a function that exists only for its clauses, and \"lemma\" a proof about definitions.",
    "**Mutants**: deliberately wrong edits of the code that would break the claim, and that the prover must refuse. They are the files"
    " `NAME.edit` in `must-fail/` and `wrong/` of the crate.",
    "**Limit**: what the clauses don't say. No claim says that there is memory for a call, when it is made, or how long it takes. A README may"
    " state limits of many claims once, above them.",
)
CLAUSES_TAIL = (
    "A clause holds of each call that returns. [THEOREMS.md](../THEOREMS.md) says which promises the claims add up to, on which premises"
    " they rest, and what is trusted.",
)

DEFINITIONS_HEAD = (
    "`scripts/claims --write` writes this page from the comments of `crates/*/specs/*.antt`, and `./check` compares it with them. To change"
    " a sentence, change the comment above its definition.",
    "These are the definitions that contracts apply: crate by crate, lowest first, and file by file. The text below the name of a file is"
    " the file's own head; it has the public source, if there is one. Each definition has its name and the sentence above it. Terms have"
    " their own page, [GLOSSARY.md](../GLOSSARY.md).",
    "A reader who doubts a promise need believe only its clause, the definitions that the clause applies, and what these apply in turn."
    " Begin with the headline files:",
)
# each with what it defines
HEADLINES = (
    ("bare_world/specs/Headline.antt", "a world stands for a crash-free run"),
    ("bare_world/specs/Retained.antt", "what senders retain for a replay"),
    ("rank_threads/specs/Report.antt", "what the report of a threaded run promises"),
    ("event_logger/specs/Desks.antt", "one history has the calls of all clients of the event logger"),
    ("explore/specs/Outcomes.antt", "the outcomes of a program"),
    ("crash_free/specs/Runs.antt", "what a crash-free run is"),
    ("bare_world/specs/Way.antt", "a recovery schedule"),
    ("bare_world/specs/ToTheEnd.antt", "a recovery schedule that goes on to the program's end"),
)


class Written(NamedTuple):
    path: str
    text: str


def title_of(file: str) -> str:
    """The heading of a file of definitions: crates/NAME/specs/A.antt."""
    return f"[{file.removeprefix('crates/')}](../../{file})"


def rebased(text: str, folder: str) -> str:
    """A text of a page in this folder, with its relative links as they are from docs/reference/."""

    def moved(found: re.Match[str]) -> str:
        target, anchor = found.group(1), found.group(2) or ""
        page = os.path.normpath(os.path.join(folder, target)) if target else f"{folder}/README.md"
        return f"]({os.path.relpath(page, FOLDER)}{anchor})"

    return TARGET.sub(moved, text)


def index_of(names: list[str]) -> list[str]:
    return wrapped("Crates: " + ", ".join(f"[{it}](#{slug(it)})" for it in names) + ".")


def paragraphs(texts: tuple[str, ...]) -> list[str]:
    return [line for text in texts for line in [*wrapped(text), ""]]


def lines_of_claim(claim: Claim, folder: str, linking: Linking) -> list[str]:
    lines = wrapped(rebased(claim.sentence.text(), folder), "- ", "  ")
    for label, part in claim.parts.items():
        text = linking.clauses(part) if label == "Clauses" else rebased(part.text(), folder)
        lines += wrapped(f"{label}: {text}", "  - ", "    ")
    return lines


def lines_of_crate(crate: Crate, claims: Claims, naming: Naming) -> list[str]:
    lines = [f"## {crate.name}", "", f"From [the crate's README](../../{crate.readme()}#claims).", ""]
    group, linking = "", Linking(naming, FOLDER)
    for claim in claims.claims:
        if claim.group != group:
            lines += ["", f"### {claim.group}", ""] if lines[-1] else [f"### {claim.group}", ""]
            group = claim.group
        lines += lines_of_claim(claim, crate.folder(), linking)
    return lines + [""]


def clauses_page(crates: list[Crate], claims: dict[str, Claims], namings: dict[str, Naming]) -> Written:
    shown = [it for it in crates if claims[it.name].claims]
    lines = ["# Clauses", "", *paragraphs(CLAUSES_HEAD)]
    for text in CLAUSES_LABELS:
        lines += wrapped(text, "- ", "  ")
    lines += ["", *paragraphs(CLAUSES_TAIL), *index_of([it.name for it in shown]), ""]
    for crate in shown:
        lines += lines_of_crate(crate, claims[crate.name], namings[crate.name])
    return Written(CLAUSES, "\n".join(lines).rstrip("\n") + "\n")


def lines_of_definition(definition: Definition) -> list[str]:
    lines = wrapped(f"`{definition.name}`: {escaped(definition.sentence)}", "- ", "  ")
    for it in definition.members:
        if it.sentence:
            lines += wrapped(f"`{it.name}`: {escaped(it.sentence)}", "  - ", "    ")
    return lines


def lines_of_file(page: Page) -> list[str]:
    lines = [f"### {title_of(page.path)}", "", *paragraphs(tuple(map(escaped, page.head)))]
    said = [it for it in page.definitions if it.sentence]
    for it in said:
        lines += lines_of_definition(it)
    bare = [f"`{it.name}`" for it in page.definitions if not it.sentence]
    if bare:
        lines += ([""] if said else []) + wrapped(f"Without a sentence: {', '.join(bare)}.")
    return lines + [""]


def headlines_of(pages: list[Page]) -> list[str]:
    lines = []
    there = {it.path for it in pages}
    for name, what in HEADLINES:
        if f"crates/{name}" in there:
            lines += wrapped(f"[{name}](#{slug(title_of(f'crates/{name}'))}): {what}", "- ", "  ")
    return lines


def definitions_page(crates: list[Crate], pages: dict[str, list[Page]]) -> Written:
    shown = {it.name: [page for page in pages[it.name] if page.definitions] for it in crates}
    names = [name for name, found in shown.items() if found]
    headlines = headlines_of([page for it in names for page in shown[it]])
    lines = ["# Definitions", "", *paragraphs(DEFINITIONS_HEAD), *headlines, "", *index_of(names), ""]
    for name in names:
        lines += [f"## {name}", ""]
        for page in shown[name]:
            lines += lines_of_file(page)
    return Written(DEFINITIONS, "\n".join(lines).rstrip("\n") + "\n")
