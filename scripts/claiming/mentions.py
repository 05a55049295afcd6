"""Whether the paths and the names in code spans of the documents exist."""

from __future__ import annotations

import glob
import os
import re
from typing import Iterator, Optional

from .items import Index, segments_of
from .markdown import Span
from .places import PASSED_OVER, Fault, crates_of, libraries_of

DOCUMENTS = (
    "README.md",
    "CONTRIBUTING.md",
    "docs/THEOREMS.md",
    "docs/LIMITS.md",
    "docs/ASSUMPTIONS.md",
    "docs/PROTOCOL.md",
    "docs/ARCHITECTURE.md",
    "docs/EMBEDDING.md",
    "docs/MAINTAINING.md",
    "docs/GLOSSARY.md",
    "docs/TESTING.md",
)
ENDINGS = (".rt", ".antt", ".md", ".rank", ".edit", ".events", ".outcome", ".script", ".py")
PATH = re.compile(r"(?:\./)?[A-Za-z0-9_.*-]+(?:/[A-Za-z0-9_.*-]+)*/?")
# a word in capitals stands for any name, unless it is that of a document
STANDS_FOR_ANY = re.compile(r"(?<![A-Za-z0-9_])[A-Z][A-Z_0-9]*(?![A-Za-z0-9_]|\.md)")
# `Inbox::accept`, `IsRun`, `law_determined`: words that only code has
QUALIFIED = r"[A-Za-z_][A-Za-z_0-9]*(?:::[A-Za-z_][A-Za-z_0-9]*)+(?:\(\))?"
OF_CODE = re.compile(rf"{QUALIFIED}|[A-Z][a-z0-9]+(?:[A-Z][a-z0-9]*)+|[a-z][a-z0-9]*(?:_[a-z0-9]+)+")
# the page whose reader writes files: a line that ends with `NAME`: stands before the text of each
TUTORIAL = "docs/TUTORIAL.md"
WRITES = re.compile(r"`([\w./-]+)`:$", re.MULTILINE)
README_OF_CRATE = re.compile(r"crates/([a-z_0-9]+)/README\.md")


def path_of(span: str) -> Optional[str]:
    """The path that a code span looks like: the whole of it, or its first word if that has a slash."""
    first = span.split(" ")[0]
    if not PATH.fullmatch(first) or first.startswith("../") or PASSED_OVER & set(first.split("/")):
        return None
    if "/" in first.rstrip("/") or first.endswith("/"):
        return first
    return span if span.endswith(ENDINGS) and span not in ENDINGS and " " not in span else None


def speaks_of_code(document: str) -> bool:
    return document in DOCUMENTS or README_OF_CRATE.fullmatch(document) is not None


def is_checked(document: str) -> bool:
    """Paths are looked at in each document but the history, which names what is gone, and the pages that are written."""
    return document != "CHANGELOG.md" and not document.startswith("docs/reference/")


def written_by(document: str, text: str) -> set[str]:
    """The files that a reader of this document writes."""
    return set(WRITES.findall(text)) if document == TUTORIAL else set()


class Mentions:
    """What the code has, for the documents that speak of it."""

    def __init__(self, top: str, index: Index, others: set[str], sources: str) -> None:
        """`others` are names that aren't items, such as those of clauses and of mutants."""
        self.top = top
        self.index = index
        self.others = others
        self.libraries = libraries_of(top)
        self.crates = {it.name for it in crates_of(top)}
        # all words with colons in the code, for what comes of libraries
        self.used = set(re.findall(r"[A-Za-z_][A-Za-z_0-9]*(?:::[A-Za-z_][A-Za-z_0-9]*)+", sources))

    def has_path(self, document: str, path: str, crates: set[str]) -> bool:
        """Whether the path is there: from the top, from the document, from one of these crates."""
        pattern = STANDS_FOR_ANY.sub("*", path.removeprefix("./"))
        of_crates = [f"crates/{it}{src}" for it in crates for src in ("", "/src")]
        places = [os.path.dirname(document), "", "crates", *of_crates, "scripts"]
        if "/" not in pattern:
            places.append("**")
        found = (glob.iglob(os.path.join(self.top, it, pattern) + ends, recursive=True) for it in places for ends in ("", ".rt"))
        return any(next(it, None) for it in found)

    def has_name(self, name: str) -> bool:
        if segments_of(name)[0] in self.libraries or self.index.named(name):
            return True
        bare = name.removesuffix("()")
        return any(it == bare or it.endswith("::" + bare) or it.startswith(bare + "::") for it in self.used)

    def fault(self, document: str, text: str, crates: set[str]) -> Optional[str]:
        if text in self.others:
            return None
        path = path_of(text)
        if path is not None:
            return None if self.has_path(document, path, crates) else f"`{text}`: there is no {path}"
        is_name = speaks_of_code(document) and OF_CODE.fullmatch(text)
        return f"`{text}` names nothing of the code" if is_name and not self.has_name(text) else None

    def faults(self, document: str, spans: list[Span]) -> Iterator[Fault]:
        own = README_OF_CRATE.fullmatch(document)
        # (a README says of which crate a file is; other documents may leave it to the heading)
        crates = {it.text for it in spans if it.text in self.crates} | {own.group(1)} if own else {"*"}
        for span in spans:
            wrong = self.fault(document, span.text, crates)
            if wrong:
                yield Fault(document, span.line, wrong)
