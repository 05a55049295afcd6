"""All checks over one repository."""

from __future__ import annotations

import os
from typing import Iterator, Optional

from . import carried, columns, library_names, links, mutants, pages, pairs, proof_map, tried
from .carried import Carried
from .claims import Claims, claims_of
from .code import items_of_code
from .items import Item, segments_of
from .lemmas import Lemmas, exported_by
from .markdown import spans_of
from .mentions import DOCUMENTS, Mentions, is_checked, written_by
from .naming import Naming
from .pages import Written
from .places import Crate, Fault, crate_lines, crates_of, documents, files_below, libraries_of, text_of, write
from .reach import Reach, imports_of
from .specs import items_of_antt, page_of


class Whole:
    """What the crates have and claim."""

    def __init__(self, top: str) -> None:
        self.top = top
        self.crates = crates_of(top)
        self.sources = {it.name: self.texts(it, "src", ".rt") for it in self.crates}
        self.specs = {it.name: self.texts(it, "specs", ".antt") for it in self.crates}
        self.proofs = {it.name: self.texts(it, "proofs", ".antt") for it in self.crates}
        self.items = {it.name: self.items_of(it) for it in self.crates}
        self.reach = self.reach_of()
        self.pages = {name: [page_of(path, text) for path, text in found.items()] for name, found in self.specs.items()}
        self.claims = {it.name: self.claims_of(it) for it in self.crates}
        self.mutants = {it.name: mutants.mutants_of(top, it.name) for it in self.crates}
        self.links = {it: links.links_in(top, it) for it in documents(top)}
        self.carried = self.carried_of()

    def text(self, path: str) -> str:
        whole = os.path.join(self.top, path)
        return text_of(whole) if os.path.isfile(whole) else ""

    def texts(self, crate: Crate, folder: str, ends: str) -> dict[str, str]:
        return {it: self.text(it) for it in files_below(self.top, f"{crate.folder()}/{folder}", (ends,))}

    def items_of(self, crate: Crate) -> list[Item]:
        found = [it for path, text in self.sources[crate.name].items() for it in items_of_code(crate.name, path, text)]
        below = {**self.specs[crate.name], **self.proofs[crate.name]}
        return found + [it for path, text in below.items() for it in items_of_antt(crate.name, path, text)]

    def reach_of(self) -> Reach:
        texts = {path: text for found in (self.sources, self.specs) for of_crate in found.values() for path, text in of_crate.items()}
        return Reach((it for found in self.items.values() for it in found), {path: imports_of(text) for path, text in texts.items()})

    def claims_of(self, crate: Crate) -> Claims:
        return claims_of(crate.readme(), self.text(crate.readme()))

    def carried_of(self) -> Optional[Carried]:
        items = [it for found in self.items.values() for it in found]
        text = self.text(carried.DATA)
        return Carried(text, Naming(items, [], self.reach)) if text else None

    def naming_of(self, crate: Crate) -> Naming:
        return Naming(self.items[crate.name], [it for name in crate.below for it in self.items[name]], self.reach)

    def written(self) -> list[Written]:
        mapped = [it for it in self.crates if os.path.isfile(os.path.join(self.top, proof_map.path_of(it)))]
        maps = [proof_map.page_of(it, self.proofs[it.name]) for it in mapped]
        tables = [tried.page_of(self.top, self.crates)] if os.path.isfile(os.path.join(self.top, tried.DATA)) else []
        theorems = [self.carried.page()] if self.carried else []
        namings = {it.name: self.naming_of(it) for it in self.crates}
        return [pages.clauses_page(self.crates, self.claims, namings), pages.definitions_page(self.crates, self.pages), *theorems, *maps, *tables]

    def write(self) -> None:
        for it in self.written():
            if not proof_map.is_as_written(it, self.text(it.path)):
                write(os.path.join(self.top, it.path), it.text)

    def has_to_claim(self, crate: Crate) -> bool:
        return bool(self.mutants[crate.name]) or any(it.definitions for it in self.pages[crate.name])

    def faults_of_pages(self) -> Iterator[Fault]:
        for page in self.written():
            there = self.text(page.path)
            if not proof_map.is_as_written(page, there):
                same = sum(1 for _ in common_lines(there, page.text))
                yield Fault(page.path, same + 1, "isn't what scripts/claims --write writes")

    def faults_of_crate(self, crate: Crate) -> Iterator[Fault]:
        claims = self.claims[crate.name]
        yield from mutants.faults_of_names(self.mutants[crate.name])
        if claims.line is None:
            if self.has_to_claim(crate):
                yield Fault(crate.readme(), 1, "there is no section '## Claims', though the crate has mutants or definitions")
            return
        yield from claims.faults
        naming = self.naming_of(crate)
        for claim in claims.claims:
            yield from naming.faults(crate.readme(), claim)
        yield from mutants.faults_of_claims(crate, claims, self.mutants)

    def other_names(self, items: list[Item]) -> set[str]:
        """Names that aren't items: clauses, mutants, crates, libraries and what comes of these, scripts."""
        clauses = {name for it in items for name in [*it.clauses, *it.premises]}
        edits = {name for crate, found in self.mutants.items() for it in map(mutants.name_of, found) for name in (it, f"{crate}/{it}")}
        imported = {name for it in self.reach.imports.values() for name in it.names}
        scripts = {os.path.basename(it) for it in files_below(self.top, "scripts", ("",))}
        return clauses | edits | imported | scripts | set(self.items) | libraries_of(self.top)

    def names_in_documents(self) -> set[str]:
        """The last words of all code spans."""
        return {segments_of(span.text)[-1] for it in self.links for span in spans_of(self.text(it))}

    def faults_of_lemmas(self) -> Iterator[Fault]:
        texts = {file: text for found in (self.sources, self.specs, self.proofs) for of_crate in found.values() for file, text in of_crate.items()}
        named_below = {name: {*libraries} for name, libraries in crate_lines(self.top)}
        exported = {it.name: exported_by(self.proofs[it.name].get(f"{it.folder()}/proofs/Lib.antt", "")) for it in self.crates}
        lemmas = Lemmas(self.items, named_below, exported, texts)
        named = self.names_in_documents()
        for crate in self.crates:
            yield from lemmas.faults(crate, named)

    def faults_of_library_names(self) -> Iterator[Fault]:
        named = dict(crate_lines(self.top))
        for crate in self.crates:
            yield from library_names.faults_of(self.sources[crate.name], crate.below.union(named[crate.name]))

    def faults_of_theorems(self) -> Iterator[Fault]:
        if self.carried:
            yield from self.carried.faults(self.text(carried.THEOREMS), self.mutants_at_claims())

    def mutants_at_claims(self) -> set[str]:
        """The mutants that stand at claims, each with its crate."""
        parts = [(name, claim.parts["Mutants"]) for name, it in self.claims.items() for claim in it.claims if "Mutants" in claim.parts]
        return {span.text if "/" in span.text else f"{name}/{span.text}" for name, part in parts for span in part.spans()}

    def faults_of_documents(self) -> Iterator[Fault]:
        items = [it for found in self.items.values() for it in found]
        sources = "\n".join(text for found in self.sources.values() for text in found.values())
        naming = Naming(items, [], self.reach)
        mentions = Mentions(self.top, naming.all, self.other_names(items), sources)
        for document, found in self.links.items():
            text = self.text(document)
            yield from links.faults_of(self.top, document, found)
            yield from columns.faults_of(document, text)
            if is_checked(document):
                written = written_by(document, text)
                yield from mentions.faults(document, [it for it in spans_of(text) if it.text not in written])
            if document in DOCUMENTS:
                yield from pairs.faults_of(document, text, naming)

    def faults(self) -> list[Fault]:
        found = [it for crate in self.crates for it in self.faults_of_crate(crate)]
        of_tried = tried.faults_of(self.top, self.crates)
        of_names = {*self.faults_of_library_names(), *self.faults_of_lemmas()}
        return sorted({*self.faults_of_pages(), *found, *of_names, *self.faults_of_documents(), *self.faults_of_theorems(), *of_tried})

    def notes(self) -> list[str]:
        """What is no fault, and a reader should know."""
        folders, old = len(tried.folders_of(self.top, self.crates)), len(tried.stale(self.top, self.crates))
        return [f"note: {old} of {folders} folders of mutants were last tried over other sources ({tried.PAGE})"] if old else []

    def counts(self) -> str:
        claims = sum(len(it.claims) for it in self.claims.values())
        definitions = sum(len(page.definitions) for found in self.pages.values() for page in found)
        relative = sum(links.is_counted(link) for found in self.links.values() for link in found)
        edits = sum(map(len, self.mutants.values()))
        return f"{claims} claims, {definitions} definitions, {edits} mutants, {relative} links"


def common_lines(one: str, other: str) -> Iterator[str]:
    """The lines with which both begin."""
    for mine, its in zip(one.splitlines(), other.splitlines()):
        if mine != its:
            return
        yield mine
