"""The small repository of the self-test, and its faults."""

from __future__ import annotations

import os
import tempfile
from typing import NamedTuple

from .carried import PAGE as CARRIED_PAGE
from .pages import CLAUSES
from .places import text_of, write
from .tried import PAGE as MUTANTS
from .whole import Whole

FILES = {
    "crates.txt": "post:\noffice: post\n",
    "check": "#!/bin/sh\n",
    "scripts/claims": "#!/bin/sh\n",
    "README.md": (
        "# Sample\n\n"
        "A [crate](crates/post), its [claims](crates/post/README.md#claims) and [a term][letter].\n"
        "`Inbox::accept` stands in `crates/post/src/inbox.rt`.\n\n"
        "```text\n[no link](nowhere.md) and `nothing::named`\n```\n\n"
        "[letter]: docs/GLOSSARY.md#a-letter-1\n"
    ),
    "docs/TESTING.md": "# Testing\n\n## Mutants\n",
    "docs/GLOSSARY.md": "# Glossary\n\n## A letter\n\n## A `letter`\n",
    "docs/THEOREMS.md": "# Theorems\n\n## 1. Letters\n\n`IsInbox` holds of each inbox, by `Inbox::accept`: `ok` (`after_arrival`).\n",
    "docs/reference/CARRIED.md": "",
    "scripts/theorems.carried": (
        "## 1. Letters\n\n"
        "- **A letter counts.**\n  Clauses: `post::Inbox::accept`: `ok` (`after_arrival`).\n  Mutants: `post/accepts_a_gap`.\n"
    ),
    "docs/TUTORIAL.md": "# Tutorial\n\nWrite `tour/letter.rank`:\n\n```\nprint 1\n```\n\nThen run `tour/letter.rank`.\n",
    "crates/post/README.md": (
        "# post\n\n## Claims\n\n"
        "- **A letter is accepted if and only if its number is the next.**\n"
        "  Clauses: `Inbox::accept`: `answer`, `ok` (`after_arrival`); type `Inbox`\n"
        "  (`IsInbox`, `count`).\n"
        "  Mutants: `accepts_a_gap`, `accepts_a_repeat`.\n"
        "  Limit: nothing is claimed of when one arrives.\n\n"
        "`./check` tries the mutants.\n"
    ),
    "crates/post/src/inbox.rt": (
        "//! The inbox.\n"
        "ghost use Rattle.post.specs.Inbox.{after_arrival};\n\n"
        "pub struct Inbox {\n    count: u32,\n}\n\n"
        "impl Model for Inbox {\n    ghost use Rattle.post.specs.Inbox.{IsInbox};\n\n"
        "    ghost invariant = { λ b. IsInbox b };\n}\n\n"
        "impl Inbox {\n    /// Takes in a letter.\n    pub fn accept(&mut self, number: u32) -> bool\n"
        "        ensures answer { result ≡ true }\n        ensures ok { self.new ≡ after_arrival self.old number }\n"
        "    {\n        true\n    }\n\n"
        "    pub fn refuse(&mut self)\n        ensures back { self.new ≡ self.old }\n    {\n    }\n}\n"
    ),
    "crates/post/specs/Inbox.antt": (
        "-- The inbox as contracts see it.\nuse Rattle.std.specs.Prelude.{ℕ}\n\n"
        "-- the letters are counted\npub record IsInbox\n    (b : ℕ) : Type 0 where\n  pub count : b ≡ b\n\n"
        "-- the inbox after a letter\nabbrev pub after_arrival : ℕ → ℕ → ℕ\nafter_arrival b n = n\n\n"
        "-- the inbox without letters\nabbrev pub empty : ℕ\nempty = 0\n"
    ),
    "crates/post/proofs/Letters.antt": (
        "-- Letters are counted.\nuse Rattle.std.proofs.Common.{◌≡◌, ℕ, ◌+◌, refl}\n\n"
        "-- none is counted twice\npub counted : (n m : ℕ) → n ≡ m → n + 1 ≡ m + 1\ncounted n m e = rw e refl\n"
    ),
    "crates/post/proofs/Lib.antt": "pub mod Letters\n",
    "crates/post/proofs/README.md": "",
    "crates/office/proofs/Opening.antt": (
        "-- An office is open.\nuse Rattle.post.proofs.Letters.{counted}\n\n"
        "-- so from letter to letter\npub stays : (k : ℕ) → k ≡ k → k + 1 + 1 ≡ k + 1 + 1\nstays k e = counted (k + 1) (k + 1) (counted k k e)\n"
    ),
    "crates/office/proofs/open/Answers.antt": "pub returns-clause-0 = stays\n",
    "crates/post/must-fail/accepts_a_gap.edit": "file: src/inbox.rt\nold: true\nnew: false\n",
    "crates/post/wrong/letters/accepts_a_repeat.edit": "file: src/inbox.rt\nold: true\nnew: false\n",
    "scripts/mutants.tried": "# rows\npost/letters 1234567 changed\n  answer accepts_a_repeat\n",
    "crates/office/README.md": (
        "# office\n\n## Claims\n\n"
        "- **An office opens with an empty inbox.**\n  Clauses: `open` (`empty`).\n  Mutants: `post/accepts_a_gap`.\n"
    ),
    "crates/office/src/lib.rt": (
        "//! The office.\nghost use Rattle.post.specs.Inbox.{empty};\n\n"
        "pub fn open() -> Inbox\n    ensures { result ≡ empty }\n{\n    Inbox::new()\n}\n"
    ),
}


class Case(NamedTuple):
    """An edit of the sample, and the fault that has to be found: in which file, and a part of its text."""

    name: str
    file: str
    old: str
    new: str
    where: str
    fault: str


POST = "crates/post/README.md"
OFFICE = "crates/office/README.md"
OFFICE_CODE = "crates/office/src/lib.rt"
WRONG = "crates/post/wrong"
README = "README.md"
GLOSSARY = "docs/GLOSSARY.md"
THEOREMS = "docs/THEOREMS.md"
TUTORIAL = "docs/TUTORIAL.md"
LETTERS = "crates/post/proofs/Letters.antt"
MAP = "crates/post/proofs/README.md"
TRIED = "scripts/mutants.tried"
CARRIED = "scripts/theorems.carried"
OPENING = "crates/office/proofs/Opening.antt"
SAME_AS_BELOW = "(i j : ℕ) → i ≡ j → i + 1 ≡ j + 1"
CASES = (
    Case("a function that isn't there", POST, "`Inbox::accept`", "`Inbox::admit`", POST, "`Inbox::admit` names no function"),
    Case("a function of another type", POST, "`Inbox::accept`", "`Outbox::accept`", POST, "`Outbox::accept` names no function"),
    Case("a clause that isn't there", POST, "`answer`", "`reply`", POST, "`reply` is no clause of `Inbox::accept`"),
    Case("a clause of another function", POST, "`answer`", "`back`", POST, "`back` is no clause of `Inbox::accept`"),
    Case("a definition that isn't there", POST, "`after_arrival`", "`after_departure`", POST, "`after_departure` names nothing"),
    Case("a definition that the clauses don't apply", POST, "`after_arrival`", "`empty`", POST, "`empty` isn't applied"),
    Case("a type that is none", POST, "type `Inbox`", "type `IsInbox`", POST, "`IsInbox` names no type"),
    Case("a field that isn't there", POST, "`count`", "`sum`", POST, "`sum` names nothing"),
    Case("a name of a crate above", POST, "`Inbox::accept`: `answer`, `ok` (`after_arrival`)", "`open`", POST, "`open` names no function"),
    Case("a claim without clauses", POST, "  Clauses: ", "  Causes: ", POST, "has no 'Clauses:'"),
    Case("a claim that isn't bold", POST, "- **A letter", "- A letter", POST, "one sentence in bold"),
    Case("a mutant that isn't there", POST, "`accepts_a_repeat`", "`accepts_all`", POST, "`accepts_all` names no mutant of post"),
    Case("a mutant of another crate that isn't there", OFFICE, "post/accepts", "post/takes", OFFICE, "names no mutant of post"),
    Case("a mutant that no claim names", POST, ", `accepts_a_repeat`", "", f"{WRONG}/letters/accepts_a_repeat.edit", "names this mutant"),
    Case("two mutants of one name", f"{WRONG}/accepts_a_gap.edit", "", "", f"{WRONG}/accepts_a_gap.edit", "has the same name"),
    Case("a crate without claims", POST, "## Claims", "## Other claims", POST, "no section '## Claims'"),
    Case("a link to nothing", README, "(crates/post)", "(crates/mail)", README, "crates/mail leads to nothing"),
    Case("a link out of the repository", README, "(crates/post)", "(../elsewhere)", README, "leads out of the repository"),
    Case("an anchor that is no heading", README, "#claims", "#promises", README, "#promises is no heading"),
    Case("an anchor of a second heading that is gone", GLOSSARY, "## A `letter`", "## Mail", README, "#a-letter-1 is no heading"),
    Case("a reference that isn't defined", README, "[a term][letter]", "[a term][mail]", README, "isn't defined"),
    Case("a path that isn't there", README, "src/inbox.rt`", "src/outbox.rt`", README, "there is no crates/post/src/outbox.rt"),
    Case("a name that the code doesn't have", README, "`Inbox::accept`", "`Inbox::admit`", README, "`Inbox::admit` names nothing"),
    Case("a definition that the code doesn't have", THEOREMS, "`IsInbox`", "`IsOutbox`", THEOREMS, "`IsOutbox` names nothing"),
    Case("a lemma that the code doesn't have", THEOREMS, "`IsInbox`", "`law_of_inboxes`", THEOREMS, "`law_of_inboxes` names nothing"),
    Case("a path of a crate that isn't there", POST, "`./check`", "`specs/Outbox.antt`", POST, "there is no specs/Outbox.antt"),
    Case("a file that the tutorial doesn't write", TUTORIAL, "run `tour/letter.rank`", "run `tour/mail.rank`", TUTORIAL, "there is no tour/mail.rank"),
    Case("a clause of another function in a document", THEOREMS, "`ok`", "`back`", THEOREMS, "`back` is no clause of `Inbox::accept`"),
    Case("a module with the name of a library", OFFICE_CODE, "pub fn open", "mod post;\n\npub fn open", OFFICE_CODE, "post is the name of a library"),
    Case("a long line", README, "stands in", "stands in" + " as you see" * 5, README, "columns, more than 100"),
    Case("a long line in a fenced block", README, "[no link]", "[no link]" + " as you see" * 9, README, "columns, more than 120"),
    Case("a lemma that nothing uses", "crates/office/proofs/open/Answers.antt", "stays", "holds", OPENING, "nothing uses the lemma `stays`"),
    Case("a lemma that is pub for nobody", LETTERS, "e refl\n", "e (same n)\n\npub same : (n : ℕ) → n ≡ n\nsame n = refl\n", LETTERS, "`same` is pub, and"),
    Case("a lemma that stands below", OPENING, "(k : ℕ) → k ≡ k → k + 1 + 1 ≡ k + 1 + 1", SAME_AS_BELOW, OPENING, "`stays` says what `counted` of"),
    Case("a map of lemmas that isn't up to date", MAP, "Letters", "Mail", MAP, "isn't what scripts/claims --write writes"),
    Case("a folder of mutants without a row", TRIED, "post/letters", "post/stamps", TRIED, "`post/letters` has mutants and no row"),
    Case("a row of mutants that aren't there", TRIED, "answer accepts_a_repeat", "answer accepts_all", TRIED, "`accepts_all` is no mutant of"),
    Case("a table of mutants that isn't up to date", MUTANTS, "| 1 | 0 | 1 |", "| 1 | 1 | 0 |", MUTANTS, "isn't what scripts/claims --write writes"),
    Case("a clause that carries no theorem", CARRIED, "`ok`", "`back`", CARRIED, "`back` is no clause of `post::Inbox::accept`"),
    Case("a definition that carries no theorem", CARRIED, "after_arrival", "empty", CARRIED, "`empty` isn't applied"),
    Case("a mutant of a theorem at no claim", CARRIED, "accepts_a_gap", "accepts_all", CARRIED, "is no mutant at a claim"),
    Case("a theorem that nothing carries", THEOREMS, "1. Letters", "1. Mail", CARRIED, "the headings aren't those of docs/THEOREMS.md"),
    Case("a link of a clause to another file", CLAUSES, "post/src/inbox.rt", "post/src/lib.rt", CLAUSES, "isn't what scripts/claims --write writes"),
    Case("a page of theorems that isn't up to date", CARRIED_PAGE, "Inbox", "Outbox", CARRIED_PAGE, "isn't what scripts/claims --write writes"),
    Case("a page that isn't up to date", CLAUSES, "post", "mail", CLAUSES, "isn't what scripts/claims --write writes"),
)


def made_in(top: str) -> None:
    for path, text in FILES.items():
        write(os.path.join(top, path), text)
    Whole(top).write()


def edit(top: str, case: Case) -> None:
    """Makes the edit; the pages follow it unless it is of one of them."""
    path = os.path.join(top, case.file)
    text = text_of(path) if os.path.isfile(path) else ""
    if case.old not in text:
        raise ValueError(f"{case.name}: {case.file} has no {case.old!r}")
    write(path, text.replace(case.old, case.new, 1))
    if case.file not in (CLAUSES, CARRIED_PAGE, MAP, MUTANTS):
        Whole(top).write()


def is_found(case: Case) -> bool:
    """Whether the fault is found; if it isn't, what was found is printed."""
    with tempfile.TemporaryDirectory(prefix="claims.") as top:
        made_in(top)
        edit(top, case)
        faults = Whole(top).faults()
    found = [it for it in faults if it.path == case.where and case.fault in it.text]
    print(f"{case.name}: {'found' if found else 'NOT FOUND'}")
    for it in faults if not found else []:
        print(f"    found: {it.as_line()}")
    return bool(found)


def is_sound() -> bool:
    """Whether the sample itself has no faults."""
    with tempfile.TemporaryDirectory(prefix="claims.") as top:
        made_in(top)
        faults = Whole(top).faults()
    print(f"a repository without faults: {'none found' if not faults else 'FOUND ' + str(len(faults))}")
    for it in faults:
        print(f"    found: {it.as_line()}")
    return not faults


def is_each_fault_found() -> bool:
    found = [is_sound(), *map(is_found, CASES)]
    print(f"{sum(found)} of {len(found)} cases")
    return all(found)
