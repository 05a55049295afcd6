"""Whether each lemma is used, stands once (not also in a crate below), and is `pub` for another file alone."""

from __future__ import annotations

import os
import re
from collections import Counter, defaultdict
from typing import Iterable, Iterator, Mapping

from .items import LEMMA, Item
from .places import Crate, Fault

TOKEN = re.compile(r"[^\s(){},.;\[\]]+|[(){},.;\[\]]")
WORD = re.compile(r"[^\s(){},.;\[\]]+")
EXPORTS = re.compile(r"^pub mod (\w+)$", re.MULTILINE)
IS_COMMENT = re.compile(r"\s*(--|//)")
# names that a type binds, `(a b : ℕ)` or `{A : Type 0}`, and those of a function, `λ x y.`
BINDERS = re.compile(r"[({]([^():{}]+?) : |λ ([^.()]+?)\.")
# a set of lemmas, whose members are as public as it is
RULESET = re.compile(r"^pub ruleset \S+ =\s*\(([^)]*)\)", re.MULTILINE)
# files whose lemmas answer goals, which the prover looks up by their names
ANSWERS = {"Answers.antt", "Invariants.antt", "Lib.antt"}
# a statement of fewer tokens is too short to look for
FEWEST = 12


def column_of(line: str) -> int:
    return len(line) - len(line.lstrip())


def lemmas_of(items: Iterable[Item]) -> list[Item]:
    return [it for it in items if it.kind == LEMMA and "/proofs/" in it.file and os.path.basename(it.file) not in ANSWERS]


def type_of(lemma: Item) -> str:
    """What a lemma says: its text up to its first case."""
    lines = lemma.text.split("\n")
    cases = (number for number, it in enumerate(lines) if number and it.strip() and column_of(it) <= column_of(lines[0]))
    return " ".join(lines[: next(cases, len(lines))]).partition(" : ")[2]


def own_text(lemma: Item) -> str:
    """Its text without cases of others: a lemma may be stated first and proved further below."""
    lines = lemma.text.split("\n")
    at_its_column = [number for number, it in enumerate(lines) if number and it.strip() and column_of(it) == column_of(lines[0])]
    others = (number for number in at_its_column if WORD.findall(lines[number])[:1] not in ([], [lemma.name]))
    return "\n".join(lines[: next(others, len(lines))])


def words_of(text: str) -> list[str]:
    """The words of a file's code."""
    code = (line for line in text.splitlines() if not IS_COMMENT.match(line))
    return [it for line in code for it in WORD.findall(line.replace("::", " "))]


def statement_of(lemma: Item) -> tuple[str, ...]:
    """What a lemma says, where names that it binds are numbered: the same for two that differ in these alone."""
    text = type_of(lemma)
    bound = {name for one, other in BINDERS.findall(text) for name in (one or other).split()}
    numbers = {name: f"#{number}" for number, name in enumerate(dict.fromkeys(it for it in TOKEN.findall(text) if it in bound))}
    return tuple(numbers.get(it, it) for it in TOKEN.findall(text))


def is_in_module(lemma: Item) -> bool:
    """Whether the lemma may speak of what a module around it is given."""
    return lemma.text.startswith(" ")


def exported_by(text: str) -> set[str]:
    """The modules that a crate's proofs/Lib.antt gives to other crates."""
    return set(EXPORTS.findall(text))


class Lemmas:
    """The lemmas of all crates, and how often each word stands in their code."""

    def __init__(self, items: dict[str, list[Item]], named_below: dict[str, set[str]], exported: dict[str, set[str]], texts: Mapping[str, str]) -> None:
        self.of_crates = {crate: lemmas_of(found) for crate, found in items.items()}
        # (a crate can cite lemmas of the crates that crates.txt names for it, from modules that these give on)
        self.named_below, self.exported = named_below, exported
        words = {file: words_of(text) for file, text in texts.items()}
        self.words = Counter(it for found in words.values() for it in found)
        self.files = Counter(it for found in words.values() for it in {*found})
        self.in_rulesets = {it for text in texts.values() for members in RULESET.findall(text) for it in WORD.findall(members)}
        self.stating: dict[tuple[str, ...], list[tuple[str, Item]]] = defaultdict(list)
        for crate, found in self.of_crates.items():
            for it in found:
                self.stating[statement_of(it)].append((crate, it))

    def is_used(self, lemma: Item) -> bool:
        return self.words[lemma.name] > WORD.findall(own_text(lemma)).count(lemma.name)

    def is_needlessly_pub(self, lemma: Item) -> bool:
        # (one in a module has its text indented)
        return lemma.text.startswith("pub ") and self.files[lemma.name] == 1 and lemma.name not in self.in_rulesets

    def can_cite(self, crate: Crate, other: str, lemma: Item) -> bool:
        module = lemma.file.removeprefix(f"crates/{other}/proofs/").removesuffix(".antt").split("/")[0]
        return other in self.named_below[crate.name] and module in self.exported[other]

    def faults(self, crate: Crate, named: set[str]) -> Iterator[Fault]:
        """Lemmas that nothing uses, except for those that documents name, those that are `pub` for nobody, and those that stand twice."""
        for it in self.of_crates[crate.name]:
            if not self.is_used(it) and it.name not in named:
                yield Fault(it.file, 1, f"nothing uses the lemma `{it.name}`")
            elif self.is_needlessly_pub(it):
                yield Fault(it.file, 1, f"the lemma `{it.name}` is pub, and no other file uses it")
            statement = statement_of(it)
            if len(statement) < FEWEST or is_in_module(it):
                continue
            for other, same in self.stating[statement]:
                first = self.can_cite(crate, other, same) or (other == crate.name and (same.file, same.name) < (it.file, it.name))
                if first and not is_in_module(same):
                    yield Fault(it.file, 1, f"`{it.name}` says what `{same.name}` of {same.file} says")
