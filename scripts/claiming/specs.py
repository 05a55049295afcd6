"""The items of an .antt file, and the sentences above definitions."""

from __future__ import annotations

import re
from typing import NamedTuple

from .items import DEFINITION, LEMMA, MEMBER, Item

COMMENT = re.compile(r"^( *)--(?: (.*))?$")
BEGINS = re.compile(r"^( *)((?:(?:pub|abbrev|unfoldable|unfolding|record|data) )*)([^\s:(){}]+)(?= |$)(.*)$")
OPERATORS = ("infixr", "infixl", "infix")
NO_NAMES = {"use", "mod", "module", "open", "where", "let", "in", "do", "if", "then", "else", "record", "data", *OPERATORS}
REEXPORT = re.compile(r"^( *)pub use (\S+)\.\{([^}]*)\}")
# a line that begins with names and then a type, as a field or a constructor
NAMES_MEMBERS = re.compile(r"^ *(?:pub )?([^\s:(){}\[\]=]+(?: [^\s:(){}\[\]=]+)*) : ")


class Definition(NamedTuple):
    """A public definition, or a member of one, and what the lines above it say."""

    line: int
    name: str
    sentence: str
    members: tuple["Definition", ...] = ()


class Page(NamedTuple):
    """A file of definitions, and what its head says: paragraphs."""

    path: str
    head: tuple[str, ...]
    definitions: tuple[Definition, ...]


def paragraphs_of(lines: list[str]) -> tuple[str, ...]:
    return tuple(" ".join(it.split()) for it in "\n".join(lines).split("\n\n") if it.strip())


def head_of(lines: list[str]) -> tuple[str, ...]:
    """The comment with which a file begins, unless it stands above a definition."""
    found = []
    for line in lines:
        comment = COMMENT.match(line)
        if not comment:
            return paragraphs_of(found) if not line.strip() or line.startswith(("use ", "pub use ", "open ")) else ()
        found.append(comment.group(2) or "")
    return paragraphs_of(found)


def sentences_above(lines: list[str]) -> dict[int, str]:
    """What the comment right above a line says, by the index of the line."""
    found: dict[int, str] = {}
    above: list[str] = []
    for number, line in enumerate(lines):
        comment = COMMENT.match(line)
        if comment:
            above.append(comment.group(2) or "")
        elif above and line.split(" ")[0] in OPERATORS:
            continue
        else:
            if above and line.strip():
                found[number] = " ".join(paragraphs_of(above))
            above = []
    return found


class Head(NamedTuple):
    """The line at which a definition begins."""

    number: int
    column: int
    modifiers: tuple[str, ...]
    name: str

    def is_public(self) -> bool:
        return "pub" in self.modifiers

    def has_members(self) -> bool:
        return "record" in self.modifiers or "data" in self.modifiers


def heads_of(lines: list[str]) -> list[Head]:
    """Where definitions begin: with a word such as `abbrev`, or with a name and a type, at the column of the file or of a module."""
    found, columns = [], [0]
    for number, line in enumerate(lines):
        if not line.strip() or COMMENT.match(line):
            continue
        column = len(line) - len(line.lstrip())
        columns = [it for it in columns if it <= column] or [0]
        if line.lstrip().startswith("module "):
            columns.append(column + 2)
            continue
        begins = BEGINS.match(line)
        if not begins or column not in columns or begins.group(3) in NO_NAMES:
            continue
        modifiers = tuple(begins.group(2).split())
        if modifiers or begins.group(4).startswith(" :"):
            found.append(Head(number, column, modifiers, begins.group(3)))
    return found


def last_of(lines: list[str], head: Head, heads: list[Head]) -> int:
    """The index behind the last line of a definition: where a comment at its column, another definition or a module begins."""
    later = [it.number for it in heads if it.number > head.number]
    for number in range(head.number + 1, later[0] if later else len(lines)):
        line = lines[number]
        comment = COMMENT.match(line)
        if comment and len(comment.group(1)) <= head.column or line.startswith(("module ", "use ", "pub use ", "pub mod ")):
            return number
    return later[0] if later else len(lines)


def members_of(lines: list[str], head: Head, last: int) -> list[Definition]:
    """The fields of a record, or the constructors of a `data`."""
    sentences, found, column = sentences_above(lines), [], None
    # (the head of a definition with many parameters goes on in lines below)
    begins = next((it for it in range(head.number, last) if lines[it].endswith(" where")), head.number)
    for number in range(begins + 1, last):
        line = lines[number]
        members = NAMES_MEMBERS.match(line)
        if not line.strip() or COMMENT.match(line):
            continue
        column = len(line) - len(line.lstrip()) if column is None else column
        if members and len(line) - len(line.lstrip()) == column:
            found += [Definition(number + 1, it, sentences.get(number, "")) for it in members.group(1).split()]
    return found


def reexports_of(lines: list[str], sentences: dict[int, str]) -> list[Definition]:
    """The definitions of other files that this one gives on, with a sentence of its own."""
    found = []
    for number, line in enumerate(lines):
        given_on = REEXPORT.match(line)
        if given_on:
            found += [Definition(number + 1, it.strip(), sentences.get(number, "")) for it in given_on.group(3).split(",")]
    return found


def page_of(path: str, text: str) -> Page:
    lines = text.splitlines()
    sentences, heads = sentences_above(lines), heads_of(lines)
    found = reexports_of(lines, sentences)
    for head in heads:
        if head.is_public():
            members = members_of(lines, head, last_of(lines, head, heads)) if head.has_members() else []
            found.append(Definition(head.number + 1, head.name, sentences.get(head.number, ""), tuple(members)))
    return Page(path, head_of(lines), tuple(sorted(found)))


def without_comments(lines: list[str]) -> str:
    return "\n".join(it for it in lines if not COMMENT.match(it))


def is_proposition(lines: list[str], head: Head) -> bool:
    """Whether the definition has no body that computes: a claim with its proof, as a lemma."""
    return not head.has_members() and "abbrev" not in head.modifiers and "unfoldable" not in head.modifiers


def items_of_antt(crate: str, path: str, text: str) -> list[Item]:
    """The items of crates/NAME/specs/A.antt, or of a file of proofs/."""
    lines = text.splitlines()
    within = (crate, *path.removesuffix(".antt").split("/")[2:])
    heads, found = heads_of(lines), [Item("module", within[:-1], within[-1])]
    for head in heads:
        last = last_of(lines, head, heads)
        body = without_comments(lines[head.number:last])
        kind = LEMMA if is_proposition(lines, head) else DEFINITION
        found.append(Item(kind, within, head.name, body))
        if "◌" in head.name:
            found.append(Item(kind, within, head.name.strip("◌"), body))
        if head.has_members():
            found += [Item(MEMBER, within + (head.name,), it.name) for it in members_of(lines, head, last)]
    return [it._replace(file=path) for it in found]
