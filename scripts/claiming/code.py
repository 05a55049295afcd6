"""The items of a .rt file."""

from __future__ import annotations

import re
from typing import Iterator, NamedTuple, Optional

from .items import CONSTANT, FUNCTION, MEMBER, MODULE, REEXPORT, TRAIT, TYPE, Item

SHOWN = r"(?:pub(?:\([a-z]+\))? )?"
BEGINS_FUNCTION = re.compile(rf"^( *){SHOWN}(?:const )?(?:unsafe )?(?:final )?fn ([A-Za-z_0-9]+)")
BEGINS_TYPE = re.compile(rf"^( *){SHOWN}(struct|enum|trait) ([A-Za-z_0-9]+)")
BEGINS_IMPL = re.compile(r"^( *)(?:unsafe )?impl\b(.*)$")
BEGINS_MODULE = re.compile(rf"^( *){SHOWN}mod ([a-z_0-9]+) \{{$")
NAMES_MODULE = re.compile(rf"^ *{SHOWN}mod ([a-z_0-9]+);")
NAMES_CONSTANT = re.compile(rf"^ *{SHOWN}(?:const|static) ([A-Z_0-9]+):")
NAMES_TYPE = re.compile(rf"^ *{SHOWN}type ([A-Za-z_0-9]+)")
CLAUSE = re.compile(r"\b(ensures|requires)(?: ([A-Za-z_0-9]+))? \{")
GHOST = re.compile(rf"^ *{SHOWN}ghost (?!use\b)([A-Za-z_0-9]+)(?::| =)")
FIELD = re.compile(rf"^ *{SHOWN}(?:ghost )?([a-z_][a-z_0-9]*): ")
VARIANT = re.compile(r"^ *([A-Z][A-Za-z_0-9]*)(?:,|\(| \{| =|$)")
GIVES_ON = re.compile(r"^pub use [a-z_0-9:]*?(?:\{([^}]*)\}|([A-Za-z_0-9]+));", re.MULTILINE)
DERIVED = re.compile(r"#\[derive\(([^)]*)\)\]")
DERIVED_CALLS = {
    "Clone": "clone",
    "Default": "default",
    "PartialEq": "eq",
    "PartialOrd": "partial_cmp",
    "Ord": "cmp",
    "Hash": "hash",
    "Debug": "fmt",
}


class Scope(NamedTuple):
    """An impl, a trait, a type or a module, with the column at which it closes."""

    column: int
    names: tuple[str, ...]
    # of a type or a trait: where its text is gathered
    lines: Optional[list[str]]


def without_comment(line: str) -> str:
    """The line without a comment; one behind a text with slashes in it stays."""
    place = line.find("//")
    return line if place < 0 or line.count('"', 0, place) % 2 else line[:place].rstrip()


def closing(text: str, place: int) -> int:
    """The place behind the brace that closes the one before this place."""
    depth = 1
    while depth and place < len(text):
        depth += {"{": 1, "}": -1}.get(text[place], 0)
        place += 1
    return place


def without_generics(text: str) -> str:
    before = None
    text = text.replace("->", "")
    while before != text:
        before, text = text, re.sub(r"<[^<>]*>", "", text)
    return text


def names_of_impl(header: str) -> tuple[str, ...]:
    """The type of an impl, and its trait if it has one."""
    bare = without_generics(header.split(" where")[0]).strip().rstrip("{").strip()
    parts = [it.strip().lstrip("&").removeprefix("mut ").split("::")[-1].strip() for it in bare.split(" for ")]
    return tuple(it for it in reversed(parts) if re.fullmatch(r"\w+", it))


def head_of_function(lines: list[str], first: int) -> list[str]:
    """The signature and the contract of the function that begins at this line."""
    column = len(lines[first]) - len(lines[first].lstrip())
    found, depth = [], 0
    for line in lines[first:]:
        if found and line.startswith(" " * column) and line[column:column + 1] in ("{", "}"):
            break
        found.append(line)
        depth += line.count("(") - line.count(")")
        in_contract = CLAUSE.search("\n".join(found)) is not None
        if not depth and line.endswith(";") or not depth and line.endswith("{") and not in_contract:
            break
    return found


def function_of(lines: list[str], first: int, within: tuple[str, ...], name: str) -> Item:
    text = "\n".join(head_of_function(lines, first))
    clauses: dict[str, str] = {}
    premises: dict[str, str] = {}
    for it in CLAUSE.finditer(text):
        said = text[it.end():closing(text, it.end()) - 1]
        named = clauses if it.group(1) == "ensures" else premises
        named[it.group(2) or ""] = said
    return Item(FUNCTION, within, name, text, clauses=clauses, premises=premises)


def modules_of(path: str) -> tuple[str, ...]:
    """The modules of crates/NAME/src/a/b.rt: a, b."""
    parts = path.removesuffix(".rt").split("/")[3:]
    return tuple(it for it in parts if it not in ("lib", "main"))


def members_of(line: str, scope: Scope) -> Iterator[str]:
    for form in (FIELD, VARIANT):
        found = form.match(line)
        if found and scope.lines is not None:
            yield found.group(1)
    # (the fields of a variant stand in its line)
    if scope.lines is not None and VARIANT.match(line):
        yield from re.findall(r"[{,] (?:ghost )?([a-z_][a-z_0-9]*): ", line)


class Reader:
    """Goes through the lines of a file and gathers its items."""

    def __init__(self, crate: str, path: str, text: str) -> None:
        self.lines = [without_comment(it) for it in text.splitlines()]
        self.file = (crate, *modules_of(path))
        self.scopes: list[Scope] = []
        self.items = [Item(MODULE, self.file[:-1], self.file[-1])]
        self.derived: list[str] = []

    def within(self) -> tuple[str, ...]:
        return self.file + tuple(name for scope in self.scopes for name in scope.names)

    def add(self, kind: str, name: str, text: str = "") -> None:
        self.items.append(Item(kind, self.within(), name, text))

    def open(self, column: int, names: tuple[str, ...], line: str, gathers: bool) -> None:
        if line.endswith(("}", ";")):
            return
        self.scopes.append(Scope(column, names, [line] if gathers else None))

    def close(self, line: str) -> None:
        """Closes the scope whose column this line closes, with the item of a type."""
        if not self.scopes or not re.match(" " * self.scopes[-1].column + r"[})]", line):
            return
        scope = self.scopes.pop()
        if scope.lines is not None:
            self.items = [it._replace(text=it.text + "\n".join(scope.lines)) if self.is_it(it, scope) else it for it in self.items]

    def is_it(self, item: Item, scope: Scope) -> bool:
        return item.kind in (TYPE, TRAIT) and item.name == scope.names[-1] and item.within == self.within()

    def take_type(self, found: re.Match[str], line: str) -> None:
        name = found.group(3)
        self.add(TRAIT if found.group(2) == "trait" else TYPE, name, line)
        self.items += [Item(TRAIT, self.within() + (name,), it) for it in self.derived]
        self.items += [Item(FUNCTION, self.within() + (name, it), DERIVED_CALLS[it]) for it in self.derived if it in DERIVED_CALLS]
        self.open(len(found.group(1)), (name,), line, True)

    def take_impl(self, number: int, found: re.Match[str]) -> None:
        header = found.group(2)
        while not header.endswith(("{", "}")) and number + 1 < len(self.lines):
            number += 1
            header += " " + self.lines[number].strip()
        names = names_of_impl(header)
        if len(names) > 1:
            self.items.append(Item(TRAIT, self.within() + names[:1], names[1]))
        self.open(len(found.group(1)), names, header, False)

    def take_ghost(self, number: int, name: str) -> None:
        """A ghost item, whose text goes to where the one behind it begins."""
        text = [self.lines[number]]
        for line in self.lines[number + 1:]:
            if not line.strip() or re.match(r" *\}", line) and len(line.strip()) < 3:
                break
            text.append(line)
        self.items.append(Item(MEMBER, self.within(), name, "\n".join(text)))

    def take_simple(self, line: str) -> bool:
        for form, kind in ((NAMES_MODULE, MODULE), (NAMES_CONSTANT, CONSTANT), (NAMES_TYPE, TYPE)):
            found = form.match(line)
            if found:
                self.add(kind, found.group(1), line)
                return True
        return False

    def take(self, number: int, line: str) -> None:
        derived = DERIVED.search(line)
        if derived:
            self.derived = [it.strip().split("::")[-1] for it in derived.group(1).split(",")]
            return
        function = BEGINS_FUNCTION.match(line)
        if function:
            self.items.append(function_of(self.lines, number, self.within(), function.group(2)))
        elif found := BEGINS_TYPE.match(line):
            self.take_type(found, line)
        elif found := BEGINS_IMPL.match(line):
            self.take_impl(number, found)
        elif found := BEGINS_MODULE.match(line):
            self.open(len(found.group(1)), (found.group(2),), line, False)
        elif found := GHOST.match(line):
            self.take_ghost(number, found.group(1))
            if self.scopes and self.scopes[-1].lines is not None:
                self.scopes[-1].lines.append(line)
        elif not self.take_simple(line) and self.scopes and self.scopes[-1].lines is not None:
            self.scopes[-1].lines.append(line)
            self.items += [Item(MEMBER, self.within(), it) for it in members_of(line, self.scopes[-1])]
        if line.strip() and not line.lstrip().startswith("#["):
            self.derived = []

    def read(self) -> list[Item]:
        for number, line in enumerate(self.lines):
            self.close(line)
            self.take(number, line)
        self.items += reexports_of(self.file, "\n".join(self.lines))
        return self.items


def reexports_of(within: tuple[str, ...], text: str) -> Iterator[Item]:
    for it in GIVES_ON.finditer(text):
        for name in re.findall(r"(\w+)\s*(?:,|$)", it.group(1) or it.group(2)):
            yield Item(REEXPORT, within, name)


def items_of_code(crate: str, path: str, text: str) -> list[Item]:
    return [it._replace(file=path) for it in Reader(crate, path, text).read()]
