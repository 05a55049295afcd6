"""Which definitions a contract applies, and these in turn: each name as the imports of its file say."""

from __future__ import annotations

import re
from typing import Iterable, Iterator, Mapping, NamedTuple, Optional

from .items import CONSTANT, DEFINITION, FUNCTION, LEMMA, MEMBER, MODULE, TRAIT, TYPE, Item

IMPORT = re.compile(r"^\s*(?:pub |ghost )*use (Rattle\.[^\s;{]+?)(?:\.\{([^}]*)\}|(?: as ([^\s;]+))?);?\s*$")
# a name, behind a dot or not; in ◌then◌ what stands between the places for operands is a name too
NAME = re.compile(r"(\.?)([^\s(){}\[\],;.`\":]+)")
IS_CAPITALIZED = re.compile(r"[A-Z]\w*")


class Imports(NamedTuple):
    """What the names of a file mean: names of modules, and modules by their short names."""

    names: Mapping[str, tuple[str, str]]
    modules: Mapping[str, str]


NONE = Imports({}, {})


def imports_of(text: str) -> Imports:
    names: dict[str, tuple[str, str]] = {}
    modules: dict[str, str] = {}
    for line in text.splitlines():
        found = IMPORT.match(line)
        if not found:
            continue
        module, listed, short = found.groups()
        for it in listed.split(",") if listed else []:
            name, _, here = it.strip().partition(" as ")
            names[(here or name).strip("◌")] = (module, name)
        if listed is None:
            modules[short or module.split(".")[-1]] = module
    return Imports(names, modules)


def module_of_file(path: str) -> str:
    """The module of crates/NAME/specs/A.antt."""
    return ".".join(["Rattle", *path.removesuffix(".antt").split("/")[1:]])


def modules_of(item: Item) -> Iterator[str]:
    """The modules from which an import takes an item."""
    crate, *within = item.within or ("",)
    declared = ".".join(["Rattle", crate, "specs.declared", *within])
    if item.kind == MODULE:
        return
    if item.file.endswith(".antt"):
        yield module_of_file(item.file)
    elif item.kind == MEMBER:
        yield f"{declared}.TheVariants"
    elif item.kind in (TYPE, TRAIT):
        yield f"{declared}.{item.name}"


def types_around(item: Item) -> list[str]:
    """The type or trait in which an item of code stands; for one of a trait's impl both."""
    return [it for it in item.within[-2:] if IS_CAPITALIZED.fullmatch(it)]


class Reach:
    """The items of some crates, with the imports of their files."""

    def __init__(self, items: Iterable[Item], imports: Mapping[str, Imports]) -> None:
        self.imports = imports
        self.placed: dict[tuple[str, str], list[Item]] = {}
        # types and traits, which code names without the imports that are read here
        self.types: dict[str, list[Item]] = {}
        # what is written of a type beside itself: its model, its invariant
        self.of_type: dict[str, list[Item]] = {}
        for it in items:
            for module in modules_of(it):
                self.placed.setdefault((module, it.name), []).append(it)
            if it.kind in (TYPE, TRAIT, CONSTANT) and it.text:
                self.types.setdefault(it.name, []).append(it)
            if it.kind == MEMBER and it.text:
                for outer in types_around(it):
                    self.of_type.setdefault(outer, []).append(it)
        self.known: dict[tuple[str, str], list[Item]] = {}

    def imported(self, module: str, name: str, depth: int = 0) -> list[Item]:
        """The items of this name in a module, or in one that it gives on."""
        found = self.placed.get((module, name)) or self.placed.get((module, f"◌{name}◌"))
        if found or depth > 3:
            return found or []
        within, _, last = module.rpartition(".")
        given_on = self.imports_in(f"{within}.Lib").modules.get(last)
        further = (given_on, name) if given_on else self.imports_in(module).names.get(name)
        return self.imported(*further, depth + 1) if further else []

    def imports_in(self, module: str) -> Imports:
        return self.imports.get("crates/" + "/".join(module.split(".")[1:]) + ".antt", NONE)

    def meant(self, file: str, name: str) -> list[Item]:
        """What a name of a file means."""
        imports = self.imports.get(file)
        if imports is None:
            return []
        found = self.imported(*imports.names[name]) if name in imports.names else []
        if not found and file.endswith(".antt"):
            found = self.imported(module_of_file(file), name)
        if not found and file.endswith(".rt") and IS_CAPITALIZED.fullmatch(name):
            found = self.types.get(name, [])
        return found

    def applied(self, file: str, text: str) -> list[Item]:
        """The items that a text of a file applies: names of its own, and those of modules that it names shortly. Fields are passed over."""
        if (file, text) not in self.known:
            self.known[(file, text)] = list(self.applied_in(file, text))
        return self.known[(file, text)]

    def applied_in(self, file: str, text: str) -> Iterator[Item]:
        module: Optional[str] = None
        modules = self.imports.get(file, NONE).modules
        for dot, name in NAME.findall(text):
            if dot and module:
                yield from self.imported(module, name)
            elif not dot:
                yield from self.meant(file, name)
            module = modules.get(name) if not dot else None

    def texts_of(self, item: Item) -> Iterator[tuple[str, str]]:
        """What is written of an item, each text with its file."""
        if item.kind in (DEFINITION, LEMMA, TYPE, TRAIT, FUNCTION, MEMBER) and item.text:
            yield item.file, item.text
        if item.kind in (TYPE, TRAIT):
            yield from ((it.file, it.text) for it in self.of_type.get(item.name, []))

    def reached(self, texts: Iterable[tuple[str, str]]) -> list[Item]:
        """All that these texts of files apply, with what that applies in turn."""
        found: dict[int, Item] = {}
        waiting = list(texts)
        while waiting:
            for it in self.applied(*waiting.pop()):
                if id(it) not in found:
                    found[id(it)] = it
                    waiting += self.texts_of(it)
        return list(found.values())
