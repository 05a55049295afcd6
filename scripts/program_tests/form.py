"""The form of the cases in tests/, which tests/README.md describes: from a text to its cases."""

from __future__ import annotations

import re
from collections.abc import Iterator
from dataclasses import dataclass, replace

from .case import HOWS, WITHOUT_TEXT, Case, Expected, File, Join, Keep, Run, Step

ESCAPE = re.compile(rb"\\(\\|n|t|r|x[0-9a-f]{2}|\n)")
PLAIN = {b"\\": b"\\", b"n": b"\n", b"t": b"\t", b"r": b"\r", b"\n": b""}


class BadForm(Exception):
    """A text isn't in the form of cases."""


@dataclass
class Section:
    """A line that begins with `=== `, and the lines below it."""

    line: int
    words: list[str]
    rest: str
    text: bytes
    is_escaped: bool = False

    def head(self, least: int, most: int) -> list[str]:
        """The words behind the first one, so many."""
        if not least <= len(self.words) - 1 <= most:
            raise BadForm(f"line {self.line}: `=== {self.words[0]}` has another number of words")
        return self.words[1:]

    def bare(self) -> None:
        """Has no text."""
        if self.text.strip():
            raise BadForm(f"line {self.line}: `=== {self.words[0]}` has no text below it")


def cases_of(path: str, text: bytes) -> list[Case]:
    """The cases of a text, by the place of each."""
    head, *sections = sections_of(text)
    title = " ".join(line.lstrip("# ") for line in head.text.decode().splitlines())
    if not title or not all(line.startswith(b"#") for line in head.text.splitlines() if line):
        raise BadForm("line 1: the first lines begin with `#` and say what the cases show")
    return list(Reader(path, title).cases(sections))


def sections_of(text: bytes) -> list[Section]:
    """What stands before the first section, and the sections."""
    found = [Section(0, [], "", b"")]
    for number, line in enumerate(text.splitlines(True), 1):
        if not line.startswith(b"=== "):
            found[-1].text += line
            continue
        rest = line[4:].decode().strip()
        is_escaped = rest.endswith(" escaped") and rest.split()[0] in ("file", "stdout", "stderr", "or")
        rest = rest.removesuffix(" escaped") if is_escaped else rest
        found.append(Section(number, rest.split() or [""], rest, b"", is_escaped))
    for it in found[1:]:
        it.text = unescaped(it.text) if it.is_escaped else it.text
    return found


def unescaped(text: bytes) -> bytes:
    """The text with the bytes that its escapes stand for."""
    return ESCAPE.sub(lambda it: PLAIN.get(it[1]) if it[1] in PLAIN else bytes([int(it[1][1:], 16)]), text)


class Reader:
    """Reads the sections of a file one behind another."""

    def __init__(self, path: str, title: str) -> None:
        self.path, self.title = path, title
        self.shared: list[Step] = []

    def cases(self, sections: list[Section]) -> Iterator[Case]:
        """The cases. Files before the first one are in all of them."""
        starts = [at for at, it in enumerate(sections) if it.words[0] in ("case", "table")]
        if not starts:
            yield self.case(1, self.title, steps_of(sections))
            return
        self.shared = steps_of(sections[: starts[0]])
        if any(isinstance(it, Run) for it in self.shared):
            raise BadForm(f"line {sections[0].line}: a run stands before the first case")
        for at, end in zip(starts, [*starts[1:], len(sections)]):
            first, rest = sections[at], sections[at + 1 : end]
            if first.words[0] == "table":
                yield from self.rows(first, rest)
            else:
                first.bare()
                yield self.case(first.line, first.rest[len("case") :].strip(), steps_of(rest))

    def case(self, line: int, title: str, steps: list[Step]) -> Case:
        if not title or not any(isinstance(it, Run) for it in steps):
            raise BadForm(f"line {line}: a case has a title and a run")
        return Case(f"{self.path}:{line}", title, self.shared + steps)

    def rows(self, table: Section, sections: list[Section]) -> Iterator[Case]:
        """A case for each row of a table."""
        table.bare()
        names = [it.strip() for it in table.rest[len("table") :].split("=>")]
        if not sections or sections[-1].words != ["rows"]:
            raise BadForm(f"line {table.line}: a table ends with its rows")
        form, rows, count = sections[:-1], sections[-1], 0
        for number, line in enumerate(rows.text.split(b"\n"), rows.line + 1):
            if not line.strip() or line.startswith(b"# "):
                continue
            cells = [it.strip() for it in line.split(b"=>")]
            if len(cells) != len(names):
                raise BadForm(f"line {number}: this row hasn't a cell for each of {', '.join(names)}")
            filled = [fill(it, dict(zip(names, cells))) for it in form]
            yield self.case(number, line.decode().strip(), steps_of(filled))
            count += 1
        if not count:
            raise BadForm(f"line {table.line}: a table has rows")


def fill(section: Section, cells: dict[str, bytes]) -> Section:
    """A section with a row's cells in the place of their names. In a text they lose their escapes."""
    text, rest = section.text, section.rest
    for name, cell in cells.items():
        text = text.replace(b"{%s}" % name.encode(), unescaped(cell))
        rest = rest.replace(f"{{{name}}}", cell.decode())
    return replace(section, text=text, rest=rest, words=rest.split())


def steps_of(sections: list[Section]) -> list[Step]:
    """The steps of a case."""
    steps: list[Step] = []
    is_told: list[str] = []
    for it in sections:
        word = it.words[0]
        if word == "run":
            it.bare()
            words = it.rest[len("run") :].encode().split(b" ")
            steps.append(Run(tuple(unescaped(word) for word in words if word)))
            is_told = []
        elif word in ("file", "keep", "join"):
            steps.append(file_of(it))
        elif word in ("status", "stdout", "stderr", "or"):
            steps[-1] = told(steps, it, is_told)
        else:
            raise BadForm(f"line {it.line}: `=== {word}` is no section")
    return steps


def file_of(section: Section) -> Step:
    """A file, what a run printed, or files one behind another."""
    word = section.words[0]
    if word == "file":
        (name,) = section.head(1, 1)
        return File(name, section.text)
    section.bare()
    if word == "keep":
        (name,) = section.head(1, 1)
        return Keep(name)
    name, *parts = section.head(2, 9)
    return Join(name, tuple(parts))


def told(steps: list[Step], section: Section, is_told: list[str]) -> Run:
    """The last run, with what it answers."""
    word, line = section.words[0], section.line
    run = steps[-1] if steps else None
    if not isinstance(run, Run) or (word in is_told and word != "or"):
        raise BadForm(f"line {line}: `=== {word}` doesn't belong to a run")
    if word == "or":
        return another(run, section, is_told)
    is_told.append(word)
    if word == "status":
        (number,) = section.head(1, 1)
        return replace(run, status=int(number))
    if word == "stdout" and section.words[1:2] == ["to"]:
        section.bare()
        return replace(run, to=section.head(2, 2)[1])
    how = " ".join(section.words[1:])
    if how not in HOWS:
        raise BadForm(f"line {line}: a stream isn't compared as `{how}`")
    if how in WITHOUT_TEXT:
        section.bare()
    expected = Expected(how, (section.text,))
    return replace(run, out=expected) if word == "stdout" else replace(run, err=expected)


def another(run: Run, section: Section, is_told: list[str]) -> Run:
    """The last run, whose last stream may also have this text, or has this part too."""
    last = "err" if is_told[-1:] == ["stderr"] else "out"
    before: Expected = getattr(run, last)
    if before.how not in ("one of", "with"):
        raise BadForm(f"line {section.line}: `=== or` stands behind `one of` or `with`")
    return replace(run, **{last: Expected(before.how, (*before.texts, section.text))})
