"""A document without its fenced blocks: code spans, links, headings."""

from __future__ import annotations

import re
from typing import Iterator, NamedTuple, Optional

FENCE = re.compile(r"^\s*(?:>\s*)?(`{3,}|~{3,})(.*)$")
HEADING = re.compile(r"^ {0,3}(#{1,6})\s+(.*?)\s*#*\s*$")
BEGINS_BLOCK = re.compile(r"^\s*(?:[-*+]\s|\d+[.)]\s|\||#{1,6}\s|\[[^\]]+\]:\s)")
SPAN = re.compile(r"(?<!`)(`+)(?!`)(.+?)(?<!`)\1(?!`)", re.DOTALL)
INLINE = re.compile(r"\]\(\s*<?([^()\s<>]*(?:\([^()\s]*\)[^()\s<>]*)*)>?(?:\s+(?:\"[^\"]*\"|'[^']*'))?\s*\)")
REFERRING = re.compile(r"\[([^\[\]]+)\]\[([^\[\]]*)\]")
DEFINING = re.compile(r"^ {0,3}\[([^\]]+)\]:\s*<?([^\s>]+)>?", re.MULTILINE)
HTML = re.compile(r"\b(?:href|src)=\"([^\"]*)\"")
NAMED_PLACE = re.compile(r"<[a-z]+\s[^>]*\b(?:id|name)=\"([^\"]+)\"")


class Span(NamedTuple):
    line: int
    text: str


class Link(NamedTuple):
    line: int
    target: str


class Block(NamedTuple):
    """Lines that stand together outside of fences, and the number of the first."""

    line: int
    text: str


class Row(NamedTuple):
    number: int
    text: str
    in_fence: bool


def rows_of(text: str) -> Iterator[Row]:
    """Each line, and whether it belongs to a fenced block (as the fences themselves do)."""
    fence: Optional[str] = None
    for number, line in enumerate(text.splitlines(), 1):
        found = FENCE.match(line)
        if fence is None:
            opens = found is not None and not (found.group(1)[0] == "`" and "`" in found.group(2))
            fence = found.group(1) if found is not None and opens else None
            yield Row(number, line, fence is not None)
            continue
        yield Row(number, line, True)
        if found is not None and found.group(1).startswith(fence) and not found.group(2).strip():
            fence = None


def blocks_of(text: str) -> Iterator[Block]:
    first, lines = 0, []
    for row in rows_of(text):
        ends = row.in_fence or not row.text.strip()
        if lines and (ends or BEGINS_BLOCK.match(row.text)):
            yield Block(first, "\n".join(lines))
            lines = []
        if not ends:
            first = first if lines else row.number
            lines.append(row.text)
    if lines:
        yield Block(first, "\n".join(lines))


def line_at(block: Block, place: int) -> int:
    return block.line + block.text.count("\n", 0, place)


def spans_of(text: str) -> list[Span]:
    """The code spans, each in one line."""
    found = []
    for block in blocks_of(text):
        found += [Span(line_at(block, it.start()), " ".join(it.group(2).split())) for it in SPAN.finditer(block.text)]
    return found


def without_spans(text: str) -> str:
    """The text with something of the same length in the place of each code span."""
    return SPAN.sub(lambda it: re.sub(r"[^\n]", "x", it.group(0)), text)


def named(label: str) -> str:
    return " ".join(label.lower().split())


def links_of(text: str) -> Iterator[Link]:
    """Each link and picture; one by a reference that isn't defined has the target ''."""
    blocks = [Block(it.line, without_spans(it.text)) for it in blocks_of(text)]
    defined = {named(it.group(1)) for block in blocks for it in DEFINING.finditer(block.text)}
    for block in blocks:
        for form in (INLINE, HTML):
            for it in form.finditer(block.text):
                yield Link(line_at(block, it.start()), it.group(1))
        for it in DEFINING.finditer(block.text):
            yield Link(line_at(block, it.start()), it.group(2))
        for it in REFERRING.finditer(block.text):
            if named(it.group(2) or it.group(1)) not in defined:
                yield Link(line_at(block, it.start()), "")


def plain(heading: str) -> str:
    """What is read of a heading."""
    parts = re.split(r"(`+[^`]*`+)", heading)
    for number in range(0, len(parts), 2):
        shown = re.sub(r"!?\[([^\]]*)\](?:\([^)]*\)|\[[^\]]*\])", r"\1", parts[number])
        shown = re.sub(r"<[^>]*>", "", shown)
        parts[number] = re.sub(r"(?<!\w)_(\S(?:.*?\S)?)_(?!\w)", r"\1", shown)
    return re.sub(r"!?\[([^\]]*)\]\([^)]*\)", r"\1", "".join(parts))


def slug(heading: str) -> str:
    return re.sub(r"[^\w\- ]", "", plain(heading).strip().lower()).replace(" ", "-")


def anchors_of(text: str) -> set[str]:
    """The anchors of a document, as GitHub makes them of its headings."""
    found: set[str] = set()
    seen: dict[str, int] = {}
    for row in rows_of(text):
        if row.in_fence:
            continue
        found.update(NAMED_PLACE.findall(row.text))
        heading = HEADING.match(row.text)
        if heading:
            base = slug(heading.group(2))
            count = seen.get(base, 0)
            seen[base] = count + 1
            found.add(f"{base}-{count}" if count else base)
    return found
