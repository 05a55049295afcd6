"""The claims of a crate's README.

    - **A packet is accepted if and only if its number is the next of its source.**
      Clauses: `Inbox::accept`: `answer`, `ok` (`after_arrival`).
      Mutants: `accepts_a_gap`, `accepts_a_repeat`.
      Limit: nothing is claimed of when one arrives.
"""

from __future__ import annotations

import re
from typing import NamedTuple, Optional

from .markdown import HEADING, SPAN, Row, Span, rows_of
from .places import Fault

SECTION = "Claims"
LABELS = ("Clauses", "Mutants", "Limit")
LABELED = re.compile(r"^  ([A-Z][a-z]+):(?= |$)\s*(.*)$")
ITEM = re.compile(r"^- (.*)$")


class Part(NamedTuple):
    """A claim's sentence, or what stands behind one of its labels: its lines, with the number of the first."""

    line: int
    lines: tuple[str, ...]

    def text(self) -> str:
        return " ".join(" ".join(self.lines).split())

    def spans(self) -> list[Span]:
        whole = "\n".join(self.lines)
        return [Span(self.line + whole.count("\n", 0, it.start()), " ".join(it.group(2).split())) for it in SPAN.finditer(whole)]


class Claim(NamedTuple):
    """A claim under the heading of its group, which may be empty."""

    group: str
    sentence: Part
    parts: dict[str, Part]

    def line(self) -> int:
        return self.sentence.line


class Claims(NamedTuple):
    """The section of a README; None where it has none."""

    line: Optional[int]
    claims: list[Claim]
    faults: list[Fault]


def rows_of_section(text: str) -> list[Row]:
    """The lines of the section, its heading first."""
    found: list[Row] = []
    for row in rows_of(text):
        heading = None if row.in_fence else HEADING.match(row.text)
        if heading and len(heading.group(1)) <= 2:
            if found:
                break
            if heading.group(2) == SECTION:
                found.append(row)
        elif found:
            found.append(row)
    return found


def items_of_section(rows: list[Row]) -> list[tuple[str, list[Row]]]:
    """Each list item with its continuation lines, under the heading of its group. Other paragraphs are passed over."""
    found: list[tuple[str, list[Row]]] = []
    group, goes_on = "", False
    for row in rows:
        heading = None if row.in_fence else HEADING.match(row.text)
        if heading:
            group, goes_on = heading.group(2), False
        elif not row.in_fence and ITEM.match(row.text):
            found.append((group, [row]))
            goes_on = True
        elif goes_on and row.text.startswith("  "):
            found[-1][1].append(row)
        else:
            goes_on = goes_on and bool(row.text.strip()) and not row.in_fence
            if goes_on:
                found[-1][1].append(row)
    return found


def parts_of(rows: list[Row]) -> list[tuple[str, Part]]:
    """The sentence, under '', and then each label with what stands behind it."""
    found: list[tuple[str, int, list[str]]] = []
    for row in rows:
        labeled = LABELED.match(row.text)
        if not found:
            found.append(("", row.number, [row.text[2:]]))
        elif labeled:
            found.append((labeled.group(1), row.number, [labeled.group(2)]))
        else:
            found[-1][2].append(row.text.strip())
    return [(label, Part(number, tuple(lines))) for label, number, lines in found]


def faults_of_form(path: str, rows: list[Row], parts: list[tuple[str, Part]]) -> list[Fault]:
    labels = [label for label, _ in parts[1:]]
    sentence = parts[0][1]
    found = []
    if not re.fullmatch(r"\*\*[^*]+\*\*", sentence.text()):
        found.append(Fault(path, sentence.line, "a claim is one sentence in bold, with its labels on lines of their own"))
    elif not sentence.text().endswith(".**"):
        found.append(Fault(path, sentence.line, "a claim ends with a full stop within the bold"))
    if "Clauses" not in labels:
        found.append(Fault(path, sentence.line, "a claim has no 'Clauses:'"))
    if labels != [it for it in LABELS if it in labels]:
        wrong = f"a claim's labels are {', '.join(LABELS)}, in this order, each once: not {', '.join(labels)}"
        found.append(Fault(path, sentence.line, wrong))
    found += [Fault(path, it.number, "a claim's line is indented by two spaces") for it in rows[1:] if not re.match(r"  \S", it.text)]
    found += [Fault(path, part.line, f"nothing stands behind '{label}:'") for label, part in parts[1:] if not part.text()]
    return found


def claims_of(path: str, text: str) -> Claims:
    """The claims in the section of a README."""
    rows = rows_of_section(text)
    found = claims_among(path, rows[1:])
    return found._replace(line=rows[0].number if rows else None)


def claims_in(path: str, text: str) -> Claims:
    """The claims of a whole text, which has no sections."""
    return claims_among(path, list(rows_of(text)))


def claims_among(path: str, rows: list[Row]) -> Claims:
    claims, faults = [], []
    for group, lines in items_of_section(rows):
        parts = parts_of(lines)
        # (a list without bold and labels is prose)
        if not lines[0].text.startswith("- **") and len(parts) == 1:
            continue
        faults += faults_of_form(path, lines, parts)
        claims.append(Claim(group, parts[0][1], {label: part for label, part in parts[1:]}))
    return Claims(None, claims, faults)
