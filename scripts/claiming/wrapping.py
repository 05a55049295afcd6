"""Text in lines of 100 columns."""

from __future__ import annotations

import re

COLUMNS = 100
# what stays in one line: a code span or a link, with what touches it
WHOLE = re.compile(r"(?:`[^`]*`|!?\[[^\]]*\](?:\([^)]*\)|\[[^\]]*\])|[^\s`\[]|\[)+")
# what would begin a list, a heading or a quotation at the beginning of a line
BEGINS_BLOCK = re.compile(r"[-+*>#=|].*|\d+[.)]$")


def tokens_of(text: str) -> list[str]:
    """The parts between which a line may be broken."""
    found: list[str] = []
    for it in WHOLE.findall(" ".join(text.split())):
        if found and BEGINS_BLOCK.match(it):
            found[-1] += " " + it
        else:
            found.append(it)
    return found


def wrapped(text: str, first: str = "", rest: str = "") -> list[str]:
    """The text in lines, the first of which begins with `first` and each other one with `rest`."""
    lines, is_empty = [first], True
    for it in tokens_of(text):
        longer = lines[-1] + ("" if is_empty else " ") + it
        if is_empty or len(longer) <= COLUMNS:
            lines[-1], is_empty = longer, False
        else:
            lines.append(rest + it)
    return lines


def escaped(text: str) -> str:
    """Plain text as Markdown, in which only code spans mean something."""
    parts = re.split(r"(`[^`]*`)", text)
    for number in range(0, len(parts), 2):
        parts[number] = re.sub(r"([*<\[\]|\\]|(?<!\w)_|_(?!\w))", r"\\\1", parts[number])
    return "".join(parts)
