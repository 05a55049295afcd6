"""Whether the lines of a document are short."""

from __future__ import annotations

import re
from typing import Iterator

from .markdown import rows_of
from .places import Fault

MOST = 100
MOST_IN_FENCE = 120
# a line or a heading that is one link or picture, or a line that defines one
LINK = r"!?\[[^\]]*\](?:\([^)]*\)|\[[^\]]*\])"
UNBREAKABLE = re.compile(rf"^\s*(?:[-*+] |\d+\. |> |#+ )?(?:(?:{LINK}|\[{LINK}\]\([^)]*\))[.,;:]?|\[[^\]]+\]: \S+|<https?:[^>]+>)\s*$")


def faults_of(document: str, text: str) -> Iterator[Fault]:
    for row in rows_of(text):
        most = MOST_IN_FENCE if row.in_fence else MOST
        if len(row.text) > most and (row.in_fence or not UNBREAKABLE.match(row.text)):
            yield Fault(document, row.number, f"{len(row.text)} columns, more than {most}")
