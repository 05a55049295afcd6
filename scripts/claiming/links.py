"""Whether each link of a document leads to a file or folder of the repository, and its anchor to a heading there."""

from __future__ import annotations

import os
import re
from functools import lru_cache
from typing import Iterator, Optional
from urllib.parse import unquote

from .markdown import Link, anchors_of, links_of
from .places import Fault, text_of

ELSEWHERE = re.compile(r"[a-z][a-z0-9+.-]*:")
LINES = re.compile(r"L(\d+)(?:-L(\d+))?")


@lru_cache(maxsize=None)
def anchors_in(path: str) -> frozenset[str]:
    return frozenset(anchors_of(text_of(path)))


@lru_cache(maxsize=None)
def count_of_lines(path: str) -> int:
    return len(text_of(path).splitlines())


def is_inside(top: str, path: str) -> bool:
    top = os.path.realpath(top)
    return os.path.commonpath([top, os.path.realpath(path)]) == top


def anchor_fault(path: str, anchor: str) -> Optional[str]:
    """What is wrong with an anchor of this file or folder."""
    if os.path.isdir(path):
        path = os.path.join(path, "README.md")
    if path.endswith(".md"):
        found = os.path.isfile(path) and unquote(anchor) in anchors_in(path)
        return None if found else f"#{anchor} is no heading there"
    lines = LINES.fullmatch(anchor)
    if not lines:
        return f"#{anchor} names no lines of a file without headings"
    last = max(int(it) for it in lines.groups() if it)
    return None if os.path.isfile(path) and last <= count_of_lines(path) else f"#{anchor} is behind the end of the file"


def link_fault(top: str, document: str, link: Link) -> Optional[str]:
    if not link.target:
        return "a link by a reference that isn't defined"
    if ELSEWHERE.match(link.target):
        return None
    target, _, anchor = link.target.partition("#")
    if target.startswith("/"):
        return f"the link {link.target} isn't relative"
    path = os.path.normpath(os.path.join(top, os.path.dirname(document), unquote(target))) if target else os.path.join(top, document)
    if not is_inside(top, path):
        return f"the link {link.target} leads out of the repository"
    if not os.path.exists(path):
        return f"the link {link.target} leads to nothing"
    wrong = anchor_fault(path, anchor) if anchor else None
    return f"the link {link.target}: {wrong}" if wrong else None


def is_counted(link: Link) -> bool:
    return not ELSEWHERE.match(link.target)


def faults_of(top: str, document: str, links: list[Link]) -> Iterator[Fault]:
    for link in links:
        wrong = link_fault(top, document, link)
        if wrong:
            yield Fault(document, link.line, wrong)


def links_in(top: str, document: str) -> list[Link]:
    return list(links_of(text_of(os.path.join(top, document))))
