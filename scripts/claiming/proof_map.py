"""The map of a crate's lemmas, crates/NAME/proofs/README.md: what each file shows, and in which order to read them."""

from __future__ import annotations

import re

from .pages import Written
from .places import Crate
from .wrapping import escaped, wrapped

LISTED = re.compile(r"^(?:pub )?mod ([A-Z]\w*)$", re.MULTILINE)
COMMENT = re.compile(r"(?:--.*\n)*")
WRITTEN = (
    "`scripts/claims --write` writes this page from the first sentence of each file, and `./check` compares it with them. Lines are all"
    " those of a file."
)


def path_of(crate: Crate) -> str:
    return f"{crate.folder()}/proofs/README.md"


def without_counts(text: str) -> str:
    """The page without its counts of files and lines. It stands in proofs/, all of which is part of what a proof is kept by: so
    it is written anew for another sentence or file, and not for a line more."""
    return re.sub(r"(?<=\()\d+(?= lines\))|(?<=: )\d+(?=[;.])|\d+(?= files)|\d+(?= lines)", "", " ".join(text.split()))


def is_as_written(page: Written, there: str) -> bool:
    """Whether the page that is there is what is to be written; of a map the counts may differ."""
    if page.path.endswith("/proofs/README.md"):
        return without_counts(there) == without_counts(page.text)
    return there == page.text


def lines_in(texts: list[str]) -> int:
    return sum(it.count("\n") for it in texts)


def says(text: str) -> str:
    """The first sentence of the comment with which a file begins."""
    found = COMMENT.match(text)
    comment = " ".join(it.lstrip("-").strip() for it in found.group(0).splitlines()) if found else ""
    return escaped(re.split(r"(?<=\.) (?=[A-Z])", comment)[0])


def items_of(folder: str, names: list[str], files: dict[str, str]) -> list[str]:
    """An item for each file of this name in a folder."""
    shown = [(it, files[f"{folder}/{it}.antt"]) for it in names if f"{folder}/{it}.antt" in files]
    return [line for name, text in shown for line in wrapped(f"`{name}` ({lines_in([text])} lines): {says(text)}", "- ", "  ")]


def page_of(crate: Crate, files: dict[str, str]) -> Written:
    """The map of the files of proofs/, by their paths."""
    folder = f"{crate.folder()}/proofs"
    names = LISTED.findall(files[f"{folder}/Lib.antt"])
    rooms = {it: [path for path in files if path.startswith(f"{folder}/{it}/")] for it in names}
    listing = [f"{folder}/{it}.antt" for it in ("Lib", *(name for name in names if rooms[name]))]
    lemmas = [text for path, text in files.items() if path[len(folder) + 1].isupper() and path not in listing]
    answers = [text for path, text in files.items() if path[len(folder) + 1].islower()]
    about = (
        f"The lemmas of `{crate.name}`: {len(lemmas)} files with {lines_in(lemmas)} lines. A folder with a capital letter is a"
        " room. The file of its name beside it lists its files, in the order in which to read them. The folders with small letters follow"
        f" modules and functions of `src/`: they have the answers and invariants of these, {len(answers)} files with {lines_in(answers)} lines."
    )
    lines = ["# Proof map", "", *wrapped(WRITTEN), "", *wrapped(about), "", "In no room:", ""]
    lines += items_of(folder, [it for it in names if not rooms[it]], files)
    for name in [it for it in names if rooms[it]]:
        text = files[f"{folder}/{name}.antt"]
        count = f"Files: {len(rooms[name])}; lines: {lines_in([files[it] for it in rooms[name]])}."
        lines += ["", f"## {name}", "", *wrapped(f"{says(text)} {count}".strip()), "", *items_of(f"{folder}/{name}", LISTED.findall(text), files)]
    return Written(path_of(crate), "\n".join(lines) + "\n")
