"""The manual page: each help as it is printed, below a heading of its own."""

from __future__ import annotations

from .helps import commands, text_of


def escaped(text: str) -> str:
    """Text in which troff finds nothing of its own."""
    lines = text.replace("\\", "\\e").replace("-", "\\-").splitlines()
    return "".join(f"\\&{line}\n" if line[:1] in (".", "'") else f"{line}\n" for line in lines)


def literal(text: str) -> str:
    """Text that stands on the page line by line."""
    return f".nf\n{escaped(text)}.fi\n"


def page() -> str:
    first, _, rest = text_of("ftmpi").partition("\n")
    version = text_of("version").strip()
    parts = [
        f'.TH FTMPI 1 "" "{version}" "User Commands"\n',
        f".SH NAME\nftmpi \\- {escaped(first[:1].lower() + first[1:])}",
        f".SH SYNOPSIS\n.B ftmpi\n.I COMMAND\n[\n.I OPTIONS\n]\n.I FILE ...\n",
        f".SH DESCRIPTION\n{literal(rest.lstrip())}",
    ]
    for it in commands():
        parts.append(f".SH {it.name.upper()}\n{literal(it.help)}")
    parts.append(".SH SEE ALSO\n.BR mpiexec (1)\n")
    return "".join(parts)
