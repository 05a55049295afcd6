"""The stored helps of the program, scripts/help/*.txt: commands, and the options of each."""

from __future__ import annotations

import re
from typing import NamedTuple

from program import TOP

FOLDER = f"{TOP}/scripts/help"
COMMAND = re.compile(r"^  ([\w-]+) +(\S.*)$", re.MULTILINE)
OPTION = re.compile(r"^ +(-\w)?,? *(--[\w-]+)(?: <(\w+)>)?", re.MULTILINE)
ARGUMENT = re.compile(r"^  <(\w+)> ", re.MULTILINE)


class Option(NamedTuple):
    """An option in both forms, and the name of its value, if it has one."""

    short: str
    long: str
    value: str


class Command(NamedTuple):
    """A command: its name, what it does, its whole help, its options, its arguments by name."""

    name: str
    does: str
    help: str
    options: list[Option]
    arguments: list[str]


def text_of(name: str) -> str:
    with open(f"{FOLDER}/{name}.txt", encoding="utf-8") as file:
        return file.read()


def part(text: str, head: str) -> str:
    """The lines below a heading, up to the next blank line."""
    return text.partition(f"\n{head}:\n")[2].partition("\n\n")[0]


def options_of(text: str) -> list[Option]:
    return [Option(*found) for found in OPTION.findall(part(text, "Options"))]


def commands() -> list[Command]:
    """All commands but `help`, in the order of the whole help."""
    found = []
    for name, does in COMMAND.findall(part(text_of("ftmpi"), "Commands")):
        if name != "help":
            text = text_of(name)
            found.append(Command(name, does, text, options_of(text), ARGUMENT.findall(part(text, "Arguments"))))
    return found
