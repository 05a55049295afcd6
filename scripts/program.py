"""The program that scripts run."""

from __future__ import annotations

import os
import sys

TOP = os.path.dirname(os.path.dirname(os.path.realpath(__file__)))
# The proved program; `./ftmpi --prove` and `./check` leave it here.
PROVED = f"{TOP}/crates/ftmpi/out/ftmpi"


def program() -> str:
    """The path of the program: FTMPI_PROGRAM in the environment, or else the proved one."""
    return os.environ.get("FTMPI_PROGRAM") or PROVED


def program_there() -> str:
    """The same path. Ends the script if no program is there."""
    if not os.access(program(), os.X_OK):
        sys.exit(f"{program()}: there is no such program: `./ftmpi --prove` makes it, or FTMPI_PROGRAM names another")
    return program()
