"""Compiles a copy of the sources before any proof, or has it proved.

Before a proof `rt try` compiles the program to an LLVM module, with tests at run time, and calls
clang. Here a stand-in for clang keeps the module, and the toolchain's own then compiles it."""

from __future__ import annotations

import contextlib
import ctypes
import itertools
import os
import re
import shlex
import shutil
import signal
import subprocess
import sys
import tempfile
from collections.abc import Callable, Iterator
from typing import IO

from .files import NotMade, kit_folder, text_of, write
from .sources import Sources

TARGET = "x86_64-unknown-linux-gnu"
# As the toolchain compiles what was proved, but without inlining: it takes half as long.
FLAGS = "-march=x86-64 -mllvm -no-trap-after-noreturn -ffunction-sections -fdata-sections -mllvm -trap-unreachable"
FLAGS += " --no-default-config -no-canonical-prefixes -fPIE -O1 -mllvm -inline-threshold=0"
# (it gets an empty environment; the first module that it gets is the toolchain's own, for a trial)
CLANG = """#!/bin/bash
case " $* " in *" -fsanitize=address "*) for it in "$@"; do case $it in *.bc) cp -- "$it" {kept} && exit 1 ;; esac; done ;; esac
exec -a {real} {real} "$@"
"""
PROVED = re.compile(r"rt: (\w+ (?:proved|NOT PROVED|is kept))")
PREFIX = "ftmpi-made-by-"
# Bytes. `rt ci` allows for two to three times what the check of a large crate has been seen to take
# (4.9 GB at most), and so proves such crates one after another.
A_CHECK = 5_000_000_000
# PR_SET_PDEATHSIG: a process gets a signal when its parent ends
PARENT_ENDS, LIBC = 1, ctypes.CDLL(None)


class NoModule(Exception):
    """The toolchain handed over no module."""


def say(text: str) -> None:
    print(f"ftmpi: {text}", file=sys.stderr, flush=True)


@contextlib.contextmanager
def room() -> Iterator[str]:
    """A temporary folder that is removed at the end; after a kill, by the next script."""
    for it in os.scandir(tempfile.gettempdir()):
        of = re.match(rf"{PREFIX}(\d+)-", it.name)
        if of and not os.path.exists(f"/proc/{of[1]}"):
            shutil.rmtree(it.path, ignore_errors=True)
    with tempfile.TemporaryDirectory(prefix=f"{PREFIX}{os.getpid()}-") as folder:
        yield folder


@contextlib.contextmanager
def started(words: list[str], cwd: str, folder: str, out: IO[bytes] | int, **more: str) -> Iterator[subprocess.Popen[bytes]]:
    """A command, with its temporary files in the folder, and more in its environment. It ends when
    this script ends, however that ends."""
    how = {"stdin": subprocess.DEVNULL, "stdout": out, "stderr": subprocess.STDOUT, "env": {**os.environ, "TMPDIR": folder, **more}}
    process = subprocess.Popen(words, cwd=cwd, preexec_fn=lambda: LIBC.prctl(PARENT_ENDS, signal.SIGTERM), start_new_session=True, **how)
    try:
        yield process
    finally:
        if process.poll() is None:
            os.killpg(process.pid, signal.SIGTERM)
            process.wait()


def run(words: list[str], cwd: str, folder: str, hear: Callable[[str], object] = bool, **more: str) -> tuple[int, str]:
    """Runs a command. Returns its status and its output; `hear` gets each line as it comes."""
    with started(words, cwd, folder, subprocess.PIPE, **more) as process:
        lines = []
        for line in process.stdout:
            lines.append(line.decode(errors="replace"))
            hear(lines[-1])
        return process.wait(), "".join(lines)


def module_of(sources: Sources, folder: str) -> str:
    """Has the program compiled to an LLVM module, and returns its path in the folder. Nothing is
    proved."""
    module = f"{folder}/module.bc"
    words = [stand_in(kit_folder(), f"{folder}/kit", module), "try", "--steps", "1", "--seconds", "1", "--", "--version"]
    status, output = run(words, f"{sources.top}/crates/{sources.name}", folder)
    if not os.path.exists(module):
        raise NotMade(f"its text is refused:\n{output}") if status == 1 else NoModule(output)
    return module


def quick(sources: Sources, folder: str) -> str:
    """Compiles the program, and returns its path in the folder. Nothing is proved."""
    kit, module = kit_folder(), module_of(sources, folder)
    made, program = (f"{folder}/{it}" for it in ("module.o", sources.name))
    clang = [f"{kit}/toolchain/bin/clang", f"--target={TARGET}", f"--sysroot={kit}/toolchain", *FLAGS.split()]
    link = [f"{kit}/bin/rattle-link", "--target", TARGET, "--toolchain", f"{kit}/toolchain", "-o", program, made]
    for words in ([*clang, "-c", "-x", "ir", module, "-o", made], [*link, f"{kit}/c/libos_c.a", f"{kit}/c/liblibc_c.a"]):
        status, output = run(words, folder, folder)
        if status:
            raise NoModule(output)
    return program


def stand_in(kit: str, to: str, module: str) -> str:
    """Makes links to a toolchain, with a clang that keeps the module. Returns the path of its `rt`."""
    # (beside the compiler `rt try` starts a check, for a hint only, which would take as long again)
    for part in ("", "bin", "toolchain", "toolchain/bin"):
        os.makedirs(f"{to}/{part}")
        own = {"bin", "toolchain", "clang", "rt", "rtlib.py", *(["rattle"] if part == "bin" else [])}
        for it in {*os.listdir(f"{kit}/{part}")} - own:
            os.symlink(f"{kit}/{part}/{it}", f"{to}/{part}/{it}")
    for it in ("rt", "rtlib.py"):
        shutil.copy(f"{kit}/bin/{it}", f"{to}/bin")
    os.symlink(shutil.which("true"), f"{to}/bin/rattle")
    write(f"{to}/toolchain/bin/clang", CLANG.format(kept=shlex.quote(module), real=shlex.quote(f"{kit}/toolchain/bin/clang")))
    os.chmod(f"{to}/toolchain/bin/clang", 0o755)
    return f"{to}/bin/rt"


def at_once() -> dict[str, str]:
    """For the environment of `rt ci`: how many crates it is to prove at a time, one a processor as far
    as there is memory."""
    memory = 1024 * int(text_of("/proc/meminfo").partition("MemAvailable:")[2].split()[0])
    return {"RT_JOBS": str(max(1, min(len(os.sched_getaffinity(0)), memory // A_CHECK)))}


def proved(sources: Sources, folder: str) -> str:
    """Proves the sources and returns the path of the program. `rt ci` proves from nothing, crates
    side by side, and takes nothing but what an earlier `rt ci` on this machine passed."""
    # (it wants the top of a repository, and runs the program as the user nobody)
    os.mkdir(f"{sources.top}/.git")
    os.chmod(folder, 0o711)
    number = itertools.count(1)
    hear = lambda line: (it := PROVED.match(line)) and say(f"{it[1]}, {next(number)} of {len(sources.lines)}")
    status, output = run([f"{kit_folder()}/bin/rt", "ci"], sources.top, folder, hear, **at_once())
    program = f"{sources.top}/crates/{sources.name}/out/{sources.name}"
    if status or not os.path.isfile(program):
        raise NotMade(f"it isn't proved; `rt ci` says:\n{output}")
    say(f"`rt ci` over these crates: {output.splitlines()[-1]}")
    return program
