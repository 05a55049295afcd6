"""Makes the engine of the laboratory: the program as WebAssembly.

The LLVM module is that of the quick program, for x86-64. Its text gets the target of WebAssembly
with 64-bit addresses, and each function of the C library that it calls becomes an import, which
viewer/engine/host.js gives. The toolchain's own clang and linker make the rest. At last
viewer/engine/lower.js makes its addresses 32-bit ones, so that each browser runs it."""

from __future__ import annotations

import os
import re
import shutil

from building.files import NotMade, kit_folder
from building.making import TARGET as NATIVE
from building.making import NoModule, module_of, run
from building.sources import Sources
from building.whole import TOP

TARGET = "wasm64-unknown-unknown"
LAYOUT = "e-m:e-p:64:64-p10:8:8-p20:8:8-i64:64-i128:128-n32:64-S128-ni:1:10:20"
# (without inlining: a third smaller, and as fast where a page calls it)
FLAGS = "-mcpu=lime1 -mllvm -expand-div-rem-bits=64 -mllvm -expand-fp-convert-bits=64 -mllvm -trap-unreachable"
FLAGS += " -ffunction-sections -fdata-sections -O1 -Xclang -fmerge-functions -mllvm -mergefunc-use-aliases"
FLAGS += " -Wno-override-module --no-default-config -fno-crash-diagnostics"
STACK = 8 << 20
# What is only for x86-64, or for the run-time checks of `rt try`.
LEFT_OUT = re.compile(
    r' sanitize_address| sanitize_thread| "(frame-pointer|rattle-sig|probe-stack|stack-probe-size|target-cpu|target-features)"="[^"]*"'
)
SHUFFLE = "@llvm.x86.ssse3.pshuf.b.128"
DECLARED = re.compile(r"^(declare .*@([\w.]+)\(.*\))(?: #\d+)?$", re.MULTILINE)
# Numbers of attributes that the module has no use for.
OWN, IMPORTED = 99999, 100000


def engine(sources: Sources, folder: str) -> str:
    """Makes the engine, and returns its path in the folder."""
    if not (node := shutil.which("node")):
        raise NotMade("the addresses of its WebAssembly are made 32-bit ones by node, and there is no node")
    kit, module = f"{kit_folder()}/toolchain", module_of(sources, folder)
    text, made, archive, wide, narrow = (f"{folder}/engine.{it}" for it in ("ll", "o", "a", "wide.wasm", "wasm"))
    clang, link = f"{kit}/bin/clang", f"{kit_folder()}/bin/rattle-link"
    os.symlink(clang, f"{folder}/llvm-ar")  # (it looks at the name by which it is called)
    command([clang, f"--target={NATIVE}", "-S", "-emit-llvm", "-Xclang", "-disable-llvm-passes", "-x", "ir", module, "-o", text], folder)
    with open(text, encoding="latin-1") as file:
        retargeted = for_wasm(file.read())
    with open(text, "w", encoding="latin-1") as file:
        file.write(retargeted)
    command([clang, f"--target={TARGET}", *FLAGS.split(), "-c", "-x", "ir", text, "-o", made], folder)
    command([f"{folder}/llvm-ar", "--format=gnu", "rc", archive, made], folder)
    command([link, "--target", TARGET, "--toolchain", kit, "--stack", str(STACK), "-o", wide, archive], folder)
    command([node, f"{TOP}/viewer/engine/lower.js", wide, narrow], folder)
    return narrow


def command(words: list[str], folder: str) -> None:
    """Runs a command, which must succeed."""
    status, output = run(words, folder, folder)
    if status:
        raise NoModule(f"{os.path.basename(words[0])} ended with status {status}:\n{output}")


def for_wasm(text: str) -> str:
    """The text of a module for x86-64 as one for WebAssembly."""
    text = re.sub(r"^target datalayout = .*$", f'target datalayout = "{LAYOUT}"', text, flags=re.MULTILINE)
    text = re.sub(r"^target triple = .*$", f'target triple = "{TARGET}"', text, flags=re.MULTILINE)
    text = LEFT_OUT.sub("", text)
    text = re.sub(r"^(attributes #\d+ = )\{ +\}", r"\1{ nounwind }", text, flags=re.MULTILINE)
    text = with_imports(without_shuffle(with_start(text)))
    if left := sorted({*re.findall(r"@(llvm\.x86\.[\w.]+)", text)}):
        raise NoModule(f"the module has what is only for x86: {' '.join(left)}")
    return text


def with_start(text: str) -> str:
    """C's main asks the processor what it is, and then calls the program. This only calls it."""
    begin = text.index("define i32 @main()")
    end = text.index("\n}\n", begin) + 3
    called = re.findall(r'call i32 @("[^"]*"|[\w.$]+)\(\)', text[begin:end])[-1]
    start = f"define i32 @start() #{OWN} {{\n  %r = call i32 @{called}()\n  ret i32 %r\n}}\n"
    return f'{text[:begin]}{start}{text[end:]}\nattributes #{OWN} = {{ nounwind "wasm-export-name"="start" }}\n'


def with_imports(text: str) -> str:
    """Each function of the C library is imported from the page, as `env`."""
    attributes: list[str] = []

    def imported(found: re.Match[str]) -> str:
        if found[2].startswith("llvm."):
            return found[0]
        number = IMPORTED + len(attributes)
        attributes.append(f'attributes #{number} = {{ nobuiltin nounwind "wasm-import-module"="env" "wasm-import-name"="{found[2]}" }}\n')
        return f"{found[1]} #{number}"

    return DECLARED.sub(imported, text) + "".join(attributes)


def without_shuffle(text: str) -> str:
    """The shuffle of bytes that x86-64 has as an instruction, written out."""
    if SHUFFLE not in text:
        return text
    lines = ["define internal <16 x i8> @x86_shuffle(<16 x i8> %a, <16 x i8> %m) {"]
    for at in range(16):
        lines += [
            f"  %m{at} = extractelement <16 x i8> %m, i32 {at}",
            f"  %l{at} = and i8 %m{at}, 15",
            f"  %i{at} = zext i8 %l{at} to i32",
            f"  %v{at} = extractelement <16 x i8> %a, i32 %i{at}",
            f"  %n{at} = icmp slt i8 %m{at}, 0",
            f"  %s{at} = select i1 %n{at}, i8 0, i8 %v{at}",
            f"  %r{at} = insertelement <16 x i8> {f'%r{at - 1}' if at else 'poison'}, i8 %s{at}, i32 {at}",
        ]
    lines += ["  ret <16 x i8> %r15", "}"]
    text = re.sub(rf"^declare .*{re.escape(SHUFFLE)}\(.*$", "", text, flags=re.MULTILINE)
    return text.replace(SHUFFLE, "@x86_shuffle") + "\n" + "\n".join(lines) + "\n"
