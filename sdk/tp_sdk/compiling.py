"""Programs from their sources, in C or in assembler, as sdk/c/Makefile makes them."""

from __future__ import annotations

import os
import sys
from pathlib import Path

from tp_sdk.elf import Loaded, load_elf
from tp_sdk.faults import Fault, Missing, read_bytes
from tp_sdk.folders import C
from tp_sdk.instructions import RV32I
from tp_sdk.keys import PAGE

LINK_SCRIPT = C / "link.ld"
CROSS = "riscv64-unknown-elf-"
SOURCES = (".c", ".s", ".S")


def load_program(program: Path, stack: int | None = None, arch: str = RV32I) -> Loaded:
    """A program from its source or its ELF file, for a machine with these instructions; one in C has a
    stack of that many pages."""
    if program.suffix not in SOURCES:
        return load_elf(program, arch)
    # (what follows takes longer than to load these: a program that is compiled needs none of them)
    import shutil
    import tempfile

    compiler = os.environ.get("CROSS", CROSS) + "gcc"
    if shutil.which(compiler) is None:
        raise Missing(f"{program}: there is no {compiler}: apt-get install gcc-riscv64-unknown-elf")
    read_bytes(program)
    with tempfile.TemporaryDirectory() as room:
        if program.suffix == ".c":
            loaded = _compiled(program, stack, arch, Path(room))
        else:
            loaded = _assembled(program, compiler, arch, Path(room))
    loaded.file = program
    return loaded


def _compiled(source: Path, stack: int | None, arch: str, room: Path) -> Loaded:
    import shutil

    if shutil.which("make") is None:
        raise Missing(f"{source}: there is no make: apt-get install make")
    if any(letter in source.stem for letter in " \t:=%#$\\"):
        raise Fault(f"{source}: make takes no such name: letters, digits, '-' and '_' are good")
    words = [f"PROGRAMS={source.stem}", f"OUT={room}", f"ARCH={arch}"]
    words += [] if stack is None else [f"STACK={stack * PAGE}"]
    command = ["make", "-s", "--no-print-directory", "-f", str(C / "Makefile"), *words]
    _run(command, source, "compiled", folder=source.parent)
    return load_elf(room / f"{source.stem}.elf", arch)


def _assembled(source: Path, compiler: str, arch: str, room: Path) -> Loaded:
    out = room / "program.elf"
    target = [f"-march={arch}_zicsr", "-mabi=ilp32", "-nostdlib", "-static", "-g", "-T", str(LINK_SCRIPT)]
    _run([compiler, *target, "-o", str(out), str(source)], source, "assembled")
    return load_elf(out, arch)


def _run(command: list[str], source: Path, done: str, folder: Path | None = None) -> None:
    import subprocess

    ended = subprocess.run(command, cwd=folder, capture_output=True, text=True, errors="replace", check=False)
    if ended.returncode != 0:
        raise Fault(f"{source}: it can't be {done} and linked\n{ended.stderr.rstrip()}")
    sys.stderr.write(ended.stderr)  # (warnings)
