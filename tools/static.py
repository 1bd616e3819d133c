#!/usr/bin/env python3
"""Links programs that the kit has compiled with a C library of their own, so that they need none where they run.

    static.py PROGRAM..

`make static` runs it, and `make dist` for what it packs. Below each program's folder, in `static`, stands then one of
the same name, with what it was linked of beside it. The kit compiles a program to an object and links that with the C
library of the machine. The object is taken only where the kit, asked once more, makes the program of it, byte for byte;
then gcc links it with the C library's archive. Two links by the same compiler and library give the same bytes.
"""

from __future__ import annotations

import hashlib
import json
import os
import pathlib
import shutil
import struct
import subprocess
import sys
import tempfile

from proved import proof

SECONDS = 120
# What the kit's own link has beside the object, below its folder.
ARCHIVES = ("libos_c.a", "liblibc_c.a")
# The kinds of a program's headers that name a loader, and of a dynamic entry that names a library.
LOADER, DYNAMIC, NEEDED = 3, 2, 1


class NotLinked(Exception):
    """Why a program is not linked."""


def kit() -> pathlib.Path:
    """The folder of the kit whose `rt` is on the path."""
    found = shutil.which("rt")
    if found is None:
        raise NotLinked("no folder of PATH has rt, the kit's tool")
    return pathlib.Path(found).resolve().parent.parent


def archives() -> list[pathlib.Path]:
    """What the kit links each program with, beside the C library."""
    return [kit() / "c" / name for name in ARCHIVES]


def object_of(program: pathlib.Path) -> pathlib.Path:
    """The object of a program, which the kit leaves beside it."""
    return program.with_name(f"{program.name}.o")


def sum_of(path: pathlib.Path) -> str:
    """The checksum of a file."""
    return hashlib.sha256(path.read_bytes()).hexdigest()


def ran(*words: object) -> None:
    """Runs a command. It is not linked where that fails."""
    try:
        done = subprocess.run([*map(str, words)], capture_output=True, text=True, check=False, timeout=SECONDS)
    except OSError as error:
        raise NotLinked(f"{words[0]}: {error.strerror}") from error
    if done.returncode:
        raise NotLinked(f"{words[0]} has ended with status {done.returncode}: {done.stderr.strip()[-900:]}")


def check_object(program: pathlib.Path) -> None:
    """Asks that the kit makes a program of its object, byte for byte."""
    own = object_of(program)
    if not own.is_file():
        raise NotLinked(
            f"{own} is not there: the kit leaves it where it builds {program.name} anew, as `make run` does"
        )
    with tempfile.TemporaryDirectory() as folder:
        made = pathlib.Path(folder, program.name)
        target = ("--target", "x86_64-unknown-linux-gnu", "--toolchain", kit() / "toolchain")
        ran(kit() / "bin" / "rattle-link", *target, "-o", made, own, *archives())
        if made.read_bytes() != program.read_bytes():
            raise NotLinked(f"{own} is not the object of {program}: the kit makes another program of it")


def needs_of(program: bytes) -> list[str]:
    """What an ELF file of 64 bits asks of the machine on which it runs: a loader, and how many libraries."""
    at, size, count = *struct.unpack_from("<Q", program, 32), *struct.unpack_from("<HH", program, 54)
    found = []
    for start in range(at, at + size * count, size):
        kind, offset, length = struct.unpack_from("<I4xQ16xQ", program, start)
        if kind == LOADER:
            found.append("a loader")
        if kind == DYNAMIC:
            tags = [tag for tag, _ in struct.iter_unpack("<QQ", program[offset : offset + length])]
            found += [f"{tags.count(NEEDED)} libraries"] * (NEEDED in tags)
    return found


def proof_of(program: pathlib.Path, linked: pathlib.Path) -> dict[str, object]:
    """What is said of a program that was linked anew: beside what is said of each, of which program and which object,
    and with which C library."""
    return proof(linked.read_bytes()) | {
        "program": sum_of(program),
        "object": sum_of(object_of(program)),
        "c_library": os.confstr("CS_GNU_LIBC_VERSION"),
    }


def link(program: pathlib.Path) -> pathlib.Path:
    """Links a program anew, with what is said of it beside it, and tells its path."""
    check_object(program)
    out = program.parent / "static" / program.name
    out.parent.mkdir(exist_ok=True)
    new = out.with_name(f"{out.name}.new")
    ran("gcc", "-static-pie", "-o", new, object_of(program), *archives(), "-lpthread")
    if needs := needs_of(new.read_bytes()):
        raise NotLinked(f"{new} needs {' and '.join(needs)}")
    new.replace(out)
    said = json.dumps(proof_of(program, out)) + "\n"
    out.with_name(f"{out.name}.proved").write_text(said, encoding="utf-8")
    return out


def main() -> None:
    """Links programs anew, and tells their paths."""
    if len(sys.argv) < 2:
        sys.exit((__doc__ or "").strip())
    try:
        for program in map(pathlib.Path, sys.argv[1:]):
            print(link(program))
    except NotLinked as fault:
        sys.exit(f"static.py: {fault}")


if __name__ == "__main__":
    main()
