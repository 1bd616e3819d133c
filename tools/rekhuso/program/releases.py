"""What the archive of a release says of its programs, and what in it is not as it says."""

from __future__ import annotations

import hashlib
import io
import json
import os
import pathlib
import tarfile
import zlib
from collections.abc import Iterator
from typing import Any, Dict

from ..faults import Trouble
from ..files import bytes_of
from .gate_logs import Gate, gate_in
from .proofs import PROVED

SUMS, LOG, COMMIT = "SHA256SUMS", "gate.log", "COMMIT"
# What an archive has beside what its sums name.
SIGNED = (SUMS, f"{SUMS}.minisig", f"{SUMS}.asc")

Contents = Dict[str, bytes]


def sum_of(content: bytes) -> str:
    """The sum of what a file holds."""
    return hashlib.sha256(content).hexdigest()


def files_in(path: str) -> Contents:
    """The files of a release by their paths in it: of an archive, or of the folder that was unpacked of one, of which
    those alone are read that its sums name. A fault where it is neither.
    """
    return folder_files(pathlib.Path(path)) if os.path.isdir(path) else archive_files(path)


def archive_files(path: str) -> Contents:
    """The files of an archive."""
    try:
        with tarfile.open(fileobj=io.BytesIO(bytes_of(path))) as archive:
            held = {member.name: archive.extractfile(member) for member in archive if member.isfile()}
            found = {name.partition("/")[2]: file.read() for name, file in held.items() if file}
    except (tarfile.TarError, OSError, EOFError, zlib.error):
        raise Trouble(f"{path}: no archive of a release, or one that is cut off or damaged") from None
    return with_sums(path, found)


def folder_files(folder: pathlib.Path) -> Contents:
    """The files of a folder."""
    found = {SUMS: (folder / SUMS).read_bytes()} if (folder / SUMS).is_file() else {}
    for name in [*sums_in(with_sums(str(folder), found)), *SIGNED]:
        if (folder / name).is_file():
            found[name] = bytes_of(str(folder / name))
    return found


def with_sums(path: str, files: Contents) -> Contents:
    """Contents among which are the sums. A fault where they are not."""
    if SUMS not in files:
        raise Trouble(f"{path}: no release: it has no {SUMS}")
    return files


def sums_in(files: Contents) -> dict[str, str]:
    """The sums that a release names, by paths."""
    lines = files[SUMS].decode("utf-8", "replace").splitlines()
    return {name: found for found, _, name in (line.partition("  ") for line in lines)}


def gate_of(files: Contents) -> Gate | None:
    """The gate of a release; None where its log tells of none that has passed."""
    return gate_in(files.get(LOG, b"").decode("utf-8", "replace"))


def programs_in(files: Contents) -> list[str]:
    """The names of the programs of a release."""
    return sorted(path[len("bin/") :] for path in files if path.startswith("bin/") and not path.endswith(PROVED))


def said_of(files: Contents, program: str) -> dict[str, Any]:
    """What is said of a program of a release; nothing where nothing can be read."""
    try:
        found = json.loads(files.get(f"bin/{program}{PROVED}", b"").decode())
    except (ValueError, RecursionError):
        return {}
    return found if isinstance(found, dict) else {}


def faults_in(files: Contents) -> Iterator[str]:
    """All that is not as a release says, a line each."""
    yield from sum_faults(files)
    gate = gate_of(files)
    if gate is None:
        yield f"{LOG}: no log of a gate that has passed and ends with what it has built"
        return
    if gate.is_changed:
        yield f"{LOG}: its tree had changes beside commit {gate.commit}"
    if files.get(COMMIT, b"").decode("utf-8", "replace").strip() != gate.commit:
        yield f"{COMMIT}: another commit than that of {LOG}"
    if not programs_in(files):
        yield "bin: it has no program"
    for program in programs_in(files):
        yield from program_faults(files, gate, program)


def sum_faults(files: Contents) -> Iterator[str]:
    """Which files are others than the sums say."""
    named = sums_in(files)
    for name, wanted in named.items():
        if name not in files:
            yield f"{name}: {SUMS} names it, and it is not there"
        elif sum_of(files[name]) != wanted:
            yield f"{name}: another file than {SUMS} says"
    yield from (f"{name}: {SUMS} does not name it" for name in files if name not in named and name not in SIGNED)


def program_faults(files: Contents, gate: Gate, program: str) -> Iterator[str]:
    """What is not as is said of a program."""
    said, path, part = said_of(files, program), f"bin/{program}", f"{program}.o"
    if not said:
        yield f"{path}: nothing says that it was proved"
        return
    own = sum_of(files.get(f"link/{part}", b""))
    for is_so, words in (
        (said.get("sha256") == sum_of(files[path]), f"another program than {path}{PROVED} says"),
        (said.get("commit") == gate.commit, f"proved at another commit than that of {LOG}"),
        (said.get("log") == sum_of(files[LOG]), f"its gate has another log than {LOG}"),
        (said.get("program") == gate.sums.get(program), "linked of a program that the gate did not build"),
        (said.get("object") == own, f"linked of another object than link/{part}"),
        (gate.sums.get(part, own) == own, f"the gate built another object than link/{part}"),
    ):
        if not is_so:
            yield f"{path}: {words}"
