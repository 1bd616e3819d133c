#!/usr/bin/env python3
"""Makes one archive of a release: the programs, each linked with a C library of its own, the tools as files and as a
wheel, their manual pages and completions, the pages and the examples, the log of the gate that the programs have
passed, and the checksums of all.

    dist.py [--key KEY] LOG FOLDER PROGRAM..

`make dist LOG=gate.log` runs it, and with KEY= it signs the checksums. It refuses a log that does not tell a gate
without failures and end with what it has built, one of another commit, a tree with changes that are not committed,
programs that this gate did not build, and programs that tell another version than the tools. Two archives of the same
things are the same bytes.
"""

from __future__ import annotations

import argparse
import gzip
import hashlib
import io
import json
import os
import pathlib
import subprocess
import sys
import tarfile
import tempfile

import backend
import contents
import signed
import static
from rekhuso.program.gate_logs import gate_in, has_passed

TOP = pathlib.Path(__file__).resolve().parent.parent
# What a release has of the tree beside the programs: files, and folders with what git keeps of them.
PARTS = [
    "README.md",
    "CHANGELOG.md",
    "CONTRIBUTING.md",
    "LICENSE",
    "docs",
    "examples",
    "bench",
    "packages",
    "tools",
    "tests/README.md",
]


def git(*words: str) -> str:
    """What git tells of the tree."""
    done = subprocess.run(["git", "-C", str(TOP), *words], stdout=subprocess.PIPE, text=True, check=True, timeout=60)
    return done.stdout


def fault_of(log: pathlib.Path, programs: list[pathlib.Path]) -> str:
    """Why there is no release of this tree with this log and these programs; nothing where there is one."""
    told = log.read_text(encoding="utf-8", errors="replace") if log.is_file() else ""
    again = f"make gate 2>&1 | tee {log}"
    if not has_passed(told):
        return f"{log} is no log of a gate without failures: {again}"
    gate, commit = gate_in(told), git("rev-parse", "HEAD").strip()
    if gate is None:
        return f"{log} does not end with what the gate has built: {again}"
    if gate.commit != commit or gate.is_changed:
        return (
            f"{log} is of a gate of another tree, of commit {gate.commit}{' with changes' * gate.is_changed}: {again}"
        )
    if git("status", "--porcelain"):
        return "the tree has changes that are not committed"
    return next(filter(None, (program_fault(program, gate.sums) for program in programs)), "")


def program_fault(program: pathlib.Path, sums_told: dict[str, str]) -> str:
    """Why a program is none of a release whose gate has told sums; nothing where it is."""
    if not os.access(program, os.X_OK) or program.is_dir():
        return f"{program} is no program: make run, make store and make judge prove and build them"
    if static.sum_of(program) != sums_told.get(program.name):
        return f"{program} is not the one that the gate built"
    done = subprocess.run([program, "--version"], stdout=subprocess.PIPE, text=True, check=False, timeout=60)
    if done.stdout != f"{program.name} {backend.version()}\n":
        return f"{program} tells {done.stdout.strip()}, and the tools {backend.version()}"
    return ""


def built(program: pathlib.Path, log: pathlib.Path) -> dict[str, bytes]:
    """What the archive has of a program, by path: it, linked anew, with what is said of it; and what it is linked of,
    so that whoever has another C library, or trusts another linker, links it too."""
    own = static.link(program)
    found = {f"link/{path.name}": path.read_bytes() for path in (static.object_of(program), *static.archives())}
    said = static.proof_of(program, own) | {"log": static.sum_of(log)}
    found[f"bin/{program.name}.proved"] = (json.dumps(said) + "\n").encode()
    return found | {f"bin/{program.name}": own.read_bytes()}


def files_of(log: pathlib.Path) -> dict[str, bytes]:
    """What the archive has beside the programs, by path, but for the checksums."""
    found = {name: (TOP / name).read_bytes() for name in git("ls-files", "--", *PARTS).split("\n") if name}
    with tempfile.TemporaryDirectory() as folder:
        name = backend.build_wheel(folder)
        found[name] = pathlib.Path(folder, name).read_bytes()
    found.update({path: text.encode() for path, text in backend.shared().items()})
    found["gate.log"] = log.read_bytes()
    found["COMMIT"] = git("rev-parse", "HEAD").encode()
    return found


def sums(files: dict[str, bytes]) -> bytes:
    """The checksums of files, as `sha256sum -c` reads them."""
    return "".join(f"{hashlib.sha256(files[name]).hexdigest()}  {name}\n" for name in sorted(files)).encode()


def is_run(path: str) -> bool:
    """Whether a file of the archive is a program."""
    return path.startswith("bin/") and not path.endswith(".proved")


def whole(log: pathlib.Path, programs: dict[str, bytes], key: str | None) -> dict[str, bytes]:
    """All that the archive has, with what it is made of, the checksums, and their signature where there is a key."""
    files, base = files_of(log) | programs, backend.base()
    own = {path[len("bin/") :]: content for path, content in programs.items() if is_run(path)}
    commit, moment = git("log", "-1", "--format=%H %ct").split()
    files[f"{base}.spdx.json"] = contents.spdx(base, commit, int(moment), own)
    files["SHA256SUMS"] = sums(files)
    if key is not None:
        end, signature = signed.signature(files["SHA256SUMS"], f"SHA256SUMS of {base}", key)
        files[f"SHA256SUMS{end}"] = signature
    return files


def pack(log: pathlib.Path, programs: dict[str, bytes], folder: pathlib.Path, key: str | None = None) -> pathlib.Path:
    """Writes the archive, with what it has of the programs, into a folder, and tells its path."""
    base, held = backend.base(), io.BytesIO()
    with tarfile.open(fileobj=held, mode="w", format=tarfile.PAX_FORMAT) as archive:
        for name, content in sorted(whole(log, programs, key).items()):
            entry = tarfile.TarInfo(f"{base}/{name}")
            entry.size, entry.mtime = len(content), backend.moment()
            entry.mode = 0o755 if is_run(name) else 0o644
            archive.addfile(entry, io.BytesIO(content))
    folder.mkdir(parents=True, exist_ok=True)
    path = folder / f"{base}-{os.uname().machine}.tar.gz"
    with path.open("wb") as file, gzip.GzipFile("", "wb", 9, file, backend.moment()) as packed:
        packed.write(held.getvalue())
    return path


def options() -> argparse.Namespace:
    """What the command line says."""
    own = argparse.ArgumentParser(description=__doc__, formatter_class=argparse.RawDescriptionHelpFormatter)
    own.add_argument("--key", help="the file of a key of minisign, or the name of one of gpg, to sign the checksums")
    own.add_argument("log", type=pathlib.Path)
    own.add_argument("folder", type=pathlib.Path)
    own.add_argument("programs", type=pathlib.Path, nargs="+")
    return own.parse_args()


def main() -> None:
    """Makes the archive, and tells its checksum and its path."""
    own = options()
    if why := fault_of(own.log, own.programs):
        sys.exit(why)
    try:
        parts = {path: content for program in own.programs for path, content in built(program, own.log).items()}
        path = pack(own.log, parts, own.folder, own.key)
    except (static.NotLinked, signed.NotSigned) as fault:
        sys.exit(str(fault))
    print(hashlib.sha256(path.read_bytes()).hexdigest(), path)


if __name__ == "__main__":
    main()
