"""`proof`: what the archive of a release says of its programs, which of its sums match, and what is left to trust.

It reads an archive, or the folder that was unpacked of one, and runs nothing of it. The gate's log ends with the commit
of its tree and the sum of each program that it built; beside each program of the release stands of which of these it
was linked. Where something is not as it says, that is told, and the status is 1.
"""

from __future__ import annotations

from collections.abc import Iterator
from dataclasses import dataclass

from ..faults import Fault
from ..program.gate_logs import Gate
from ..program.releases import SUMS, Contents, faults_in, files_in, gate_of, programs_in, said_of, sums_in
from ..values import SLOTS
from .arguments import Arguments, Commands, set_work

TRUSTED = """\
nothing in it shows
  that gate.log is what a gate printed: `make gate` at this commit ends with the same sums
  that a linker made bin/ of link/: gcc -static-pie link/NAME.o link/libos_c.a link/liblibc_c.a -lpthread
  what the proofs stand on: docs/PROVED.md, "What is trusted\""""


@dataclass(frozen=True, **SLOTS)
class ProofOptions:
    """The path of an archive, or of the folder that was unpacked of one."""

    path: str


def options_of(arguments: Arguments) -> ProofOptions:
    """The options of the command line."""
    return ProofOptions(arguments.archive)


def program_line(files: Contents, gate: Gate, program: str) -> str:
    """What a program was linked of, in words."""
    said = said_of(files, program)
    known = "has its sum" if f"{program}.o" in gate.sums else f"has no sum of it, and that of its {program}"
    return f"bin/{program}: linked of link/{program}.o with {said.get('c_library')}; gate.log {known}"


def signature_line(files: Contents) -> str:
    """How the sums are signed, and what asks for the key; no key is asked for here."""
    for end, ask in ((".minisig", "minisign -V -P KEY -m SHA256SUMS"), (".asc", "gpg --verify SHA256SUMS.asc")):
        if f"{SUMS}{end}" in files:
            return f"signed: {SUMS}{end}; {ask} tells whether it is by the key that you know"
    return f"signed: no, so {SUMS} is as good as the way by which it came"


def lines_of(files: Contents, gate: Gate) -> Iterator[str]:
    """What is told of a release in which all is as it says."""
    yield f"sums: {len(sums_in(files))} files are as SHA256SUMS says"
    yield f"gate: {gate.words()}"
    yield f"kit: {gate.kit}"
    yield signature_line(files)
    for program in programs_in(files):
        yield program_line(files, gate, program)
    yield TRUSTED


def work(options: ProofOptions) -> None:
    """Tells it."""
    files = files_in(options.path)
    faults, gate = list(faults_in(files)), gate_of(files)
    if faults or gate is None:
        raise Fault(*faults)
    for line in lines_of(files, gate):
        print(line)


def add_to(commands: Commands) -> None:
    """The subcommand."""
    own = commands.add_parser(
        "proof", help="what a release says of its programs, and what matches", description=__doc__
    )
    own.add_argument(
        "archive", metavar="ARCHIVE", help="the archive of a release, or the folder that it was unpacked to"
    )
    set_work(own, options_of, work)
