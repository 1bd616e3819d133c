"""What a release is made of, as SPDX 2.3 says it: its own files, and what others wrote of what its programs have."""

from __future__ import annotations

import datetime
import hashlib
import json
from collections.abc import Mapping

# Of each part that others wrote: its name, its licence, and what it is.
PARTS = (
    (
        "glibc",
        "LGPL-2.1-or-later",
        "The GNU C library, which bin/ is linked with; link/ has what to link anew with another",
    ),
    ("libgcc", "GPL-3.0-or-later WITH GCC-exception-3.1", "What gcc adds to each program that it links"),
    ("rattle-kit", "NOASSERTION", "The libraries of the kit, which are compiled into link/*.o, and link/*.a"),
)


def package(name: str, licence: str, about: str, **more: object) -> dict[str, object]:
    """A package, whose files are not told one by one."""
    return {
        "SPDXID": f"SPDXRef-{name}",
        "name": name,
        "downloadLocation": "NOASSERTION",
        "filesAnalyzed": False,
        "licenseConcluded": "NOASSERTION",
        "licenseDeclared": licence,
        "copyrightText": "NOASSERTION",
        "summary": about,
        **more,
    }


def told_of(name: str, content: bytes) -> dict[str, object]:
    """A program of a release, by its sum."""
    sums = [{"algorithm": "SHA256", "checksumValue": hashlib.sha256(content).hexdigest()}]
    return package(name, "MIT", f"bin/{name}", checksums=sums)


def spdx(base: str, commit: str, moment: int, programs: Mapping[str, bytes]) -> bytes:
    """The list of a release by its name and version, of a commit and its time in seconds, with programs by names."""
    name, _, version = base.rpartition("-")
    own = package(
        name, "MIT", "The tools, the pages and the examples", versionInfo=version, sourceInfo=f"commit {commit}"
    )
    packages = [own, *(told_of(*one) for one in programs.items()), *(package(*part) for part in PARTS)]
    contains = [(name, "CONTAINS", program) for program in programs]
    links = [(program, "STATIC_LINK", part[0]) for program in programs for part in PARTS]
    relations = [("DOCUMENT", "DESCRIBES", name), *contains, *links]
    found = {
        "spdxVersion": "SPDX-2.3",
        "dataLicense": "CC0-1.0",
        "SPDXID": "SPDXRef-DOCUMENT",
        "name": base,
        "documentNamespace": f"https://spdx.org/spdxdocs/{base}-{commit}",
        "creationInfo": {
            "created": datetime.datetime.fromtimestamp(moment, datetime.timezone.utc).strftime("%Y-%m-%dT%H:%M:%SZ"),
            "creators": ["Tool: rekhuso-dist"],
        },
        "packages": packages,
        "relationships": [
            {"spdxElementId": f"SPDXRef-{one}", "relationshipType": kind, "relatedSpdxElement": f"SPDXRef-{other}"}
            for one, kind, other in relations
        ],
    }
    return (json.dumps(found, indent=1) + "\n").encode()
