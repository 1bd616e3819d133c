#!/usr/bin/env python3
"""Makes packages of the archive of a release: for Debian, and where rpmbuild is there, for RHEL.

    packages.py [--key KEY] ARCHIVE

`make packages` runs it. Each has the programs as the archive has them, the tools, manual pages, completions, the unit
of a store, the pages and the examples. They stand beside the archive, with a Containerfile and the checksums of all,
which are signed where a key is given. An archive in which something is not as it says is refused. Two packages of one
archive are the same bytes.
"""

from __future__ import annotations

import argparse
import gzip
import hashlib
import os
import pathlib
import shutil
import subprocess
import sys
import tempfile
from collections.abc import Iterator

import backend
import signed
from rekhuso.faults import Fault
from rekhuso.program.releases import Contents, faults_in, files_in, programs_in

SECONDS = 300
MAINTAINER = "Rekhuso maintainers <maintainers@users.noreply.rekhuso.example>"
SUMMARY = "a proved OSDMap monitor, and tools for people with a Ceph cluster"
ABOUT = (
    "Keeps the OSDMap of a Ceph-like cluster by a proved program, and judges and plans changes of a cluster with it."
)
# Starts the tools from where the package has them.
SCRIPT = """\
#!/usr/bin/python3
import os
import sys

sys.path[0] = os.path.join(os.path.dirname(os.path.dirname(os.path.realpath(__file__))), "share", "rekhuso")
from rekhuso.__main__ import main

sys.exit(main())
"""
# What is done once the files are there, and before they go.
AFTER = """\
if ! getent passwd osdmap > /dev/null; then
    useradd --system --user-group --no-create-home --home-dir /var/lib/osdmap --shell /usr/sbin/nologin osdmap
fi
python3 -m compileall -q /usr/share/rekhuso
if [ -d /run/systemd/system ]; then systemctl daemon-reload; fi
"""
BEFORE_END = "find /usr/share/rekhuso -depth -name __pycache__ -exec rm -rf {} +\n"
CONTROL = """\
Package: rekhuso
Version: {version}
Architecture: amd64
Maintainer: {maintainer}
Depends: python3 (>= 3.9), passwd
Section: admin
Priority: optional
Description: {summary}
 {about}
"""
SPEC = """\
Name: rekhuso
Version: {version}
Release: 1
Summary: {summary}
License: MIT
AutoReqProv: no
Requires: python3 >= 3.9, shadow-utils
%global __os_install_post %{{nil}}
%global _build_id_links none
%global debug_package %{{nil}}
%description
{about}
%install
cp -a {root}/. %{{buildroot}}
%post
{after}
%preun
{before}
%files
{files}
"""


class NotPacked(Exception):
    """Why there is no package."""


def ran(*words: str) -> None:
    """Runs a command with the time of all files."""
    variables = os.environ | {"SOURCE_DATE_EPOCH": str(backend.moment()), "LC_ALL": "C"}
    done = subprocess.run(words, env=variables, capture_output=True, text=True, check=False, timeout=SECONDS)
    if done.returncode:
        raise NotPacked(f"{words[0]} has ended with status {done.returncode}: {done.stderr.strip()[-900:]}")


def placed(path: str, content: bytes) -> Iterator[tuple[str, bytes]]:
    """Where a package has a file of the archive, if anywhere, and what it then holds."""
    top, _, rest = path.partition("/")
    name = path.rpartition("/")[2]
    if top == "bin":
        yield f"usr/lib/rekhuso/{name}", content
    elif path.startswith("tools/rekhuso/"):
        yield f"usr/share/rekhuso/{path[len('tools/') :]}", content
    elif path.startswith("tools/rekhuso_mgr/"):
        yield f"usr/share/ceph/mgr/rekhuso/{name}", content
    elif path.endswith(".1"):
        yield f"usr/share/man/man1/{name}.gz", gzip.compress(content, 9, mtime=0)
    elif path.endswith(".service"):
        yield f"usr/lib/systemd/system/{name}", content
    elif path.startswith("share/zsh/"):
        yield f"usr/share/zsh/vendor-completions/{name}", content
    elif top == "share":
        yield f"usr/{path}", content
    elif top in ("docs", "examples") or path in ("README.md", "CHANGELOG.md", "COMMIT", "gate.log"):
        yield f"usr/share/doc/rekhuso/{path}", content
    elif path == "LICENSE":
        yield "usr/share/doc/rekhuso/copyright", content


def lay_out(files: Contents, root: pathlib.Path) -> None:
    """Puts the files of a package below a folder, with their rights and one time for all."""
    held = dict(one for path, content in files.items() for one in placed(path, content))
    held["usr/bin/rekhuso"] = SCRIPT.encode()
    runs = {"usr/bin/rekhuso", *(f"usr/lib/rekhuso/{name}" for name in programs_in(files))}
    for path, content in held.items():
        own = root / path
        own.parent.mkdir(parents=True, exist_ok=True)
        own.write_bytes(content)
        own.chmod(0o755 if path in runs else 0o644)
    for name in programs_in(files):
        (root / "usr/bin" / name).symlink_to(f"../lib/rekhuso/{name}")
    for own in [root, *root.rglob("*")]:
        os.utime(own, (backend.moment(),) * 2, follow_symlinks=False)
        if own.is_dir() and not own.is_symlink():
            own.chmod(0o755)


def deb(root: pathlib.Path, out: pathlib.Path) -> pathlib.Path:
    """Writes the package for Debian, and tells its path."""
    own, path = root / "DEBIAN", out / f"rekhuso_{backend.version()}_amd64.deb"
    own.mkdir()
    told = CONTROL.format(version=backend.version(), maintainer=MAINTAINER, summary=SUMMARY, about=ABOUT)
    (own / "control").write_text(told, encoding="utf-8")
    for name, script in (("postinst", AFTER), ("prerm", BEFORE_END)):
        (own / name).write_text(f"#!/bin/sh\nset -e\n{script}", encoding="utf-8")
        (own / name).chmod(0o755)
    ran("dpkg-deb", "--root-owner-group", "-Zxz", "--build", str(root), str(path))
    shutil.rmtree(own)
    return path


def rpm(root: pathlib.Path, out: pathlib.Path) -> pathlib.Path:
    """Writes the package for RHEL, and tells its path."""
    with tempfile.TemporaryDirectory() as folder:
        spec = pathlib.Path(folder, "rekhuso.spec")
        files = sorted(f"/{path.relative_to(root)}" for path in root.rglob("*") if not path.is_dir())
        parts = {"summary": SUMMARY, "about": ABOUT, "after": AFTER, "before": BEFORE_END}
        spec.write_text(SPEC.format(version=backend.version(), root=root, files="\n".join(files), **parts))
        own = {
            "_topdir": folder,
            "_rpmdir": str(out),
            "_rpmfilename": "%{NAME}-%{VERSION}-%{RELEASE}.%{ARCH}.rpm",
            "_buildhost": "localhost",
            "use_source_date_epoch_as_buildtime": "1",
            "clamp_mtime_to_source_date_epoch": "1",
        }
        words = [word for name, value in own.items() for word in ("--define", f"{name} {value}")]
        ran("rpmbuild", "-bb", "--target", "x86_64", *words, str(spec))
    return out / f"rekhuso-{backend.version()}-1.x86_64.rpm"


def made(archive: pathlib.Path) -> list[pathlib.Path]:
    """Writes what there is to make of an archive beside it, and tells all paths."""
    files = files_in(str(archive))
    if faults := list(faults_in(files)):
        raise Fault(*faults)
    container = archive.parent / "Containerfile"
    container.write_bytes(files["packages/Containerfile"])
    with tempfile.TemporaryDirectory() as folder:
        root = pathlib.Path(folder, "root")
        lay_out(files, root)
        packed = [deb(root, archive.parent)]
        packed += [rpm(root, archive.parent)] if shutil.which("rpmbuild") else []
    return [archive, *packed, container]


def main() -> None:
    """Makes them, and tells the checksum of each."""
    own = argparse.ArgumentParser(description=__doc__, formatter_class=argparse.RawDescriptionHelpFormatter)
    own.add_argument("--key", help="the file of a key of minisign, or the name of one of gpg, to sign the checksums")
    own.add_argument("archive", type=pathlib.Path)
    given = own.parse_args()
    try:
        lines = [f"{hashlib.sha256(path.read_bytes()).hexdigest()}  {path.name}\n" for path in made(given.archive)]
        told, folder = "".join(lines).encode(), given.archive.parent
        (folder / "SHA256SUMS").write_bytes(told)
        if given.key is not None:
            end, signature = signed.signature(told, f"SHA256SUMS of the packages of {backend.base()}", given.key)
            (folder / f"SHA256SUMS{end}").write_bytes(signature)
    except Fault as fault:
        sys.exit("\n".join(fault.lines))
    except (NotPacked, signed.NotSigned) as fault:
        sys.exit(str(fault))
    print(told.decode(), end="")


if __name__ == "__main__":
    main()
