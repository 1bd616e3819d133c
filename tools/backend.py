"""The build of the package, by the standard library alone: pip runs this file, and needs no index for it.

A wheel and a source archive hold the files of the folder in which this file stands, sorted, with one time and one mode
for all. So two builds are the same bytes, and nothing that an earlier build has left gets in. `SOURCE_DATE_EPOCH` may
give another time.
"""

import sys

# This file has no word that an older Python does not read, so that it comes to the sentence.
if sys.version_info < (3, 9):
    sys.exit("rekhuso needs Python 3.9 or later, and this is Python %d.%d.%d" % tuple(sys.version_info[:3]))

import ast
import base64
import gzip
import hashlib
import io
import os
import pathlib
import re
import tarfile
import time
import zipfile
from typing import Any, Optional

TOP = pathlib.Path(__file__).resolve().parent
PACKAGE = TOP / "rekhuso"
# What a source archive has beside the package.
BESIDE = ("LICENSE", "README.md", "backend.py", "pyproject.toml")
# The time of all files where nobody gives another: the first second that a wheel can tell.
FIRST = 315532800


def tables() -> dict[str, dict[str, Any]]:
    """The tables of pyproject.toml whose values are texts and lists of texts, as Python writes these too."""
    found: dict[str, dict[str, Any]] = {"": {}}
    table, lines = "", iter((TOP / "pyproject.toml").read_text(encoding="utf-8").splitlines())
    for line in lines:
        head = re.fullmatch(r"\[(.*)\]", line)
        if head:
            table = head[1]
            found[table] = {}
        elif "=" in line:
            key, _, value = line.partition("=")
            while value.count("[") > value.count("]"):
                value += next(lines)
            found[table][key.strip()] = ast.literal_eval(value.strip()) if value.strip()[:1] in '"[' else value.strip()
    return found


def version() -> str:
    """The version of the package."""
    found = re.search(r'^VERSION = "(.*)"$', (PACKAGE / "version.py").read_text(encoding="utf-8"), re.MULTILINE)
    assert found is not None, "the package tells its version"
    return found[1]


def base() -> str:
    """What the names of all that is built begin with."""
    name: str = tables()["project"]["name"]
    return f"{name}-{version()}"


def metadata() -> str:
    """What the package tells of itself, with the README behind it."""
    project = tables()["project"]
    lines = [
        "Metadata-Version: 2.1",
        f"Name: {project['name']}",
        f"Version: {version()}",
        f"Summary: {project['description']}",
        "License: MIT",
        f"Keywords: {','.join(project['keywords'])}",
        *(f"Classifier: {name}" for name in project["classifiers"]),
        f"Requires-Python: {project['requires-python']}",
        "Description-Content-Type: text/markdown",
        "License-File: LICENSE",
    ]
    return "\n".join(lines) + "\n\n" + (TOP / "README.md").read_text(encoding="utf-8")


def entry_points() -> str:
    """The commands of the package."""
    scripts = tables()["project.scripts"]
    return "[console_scripts]\n" + "".join(f"{name} = {call}\n" for name, call in scripts.items())


def sources() -> dict[str, bytes]:
    """The files of the package by their paths."""
    paths = [path for path in PACKAGE.rglob("*") if path.suffix in (".py", ".typed", ".json") and path.is_file()]
    return {path.relative_to(TOP).as_posix(): path.read_bytes() for path in paths}


def moment() -> int:
    """The time that all files get, in seconds of Unix."""
    return max(int(os.environ.get("SOURCE_DATE_EPOCH", FIRST)), FIRST)


def record_line(path: str, content: bytes) -> str:
    """The line of a file in a wheel's record."""
    digest = base64.urlsafe_b64encode(hashlib.sha256(content).digest()).rstrip(b"=").decode()
    return f"{path},sha256={digest},{len(content)}\n"


def shared() -> dict[str, str]:
    """What a system keeps beside the command, by the paths below its prefix: completions and manual pages."""
    sys.path.insert(0, str(TOP))
    try:
        from rekhuso import manuals
    finally:
        sys.path.remove(str(TOP))
    return manuals.shared()


def information() -> dict[str, bytes]:
    """The files of a wheel beside the package's own, but for its record."""
    texts = {
        "METADATA": metadata(),
        "WHEEL": "Wheel-Version: 1.0\nGenerator: rekhuso\nRoot-Is-Purelib: true\nTag: py3-none-any\n",
        "LICENSE": (TOP / "LICENSE").read_text(encoding="utf-8"),
        "entry_points.txt": entry_points(),
    }
    texts = {f"{base()}.dist-info/{name}": text for name, text in texts.items()}
    texts.update({f"{base()}.data/data/{path}": text for path, text in shared().items()})
    return {path: text.encode() for path, text in texts.items()}


def put_wheel(folder: str, files: dict[str, bytes]) -> str:
    """Writes a wheel of some files, with its information and its record, into a folder, and tells its name."""
    found = dict(sorted({**files, **information()}.items()))
    record = f"{base()}.dist-info/RECORD"
    lines = [record_line(path, content) for path, content in found.items()] + [f"{record},,\n"]
    found[record] = "".join(lines).encode()
    name = f"{base()}-py3-none-any.whl"
    with zipfile.ZipFile(pathlib.Path(folder, name), "w", zipfile.ZIP_DEFLATED) as wheel:
        for path, content in found.items():
            entry = zipfile.ZipInfo(path, time.gmtime(moment())[:6])
            entry.external_attr = 0o100644 << 16
            entry.compress_type = zipfile.ZIP_DEFLATED
            entry.create_system = 3
            wheel.writestr(entry, content)
    return name


def archived(files: dict[str, bytes]) -> bytes:
    """An archive of some files, below a folder by the name of all that is built."""
    found = io.BytesIO()
    with tarfile.open(fileobj=found, mode="w", format=tarfile.USTAR_FORMAT) as archive:
        for path, content in sorted(files.items()):
            entry = tarfile.TarInfo(f"{base()}/{path}")
            entry.size, entry.mtime, entry.mode = len(content), moment(), 0o644
            archive.addfile(entry, io.BytesIO(content))
    return found.getvalue()


# What pip calls


def get_requires_for_build_wheel(config_settings: object = None) -> list[str]:
    """Nothing is needed."""
    return []


def get_requires_for_build_editable(config_settings: object = None) -> list[str]:
    """Nothing is needed."""
    return []


def get_requires_for_build_sdist(config_settings: object = None) -> list[str]:
    """Nothing is needed."""
    return []


def build_wheel(wheel_directory: str, config_settings: object = None, metadata_directory: Optional[str] = None) -> str:
    """Writes the wheel into a folder, and tells its name."""
    return put_wheel(wheel_directory, sources())


def build_editable(
    wheel_directory: str, config_settings: object = None, metadata_directory: Optional[str] = None
) -> str:
    """Writes a wheel into a folder that leads to the files of this folder, and tells its name."""
    return put_wheel(wheel_directory, {"rekhuso.pth": f"{TOP}\n".encode()})


def build_sdist(sdist_directory: str, config_settings: object = None) -> str:
    """Writes the source archive into a folder, and tells its name."""
    files = {**sources(), **{name: (TOP / name).read_bytes() for name in BESIDE}, "PKG-INFO": metadata().encode()}
    name = f"{base()}.tar.gz"
    with open(pathlib.Path(sdist_directory, name), "wb") as file:
        with gzip.GzipFile("", "wb", 9, file, moment()) as packed:
            packed.write(archived(files))
    return name
