"""Files and standard input: texts and JSON objects in and out, `-` for standard input."""

from __future__ import annotations

import contextlib
import io
import json
import os
import pathlib
import re
import shutil
import stat
import sys
import zlib
from collections.abc import Callable, Mapping
from functools import lru_cache, wraps
from typing import Any, Dict, TypeVar, cast

from .faults import Misuse, Trouble
from .running import RUN

JsonObject = Dict[str, Any]
Found = TypeVar("Found")
# How a file begins that gzip has packed (RFC 1952), and how texts begin of another form than UTF-8.
GZIP, GZIP_BITS = b"\x1f\x8b", 31
FORMS = {
    b"\xef\xbb\xbf": "it begins with a byte order mark, which JSON does not have",
    **dict.fromkeys((b"\xff\xfe", b"\xfe\xff", b"{\0", b"\0{"), "UTF-16, and not UTF-8"),
}
# How begins what Ceph's commands print for people.
PLAIN = {
    r"\s*epoch \d+\n": "ceph osd dump",
    r"\s*version \d+\n": "ceph pg dump",
    r"\s*ID +CLASS +WEIGHT +REWEIGHT": "ceph osd df",
    r"\s*ID +CLASS +WEIGHT +TYPE": "ceph osd tree",
    r"\s*--- RAW STORAGE ---": "ceph df",
}


@lru_cache(maxsize=1)
def standard_input() -> bytes:
    """All of standard input, which is read once, and may be asked for again."""
    return sys.stdin.buffer.read() if isinstance(sys.stdin, io.TextIOWrapper) else sys.stdin.read().encode()


class InMemory(str):
    """What a caller of Python gives in place of a file: the name by which faults tell it, and what it holds. It is
    alike to itself alone, whatever the names are.
    """

    data: bytes
    made: dict[object, Any]

    def __str__(self) -> str:
        """It itself, so that it goes wherever a path does."""
        return self

    def __eq__(self, other: object) -> bool:
        """Whether it is the other."""
        return self is other

    def __ne__(self, other: object) -> bool:
        """Whether it is not the other."""
        return self is not other

    def __hash__(self) -> int:
        """Its own."""
        return id(self)


def in_memory(name: str, value: object) -> InMemory:
    """What stands in place of a file of a name: bytes or a text as they are, or else a value as JSON has it."""
    found = InMemory(name)
    found.data = (
        value if isinstance(value, bytes) else (value if isinstance(value, str) else json.dumps(value)).encode()
    )
    found.made = {}
    return found


def piped(path: str) -> bytes:
    """All of a pipe, which a run reads once, and may ask for again. OSError where it cannot be read."""
    run = RUN.get()
    if run is not None and path in run.pipes:
        return run.pipes[path]
    with open(path, "rb") as file:
        found = file.read()
    if run is not None:
        run.pipes[path] = found
    return found


def stamp_of(path: str) -> object:
    """What tells a file from what stood at its path before: its place on the disk, its size and its times. None of what
    is no file, which a run reads once.
    """
    try:
        own = os.stat(path)
    except OSError:
        return None
    is_file = stat.S_ISREG(own.st_mode)
    return (own.st_dev, own.st_ino, own.st_size, own.st_mtime_ns, own.st_ctime_ns) if is_file else None


def remembered(most: int) -> Callable[[Callable[[str], Found]], Callable[[str], Found]]:
    """Has a function remember what it made of so many files, each as long as it is the same file."""

    def of(read: Callable[[str], Found]) -> Callable[[str], Found]:
        """The function that remembers."""

        @lru_cache(maxsize=most)
        def kept(path: str, stamp: object) -> Found:
            """What is made of a file."""
            return read(path)

        @wraps(read)
        def found(path: str) -> Found:
            """What was made of it, or is made now."""
            stamp = None if isinstance(path, InMemory) else stamp_of(path)
            if stamp is not None:
                return kept(path, stamp)
            run = RUN.get()
            made = path.made if isinstance(path, InMemory) else {} if run is None else run.made
            if (read, path) not in made:
                made[read, path] = read(path)
            return cast(Found, made[read, path])

        return found

    return of


def bytes_of(path: str) -> bytes:
    """What a file holds, or standard input where the path is `-`. A fault where it cannot be read."""
    if isinstance(path, InMemory):
        return path.data
    try:
        if path == "-":
            return standard_input()
        if os.path.exists(path) and not os.path.isfile(path):
            return piped(path)
        with open(path, "rb") as file:
            return file.read()
    except OSError as fault:
        raise Trouble(f"{path}: {fault.strerror}") from None


def unpacked(path: str, data: bytes) -> bytes:
    """What was packed by gzip, in one part or several."""
    found = []
    try:
        while data.strip(b"\0"):
            part = zlib.decompressobj(GZIP_BITS)
            found.append(part.decompress(data))
            if not part.eof:
                raise zlib.error
            data = part.unused_data
    except zlib.error:
        raise Trouble(f"{path}: a gzip file that is cut off or damaged") from None
    return b"".join(found)


def unpacked_bytes(path: str) -> bytes:
    """What a file holds, or standard input where the path is `-`, also of one that gzip has packed. A fault where it
    cannot be read.
    """
    data = bytes_of(path)
    return unpacked("standard input" if path == "-" else path, data) if data.startswith(GZIP) else data


def text_of(path: str) -> str:
    """The text of a file, or of standard input where the path is `-`, also of one that gzip has packed. A fault where
    it cannot be read or is no UTF-8.
    """
    data, told = unpacked_bytes(path), "standard input" if path == "-" else path
    if not data:
        raise Trouble(f"{told}: empty")
    for begin, form in FORMS.items():
        if data.startswith(begin):
            raise Trouble(f"{told}: {form}")
    try:
        return data.decode().replace("\r\n", "\n")
    except UnicodeDecodeError:
        raise Trouble(f"{told}: no UTF-8") from None


def put_files(texts: Mapping[str, str]) -> None:
    """Writes texts into files by their paths, all of them whole or none: each is written beside its place first. Into
    what is no file (a pipe, a terminal) a text is written as it is. A fault with its path where one cannot be written,
    and an error of use where one is `-`.
    """
    made: list[tuple[str, str]] = []
    new = []
    try:
        for path, text in texts.items():
            made += put_beside(path, text)
        for own, place in made:
            new += [] if os.path.exists(place) else [place]
            os.replace(own, place)
    except BaseException as fault:
        for path in [*(own for own, _ in made), *new]:
            with contextlib.suppress(OSError):
                os.remove(path)
        if isinstance(fault, OSError):
            raise Trouble(f"{fault.filename2 or fault.filename}: {fault.strerror}") from None
        raise


def put_beside(path: str, text: str) -> list[tuple[str, str]]:
    """Writes a text into a file beside its place: the two paths; none where the place is no file, and has the text. An
    OSError has the path of the place, and then nothing stands beside it.
    """
    if path == "-":
        raise Misuse("-: no file; standard output has what the command tells")
    place = os.path.realpath(path)
    is_special = os.path.exists(place) and not os.path.isfile(place)
    own = place if is_special else f"{place}.{os.getpid()}"
    is_made = False
    try:
        with open(own, "w" if is_special else "x", encoding="utf-8", errors="backslashreplace") as file:
            is_made = not is_special
            file.write(text)
        if os.path.exists(place) and not is_special:
            shutil.copymode(place, own)
    except BaseException as fault:
        if is_made:
            os.remove(own)
        if isinstance(fault, OSError):
            raise OSError(fault.errno, fault.strerror, path) from None
        raise
    return [] if is_special else [(own, place)]


def put_folder(folder: str, files: Mapping[str, str]) -> list[str]:
    """Writes texts into files of a folder by their names, all of them whole or none, and tells their paths. The folder
    is made where there is none. A fault with the path of what cannot be made.
    """
    if folder == "-":
        raise Misuse("-: no folder; standard output has what the command tells")
    is_there = os.path.exists(folder)
    paths = {str(pathlib.Path(folder, name)): text for name, text in files.items()}
    try:
        os.makedirs(folder, exist_ok=True)
    except OSError as fault:
        raise Trouble(f"{folder}: {fault.strerror}") from None
    try:
        put_files(paths)
    except BaseException:
        if not is_there:
            with contextlib.suppress(OSError):
                os.rmdir(folder)
        raise
    return list(paths)


def put(path: str, text: str) -> None:
    """Writes a text into a file, whole or not at all. A fault with its path where it cannot be written."""
    put_files({path: text})


def json_of(path: str, *keys: str) -> JsonObject:
    """The object of a JSON file that has these keys. A fault where there is none."""
    text = text_of(path)
    try:
        value = json.loads(text)
    except (ValueError, RecursionError) as fault:
        plain = next((command for begin, command in PLAIN.items() if re.match(begin, text)), None)
        why = f"no JSON: {fault}" if plain is None else f"what `{plain}` prints without -f json"
        raise Trouble(f"{path}: {why}") from None
    if not isinstance(value, dict):
        raise Trouble(f"{path}: no JSON object")
    missing = [key for key in keys if key not in value]
    if missing:
        raise Trouble(f"{path}: no {', '.join(missing)} in it")
    return value


def is_text(value: object) -> bool:
    """Whether a value is a text that can be written as UTF-8, which half of a pair of surrogates cannot."""
    try:
        return isinstance(value, str) and bool(value.encode() or True)
    except UnicodeEncodeError:
        return False
