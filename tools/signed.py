"""Signatures of what a release has: by minisign, where the key is a file, or else by gpg."""

from __future__ import annotations

import pathlib
import subprocess
import tempfile


class NotSigned(Exception):
    """Why nothing is signed."""


def signature(content: bytes, what: str, key: str) -> tuple[str, bytes]:
    """The signature of what a file holds, with the end of its name. What is signed stands in that of minisign."""
    with tempfile.TemporaryDirectory() as folder:
        file = pathlib.Path(folder, "file")
        file.write_bytes(content)
        is_file = pathlib.Path(key).is_file()
        out = pathlib.Path(folder, "signature")
        words = ["minisign", "-S", "-s", key, "-m", str(file), "-x", str(out), "-t", what, "-c", f"{what}, by minisign"]
        if not is_file:
            words = ["gpg", "--local-user", key, "--armor", "--output", str(out), "--detach-sign", str(file)]
        try:
            done = subprocess.run(words, stderr=subprocess.PIPE, stdout=subprocess.DEVNULL, text=True, check=False)
        except OSError as error:
            raise NotSigned(f"{words[0]}: {error.strerror}") from error
        if done.returncode:
            raise NotSigned(f"{words[0]} has ended with status {done.returncode}: {done.stderr.strip()}")
        return ".minisig" if is_file else ".asc", out.read_bytes()
