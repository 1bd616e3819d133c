#!/usr/bin/env python3
"""Runs a command that takes minutes, and tells from time to time that it goes on, where no terminal shows it.

    going.py SECONDS NAME COMMAND..

Lines such as `make try: at work for 30 s` go to standard error, which is a file or a pipe then. The status is that of
the command.
"""

from __future__ import annotations

import subprocess
import sys
import time


def ended(process: subprocess.Popen[bytes], pause: float, name: str) -> int:
    """The status of a process, once it has ended; until then lines at each pause."""
    begin = time.monotonic()
    while True:
        try:
            return process.wait(pause)
        except subprocess.TimeoutExpired:
            if not sys.stderr.isatty():
                print(f"{name}: at work for {time.monotonic() - begin:.0f} s", file=sys.stderr, flush=True)


def main() -> int:
    """Runs the command, and tells its status."""
    pause, name, *words = sys.argv[1:]
    with subprocess.Popen(words) as process:
        try:
            return ended(process, float(pause), name)
        except KeyboardInterrupt:  # The command has been told so too.
            return 130


if __name__ == "__main__":
    sys.exit(main())
