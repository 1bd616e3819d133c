#!/usr/bin/env python3
"""Prints on what machine and when the tables that follow were measured."""

from __future__ import annotations

import datetime
import os
import re
from typing import Any


def processor() -> Any:
    """The name of the processor."""
    with open("/proc/cpuinfo", encoding="utf-8") as text:
        found = re.search(r"^model name\s*: (.*)$", text.read(), re.M)
    return found.group(1) if found else "a processor without a name"


def main() -> None:
    load = os.getloadavg()[0]
    print(
        f"{datetime.datetime.now():%Y-%m-%d %H:%M}, {os.cpu_count()} cores, {processor()}; "
        f"load at the beginning {load:.1f}",
        flush=True,
    )


if __name__ == "__main__":
    main()
