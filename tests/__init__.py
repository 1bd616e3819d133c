"""Tests of the built program and of the tools beside it, each module of one subject: `python3 -m unittest
tests.plans`."""

from __future__ import annotations

import pathlib
import sys

sys.path.append(str(pathlib.Path(__file__).resolve().parent.parent / "tools"))
