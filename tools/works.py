#!/usr/bin/env python3
"""Tells of each place that makes a room for runs of rules (a `Work` of crush), or something that brings one, where it
may not be made: status 1 where there is one.

    works.py [ROOT]

A run of a rule needs a `Work`, which counts it by a clause, and its searches by a token (a `Tip` of tip). A state makes
rooms, each with a `Work`, once, when it is opened. It lends them to all that runs rules, and clauses of the state say
how many runs they have counted together. Runs with another work, and searches with another token, would be counted
elsewhere, and no contract could tell. So the call that makes each of these stands in the files that stand here, once in
each with no loop round it, and in no other; so does the call that opens a monitor, tests aside, and the empty place
into which a session's follower comes. A function by which one is made is called once by each other one of its file.

This is a search of the text of each file by itself. It sees the names of what makes something, other names for it, and
macros that make whatever they are given. It does not see how often a function is called from another file, nor what a
body hides from such a search.
"""

from __future__ import annotations

from collections.abc import Iterator
import pathlib
import re
import sys

WORKS = {
    "pgtable/src/rooms.rt": "one for each room that groups are placed in",
    "monitor/src/follower.rt": "a follower answers from a map of its own, which has no table and no patch",
    "verdict/src/judging.rt": "a script is judged over a map of its own, which has no table",
}
TOKENS = {
    "crush/src/work.rt": "the one by which a work knows its searches",
    "monitor/src/open.rt": "the one by which members know what they have seen",
}
ROOMS = {
    "state/src/state.rt": "the rooms that all runs of a state are counted in",
    "verdict/src/counts.rt": "those of a table from which the groups of each OSD are counted",
}
STATES = {"monitor/src/open.rt": "the state of the monitor"}
FOLLOWERS = {
    "session/src/following.rt": "the follower of a session",
    "library_example/src/main.rt": "a follower as the library has them",
}
MONITORS = {
    "server/src/runs.rt": "the one of a run",
    "library_example/src/main.rt": "a monitor as the library has them",
}
# Where an empty place for a follower is made, which the first line that asks for one fills: with another place a second
# one would come, whose runs count nowhere. In all files of these crates that speak of one, tests aside.
PLACES = {
    "session/src/progress.rt": "what a script has come to",
    "server/src/playing.rt": "what is left of a session, where nothing was read",
}
PLACED_IN = ("session", "server")
PLACE = r"(?:&mut|[=:])\s*None\b(?!\s*=>)|\.take\(\)|\bmem\s*::"
TESTS = "integration_tests"
# What makes something, by its name: the crate that declares it, and where it may be made elsewhere.
MAKERS: dict[str, tuple[str, dict[str, str]]] = {
    "Work": ("crush", WORKS),
    "Tip": ("tip", TOKENS),
    "Rooms": ("pgtable", ROOMS),
    "State": ("state", STATES),
    "Follower": ("monitor", FOLLOWERS),
}
CALL = r"\b{0}>?\s*::\s*new\b"
OPENS = r"\bMonitor\b(?:\s*::\s*<[^;]*?>)?\s*::\s*open\w*"
# Another name, which stands nowhere outside the crate: of a `use` or a `type`, and the `Self` of an `impl` for it.
OTHER_NAME = r"\b{0}\s+as\b|\btype\s+\w+\s*=[^;]*\b{0}\b|\bimpl\b[^{{}};]*\bfor\b[^{{}};]*\b{0}\b"
# A macro that makes whatever it is given.
ANY_NAME = r"\$\w+\s*>?\s*::\s*new\b"
# Where many are made, one for each room. Elsewhere no loop stands round the one call: in no function that makes it, and
# in none of its file by which that one is called.
MANY = ("pgtable/src/rooms.rt",)
LOOP = r"\b(?:for|while|loop|for_each|from_fn|repeat\w*)\b"


def texts_of(file: pathlib.Path) -> tuple[str, str]:
    """The text of a file, its tests too: as it is, and with no comments, which may part the words of a call. What seems
    to be a comment may be part of a string, so each of the two counts."""
    text = file.read_text()
    return text, re.sub(r"/\*.*?\*/", " ", re.sub(r"//.*", "", text), flags=re.DOTALL)


def times_in(file: pathlib.Path, pattern: str) -> int:
    """How often a pattern stands in the text of a file."""
    return max(len(re.findall(pattern, text)) for text in texts_of(file))


def functions_of(file: pathlib.Path) -> dict[str, str]:
    """The functions of a file, each with its text up to the next, with no comments and no heads of an `impl`."""
    text = re.sub(r"\bimpl\b[^{;]*", " ", texts_of(file)[1])
    found: dict[str, str] = {}
    for name, rest in re.findall(r"\bfn\s+(\w+)(.*?)(?=\bfn\s+\w+|\Z)", text, re.DOTALL):
        found[name] = found.get(name, "") + rest
    return found


def is_repeated(file: pathlib.Path, call: str) -> bool:
    """Whether a loop may stand round a call, or a function that calls itself, or one that comes to it twice."""
    functions = functions_of(file)
    asked = {name for name, text in functions.items() if re.search(call, text)}
    seen: set[str] = set()
    while asked - seen:
        name = min(asked - seen)
        seen.add(name)
        if name != "new":
            asked |= {other for other, text in functions.items() if re.search(rf"\b{name}\b", text)}
    if any(len(re.findall(rf"\b{name}\s*\(", text)) > 1 for name in seen - {"new"} for text in functions.values()):
        return True
    return any(re.search(LOOP if name == "new" else rf"{LOOP}|\b{name}\s*\(", functions[name]) for name in seen)


def places(root: pathlib.Path) -> Iterator[tuple[str, str, bool]]:
    """Where a monitor is opened, and where an empty place for a follower is made, and whether it may be."""
    for file in sorted((root / "crates").glob("*/src/**/*.rt")):
        place = file.relative_to(root / "crates").as_posix()
        crate = place.split("/")[0]
        if crate not in ("monitor", TESTS) and (opened := times_in(file, OPENS)):
            yield place, "monitor", place in MONITORS and opened == 1 and not is_repeated(file, OPENS)
        text = re.sub(r"ghost use .*", "", texts_of(file)[1])
        if crate in PLACED_IN and re.search(r"\bfollower\b", text) and (found := re.findall(PLACE, text)):
            yield place, "place for a follower", place in PLACES and len(found) == 1


def makers(root: pathlib.Path) -> Iterator[tuple[str, str, bool]]:
    """What is made in each file outside the crate that declares it, where it may be, and how often."""
    for file in sorted((root / "crates").glob("*/src/**/*.rt")):
        place = file.relative_to(root / "crates").as_posix()
        for what, (home, allowed) in MAKERS.items():
            call = CALL.format(what)
            called = times_in(file, call)
            if called:
                once = called == 1 and (place in MANY or not is_repeated(file, call))
                yield place, what, place in allowed and once
            if times_in(file, OTHER_NAME.format(what)) and not place.startswith(f"{home}/"):
                yield place, f"name of its own for {what}", False
        if times_in(file, ANY_NAME):
            yield place, "macro that makes what it is given", False


def main() -> int:
    """Tells what is made where it may not be; the status."""
    root = pathlib.Path(sys.argv[1] if len(sys.argv) > 1 else pathlib.Path(__file__).parent.parent)
    found = [*makers(root), *places(root)]
    wrong = [(place, what) for place, what, may_be in found if not may_be]
    for place, what in wrong:
        print(f"crates/{place}: a {what} that tools/works.py does not allow there, or more than one", file=sys.stderr)
    told = f"{len(wrong)} of them where none may be, or one too many"
    print(f"works: {len(found)} places that make one or bring one, {told}")
    return 1 if wrong else 0


if __name__ == "__main__":
    sys.exit(main())
