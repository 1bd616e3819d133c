"""Many sessions at once, each answer checked by one history.

Each session has a script of mixed look-ups and changes over many pools, from a seed. The epochs are cut into stretches,
and half of the sessions wait for each stretch and then all try to change the map at each of its epochs in turn. One of
them does so by something that the map cannot refuse, so that the epochs go on however the sessions fall; plans of a
balancer go in between. `faults` rebuilds from the answers the one order in which changes were accepted, plays that
order by one session, with each line put at the epoch that its answer carries, and compares the answers.
"""

from __future__ import annotations

import json
import pathlib
import random
import re
import subprocess
import tempfile
from collections.abc import Callable, Iterable
from typing import Union

from tests.cases import Case
from tests.clusters import Json
from tests.whole_maps import map_of, osds_of, pool_of

# A line that one session is asked, and the place of what is to be compared, or what was answered.
Line = tuple[str, Union[int, str]]
FIRST, OSDS, HOSTS = 1, 24, 8
CLASSES, STRETCH = 2, 10
# The kinds of the hosts; the root has the first.
KINDS, STOCK = ("list", "tree", "uniform"), ("straw2", "list", "straw2", "tree")
SPARE_POOL = 77
SECONDS = 300
SPAN = re.compile(
    r"^(?:up|fup|count|groups|epoch|ok|follow) (\d+)|^moved \d+ epoch (\d+)|^err 20 StaleEpoch (\d+)"
    r"|^f?dump .*?\"epoch\":(\d+)"
)


# Maps and scripts


def pool(number: int, groups: int) -> Json:
    kind, size = ("erasure", 4) if number % 4 == 3 else ("replicated", 3)
    return pool_of(number, groups, size, int(kind == "erasure"), kind)


def forest(kinds: tuple[str, ...]) -> Json:
    """OSDs in hosts of some kinds under one root of the first, and a rule for copies and one for coded parts."""
    each = OSDS // HOSTS
    buckets = [{"id": -1, "items": [[-2 - h, 65536 * each] for h in range(HOSTS)], "kind": kinds[0], "type": 10}]
    buckets += [
        {"id": -2 - h, "items": [[each * h + i, 65536] for i in range(each)], "kind": kinds[h % len(kinds)], "type": 1}
        for h in range(HOSTS)
    ]
    rules = [
        {"id": number, "kind": kind, "steps": [["take", -1], [step, 0, 1], ["emit"]]}
        for number, (kind, step) in enumerate((("replicated", "chooseleaf_firstn"), ("erasure", "chooseleaf_indep")))
    ]
    return {"buckets": buckets, "rules": rules}


def a_map(pools: int, groups: int, kinds: tuple[str, ...] = KINDS) -> Json:
    """OSDs in hosts under one root, and pools of copies and of coded parts."""
    own, room = [pool(number, groups) for number in range(1, pools + 1)], OSDS + 1
    made = forest(kinds)
    return map_of(made["buckets"], made["rules"], own, osds_of(OSDS), epoch=FIRST, max_osd=room)


class Writer:
    """What writes the scripts of a run."""

    def __init__(self, seed: int, pools: int, groups: int, is_stock: bool = False) -> None:
        self.rng, self.pools, self.groups, self.is_stock = random.Random(seed), pools, groups, is_stock
        # An `await` gives up in less than a second. The more groups a change may evaluate, the longer it is waited for.
        self.awaits = 1 + groups // 1024

    def group(self) -> str:
        rng = self.rng
        number = SPARE_POOL if rng.random() < 0.05 else rng.randint(1, self.pools + (rng.random() < 0.02))
        return f"{number}.{rng.randrange(self.groups + (rng.random() < 0.05)):x}"

    def osd(self) -> int:
        return self.rng.randrange(OSDS + (self.rng.random() < 0.05))

    def look(self) -> str:
        """A line that changes nothing, or a plan."""
        rng, kind = self.rng, self.rng.random()
        if kind < 0.45:
            return f"up {self.group()}"
        if kind < 0.70:
            return f"{rng.choice(['count', 'groups'])} {self.osd()}"
        if kind < 0.85:
            return f"fup {self.group()}"
        if kind < 0.92:
            return rng.choice(["epoch", "follow", "follow"])
        if kind < 0.94:
            return rng.choice(["dump", "fdump"])
        if kind < 0.96:
            return f"balance {rng.randint(1, self.pools)} {rng.randint(1, 3)}"
        return rng.choice(["up 1", "count 99", "hello", 'change {"base":0}', 'change {"base":"x"}', "balance 99 1"])

    def state(self) -> Json:
        """A part that no map refuses."""
        osd = self.rng.randrange(OSDS)
        return self.rng.choice(
            [
                {"down": [osd]},
                {"up": [osd]},
                {"up": [osd]},
                {"weight": [[osd, self.rng.choice([0, 20000, 65536, 65536])]]},
            ]
        )

    def exceptions(self) -> Json:
        """A part that names a group."""
        rng, group = self.rng, self.group()
        pair = rng.sample(range(OSDS), 2)
        return rng.choice(
            [
                {"new_items": [[group, [pair]]]},
                {"old_items": [group]},
                {"new_upmap": [[group, rng.sample(range(OSDS), 3)]]},
                {"old_upmap": [group]},
                {"new_items": [[group, [[self.osd(), self.osd()]]]]},
            ]
        )

    def pools_part(self) -> Json:
        """A part that brings a pool, takes it away or lets it grow."""
        groups = self.rng.randint(1, self.groups)
        return self.rng.choice(
            [
                {"new_pools": [pool(SPARE_POOL, groups)]},
                {"old_pools": [SPARE_POOL]},
                {"grow_pool": [[SPARE_POOL, self.groups, groups]]},
            ]
        )

    def forest_part(self) -> Json:
        """A part that brings straw2 buckets or takes them."""
        return {"new_crush": forest(self.rng.choice([KINDS, STOCK, STOCK[::-1], ("straw2",)]))}

    def change(self, base: int, is_safe: bool) -> str:
        kind = self.rng.random()
        if self.is_stock and self.rng.random() < 0.1:
            return "change " + json.dumps({"base": base, **self.forest_part()}, separators=(",", ":"))
        if self.is_stock and self.rng.random() < 0.1:
            return "apply " + json.dumps(self.state(), separators=(",", ":"))
        part = self.state() if is_safe or kind < 0.4 else self.exceptions() if kind < 0.85 else self.pools_part()
        return "change " + json.dumps({"base": base, **part}, separators=(",", ":"))

    def script(self, place: int, lines: int, bases: int) -> list[str]:
        """The script of a session: it waits for each stretch of bases of its class, tries to change the map at each
        base of it, and looks at maps between."""
        own = [base for base in range(bases) if base // STRETCH % CLASSES == place % CLASSES]
        script: list[str] = []
        for number, base in enumerate(own):
            due = lines * (number + 1) // len(own) - 2
            script += [self.look() for _ in range(due - len(script))]
            script += [f"await {FIRST + base}"] * self.awaits * (base % STRETCH == 0)
            script.append(self.change(FIRST + base, place < CLASSES))
        return script + [self.look() for _ in range(lines - len(script))]


def scripts(
    seed: int, sessions: int, lines: int, pools: int, groups: int, is_stock: bool = False
) -> tuple[Json, list[list[str]]]:
    """A map and a script for each session; a quarter of a script's lines or so try to change the map. Under `--stock`
    some hosts are straw2 buckets, a change in ten brings other hosts, and one in ten has no base, which no map refuses.
    """
    writer = Writer(seed, pools, groups, is_stock)
    bases = CLASSES * (lines // 4 // STRETCH) * STRETCH
    return a_map(pools, groups, STOCK if is_stock else KINDS), [
        writer.script(place, lines, bases) for place in range(sessions)
    ]


# What the answers say


def epoch_of(answer: str) -> int | None:
    """The epoch that an answer carries, or None."""
    found = SPAN.match(answer)
    return next((int(word) for word in found.groups() if word), None) if found else None


def is_made(answer: str) -> bool:
    """Whether an answer tells of a change that was made."""
    return answer.startswith("ok ") or answer.startswith("moved ") and not answer.startswith("moved 0 ")


class Asked:
    """A line that is asked again of one history: what was answered, and the epochs at which it may be."""

    def __init__(self, where: str, line: str, answer: str, epochs: list[int] | tuple[int, int | None]) -> None:
        self.where, self.line, self.answer, self.epochs = where, line, answer, epochs

    def all_epochs(self, last: int) -> Iterable[int]:
        """Each of the epochs, up to the last that there is."""
        if isinstance(self.epochs, list):
            return self.epochs
        low, high = self.epochs
        return range(low, (last if high is None else high) + 1)


class History:
    """The one order of changes that the answers of all sessions tell, and what else is to be asked in it."""

    def __init__(self) -> None:
        self.made: dict[int, tuple[str, str]] = {}
        self.asked: list[Asked] = []
        self.wrong: list[str] = []

    def make(self, where: str, line: str, answer: str) -> None:
        epoch = epoch_of(answer) or 0
        if epoch in self.made:
            self.wrong.append(f"{where}: epoch {epoch} was made twice")
        self.made[epoch] = (line, answer)

    def last(self) -> int:
        return max(self.made, default=FIRST)

    def has_gaps(self) -> bool:
        return sorted(self.made) != list(range(FIRST + 1, self.last() + 1))


def own_epochs(script: list[str], answers: list[str]) -> list[int | None]:
    """The epoch of each answer of a session, of the map that it asked: None where the answer carries none or is a
    follower's."""
    return [
        None if line.startswith(("fup", "fdump", "follow")) else epoch_of(answer)
        for line, answer in zip(script, answers)
    ]


def take_follower(history: "History", where: str, line: str, answer: str, stand: int) -> int:
    """Puts a follower's line to the history, and answers where the follower then stands. It never goes back."""
    if line == "follow":
        epoch = epoch_of(answer)
        if epoch is None or epoch < stand:
            history.wrong.append(f"{where}: {line} at {stand} answered {answer}")
            return stand
        return epoch
    asked = answer[1:] if answer.startswith("f") else answer
    history.asked.append(Asked(where, line[1:], asked, [stand]))
    return stand


def take_given_up(history: "History", where: str, line: str, answer: str, low: int) -> None:
    """A session may give up waiting, where it has not seen the epoch that it waits for."""
    if answer != "err 34 AwaitSpent" or int(line.split()[1]) <= low:
        history.wrong.append(f"{where}: {line} answered {answer} at {low} or later")


def take_session(history: "History", name: str, script: list[str], answers: list[str]) -> None:
    """Puts the answers of a session to the history."""
    if len(script) != len(answers):
        history.wrong.append(f"{name}: {len(script)} lines, {len(answers)} answers")
    epochs, stand, low = own_epochs(script, answers), FIRST, FIRST
    for place, (line, answer, epoch) in enumerate(zip(script, answers, epochs)):
        where = f"{name}, line {place + 1}"
        if line.startswith(("fup", "fdump", "follow")):
            stand = take_follower(history, where, line, answer, stand)
        elif is_made(answer):
            history.make(where, line, answer)
        elif epoch is not None:
            history.asked.append(Asked(where, "epoch" if line.startswith("await") else line, answer, [epoch]))
        elif line.startswith("await"):
            take_given_up(history, where, line, answer, low)
        else:
            later = next((after for after in epochs[place:] if after is not None), None)
            history.asked.append(Asked(where, line, answer, (low, later)))
        if epoch is not None and epoch < low:
            history.wrong.append(f"{where}: epoch {epoch} after {low}")
        low = max(low, epoch or low)


def played(history: "History", last: int) -> list[Line]:
    """The lines of one session that make the history, each with what is to be compared: a place of `asked`, or what was
    answered."""
    at: dict[int, list[Line]] = {}
    for place, asked in enumerate(history.asked):
        for epoch in asked.all_epochs(last):
            at.setdefault(epoch, []).append((asked.line, place))
    lines: list[Line] = []
    for epoch in range(FIRST, last + 1):
        lines += at.get(epoch, [])
        if epoch < last:
            lines.append(history.made[epoch + 1])
    return lines


def sessions_of(output: str) -> list[list[str]]:
    """The answers of each session, by the headings."""
    found: list[list[str]] = []
    for line in output.splitlines():
        if re.fullmatch(r"session \d+", line):
            found.append([])
        else:
            found[-1].append(line)
    return found


def differences(history: "History", lines: list[Line], answers: list[str]) -> list[str]:
    """What one session answers otherwise than the many did."""
    wrong, met = [], set()
    for (line, wanted), answer in zip(lines, answers):
        if isinstance(wanted, str) and wanted != answer:
            wrong.append(f"{line[:200]}: many sessions {wanted}, one {answer}")
        elif not isinstance(wanted, str) and history.asked[wanted].answer == answer:
            met.add(wanted)
    for place, asked in enumerate(history.asked):
        if place not in met:
            wrong.append(
                f"{asked.where}: {asked.line[:200]} answered {asked.answer[:200]}, "
                f"one session at {asked.epochs} does not"
            )
    return wrong


def faults(
    all_scripts: list[list[str]], output: str, play: Callable[[list[str]], list[str]]
) -> tuple[list[str], int, int]:
    """What in the output of a run cannot be of one history, how many changes were made, and how many answers compared.
    `play` answers the lines of one session over the same map."""
    found, history = sessions_of(output), History()
    if len(found) != len(all_scripts):
        return [f"{len(found)} sessions answered"], 0, 0
    for number, (script, answers) in enumerate(zip(all_scripts, found), 1):
        take_session(history, f"session {number}", script, answers)
    if history.has_gaps() or history.wrong:
        return (
            history.wrong + [f"{len(history.made)} changes made, the last epoch {history.last()}"],
            len(history.made),
            0,
        )
    lines = played(history, history.last())
    answers = play([line for line, _ in lines])
    wrong = [] if len(answers) == len(lines) else [f"one session: {len(lines)} lines, {len(answers)} answers"]
    return wrong + differences(history, lines, answers), len(history.made), len(history.asked)


def run(
    command: pathlib.Path, folder: pathlib.Path, all_scripts: list[list[str]], value: Json, is_stock: bool = False
) -> tuple[list[str], Callable[[list[str]], list[str]]]:
    """A run of scripts at once over a map: its words, and what plays one session over that map."""
    options = ["--stock"] * is_stock + ["--journal", "65536"]

    def file(name: str, text: str) -> str:
        (folder / name).write_text(text, encoding="utf-8")
        return str(folder / name)

    def play(lines: list[str]) -> list[str]:
        words = [str(command), *options, stated, file("one", "".join(line + "\n" for line in lines))]
        return sessions_of(
            subprocess.run(words, stdout=subprocess.PIPE, text=True, check=True, timeout=SECONDS).stdout
        )[0]

    stated = file("map", json.dumps(value))
    names = [file(f"script-{number}", "\n".join(script) + "\n") for number, script in enumerate(all_scripts, 1)]
    return [str(command), *options, stated] + names, play


class Soak(Case):
    """All answers of many sessions are those of one history."""

    is_alone = True

    def soak(self, seed: int, size: tuple[int, int, int, int], least: tuple[int, int], is_stock: bool = False) -> None:
        """Runs sessions from a seed, and asks that so many changes were made and so many answers compared at least."""
        value, all_scripts = scripts(seed, *size, is_stock)
        with tempfile.TemporaryDirectory() as folder:
            words, play = run(self.program, pathlib.Path(folder), all_scripts, value, is_stock)
            output = subprocess.run(words, capture_output=True, text=True, timeout=SECONDS, check=True).stdout
            wrong, made, compared = faults(all_scripts, output, play)
        self.assertEqual(wrong[:3], [])
        self.assertGreaterEqual(made, least[0], "changes made")
        self.assertGreaterEqual(compared, least[1], "answers compared")

    def test_sessions_at_once(self) -> None:
        """8 sessions of 200 lines."""
        for seed in range(1, 5):
            with self.subTest(f"seed {seed}"):
                self.soak(seed, (8, 200, 6, 16), (100, 1400))

    def test_stock(self) -> None:
        """8 sessions of 200 lines under `--stock`."""
        self.soak(6, (8, 200, 6, 16), (100, 1400), is_stock=True)

    def test_writers(self) -> None:
        """16 sessions change the map without a base: none is refused, and each change has an epoch of its own."""
        scripts = [[f'apply {{"{word}":[{place}]}}' for word in ("down", "up") * 50] for place in range(16)]
        with tempfile.TemporaryDirectory() as folder:
            words, _ = run(self.program, pathlib.Path(folder), scripts, a_map(1, 1), is_stock=True)
            output = subprocess.run(words, capture_output=True, text=True, timeout=SECONDS, check=True).stdout
        made = [[re.sub("^ok ([0-9]+) evals 0$", r"\1", answer) for answer in found] for found in sessions_of(output)]
        epochs = [[int(epoch) if epoch.isdigit() else 0 for epoch in found] for found in made]
        self.assertEqual(sorted(sum(epochs, [])), list(range(FIRST + 1, FIRST + 1601)))
        self.assertEqual(epochs, [sorted(found) for found in epochs])

    def test_large_pools(self) -> None:
        """4 sessions under `--stock` over three pools of 65,536 groups, where a pool that comes may bring as many more,
        which are then all that there may be."""
        self.soak(7, (4, 40, 3, 65536), (20, 120), is_stock=True)
