"""The up sets of all groups of a pool in one answer (`ups`, `fups`), beside those that `up` and `fup` tell."""

from __future__ import annotations

import json
import pathlib
import random
import subprocess
import tempfile
import time

from rekhuso.program import answers
from rekhuso.program.agreement import POOL, are_whole_sets
from tests.cases import EXAMPLE, Case
from tests.clusters import Json
from tests.whole_maps import FULL, ON_OSDS, map_of, osd_of, pool_of, rule_of

SECONDS = 120
HOSTS, ON_HOST = 4, 3
# Rule 1 places the parts of an erasure pool on hosts, so that two of six find no OSD.
ON_PARTS = [["take", -1], ["chooseleaf_indep", 0, 1], ["emit"]]
# The pools with their groups: one, as many as a pool may have, and an erasure pool.
ONE, MOST, PARTS = 1, 2, 7
GROUPS = {ONE: 1, MOST: 65_536, PARTS: 300}
# What stands in place of a letter of sets in texts near to them, and how many of these are tried.
NEAR, TEXTS = ("", "[", "]", ",", " ", "1", "23", "] [", "none", "-", ".", "\t", "\u0663"), 20_000

# So many holds, and the seconds that the looks of an `await` take at least: a million, with a sleep after each 512.
HOLDS, LOOKS = 100, 1_000_000 // 512 * 250e-6


def stated() -> Json:
    """A map of the three pools over twelve OSDs, of which one is down and one is out."""
    hosts = [
        {
            "id": -2 - host,
            "items": [[ON_HOST * host + osd, FULL] for osd in range(ON_HOST)],
            "kind": "straw2",
            "type": 1,
        }
        for host in range(HOSTS)
    ]
    root = {"id": -1, "items": [[host["id"], ON_HOST * FULL] for host in hosts], "kind": "straw2", "type": 10}
    pools = [
        pool_of(ONE, GROUPS[ONE], 3),
        pool_of(MOST, GROUPS[MOST], 3),
        pool_of(PARTS, GROUPS[PARTS], 6, 1, "erasure"),
    ]
    osds = [osd_of(osd, osd != 3, 0 if osd == 4 else FULL) for osd in range(HOSTS * ON_HOST)]
    return map_of([root, *hosts], [rule_of(ON_OSDS), rule_of(ON_PARTS, 1, "erasure")], pools, osds)


class PoolSets(Case):
    """Sets of whole pools."""

    def answers(self, lines: list[str], *words: str, case: Json | None = None) -> list[str]:
        """What a session answers over the map, or another."""
        with tempfile.TemporaryDirectory() as folder:
            opened, script = pathlib.Path(folder) / "map", pathlib.Path(folder) / "script"
            opened.write_text(json.dumps(case or stated()))
            script.write_text("".join(f"{line}\n" for line in lines))
            command = [str(self.program), *words, str(opened), str(script)]
            done = subprocess.run(command, capture_output=True, text=True, check=True, timeout=SECONDS)
        return done.stdout.splitlines()[1:]

    def joined(self, word: str, pool: int) -> str:
        """What a pool's groups are told one by one, as it stands in one answer: sets without groups and primaries."""
        told = self.answers([f"{word} {pool}.{number:x}" for number in range(GROUPS[pool])], "--stock")
        return " ".join([f"{word}s 1 {pool}", *(answer.split(" ")[3] for answer in told)])

    def test_as_up(self) -> None:
        """Each pool's sets are those that `up` tells, from group 0 on."""
        for pool in GROUPS:
            with self.subTest(pool=pool):
                sets = self.joined("up", pool)
                self.assertEqual(self.answers([f"ups {pool}"], "--stock"), [sets])
                self.assertEqual("none" in sets, pool == PARTS)

    def test_follower(self) -> None:
        """So are those of a follower, which is made by the line where there is none yet, and stays at its map."""
        for pool in (ONE, PARTS):
            with self.subTest(pool=pool):
                sets = self.joined("fup", pool)
                lines = [f"fups {pool}", 'apply {"down":[0]}', f"fups {pool}", "follow", f"fups {pool}", f"ups {pool}"]
                first, _, second, _, third, monitors = self.answers(lines, "--stock")
                self.assertEqual([first, second], 2 * [sets])
                self.assertEqual(third, f"f{monitors}")

    def test_holds(self) -> None:
        """A hold of the lock lasts for its sets alone: a hundred are told in a few seconds, where holds that looked for
        an epoch as often as an `await` does would take 48 seconds"""
        begin = time.monotonic()
        self.answers([f"ups {ONE}"] * HOLDS, "--stock", case={**stated(), "pools": stated()["pools"][:1]})
        self.assertLess(time.monotonic() - begin, HOLDS * LOOKS / 2)

    def test_none_there(self) -> None:
        """A pool that is not there is 23; any other form is 33."""
        lines = [f"{word} {pool}" for word in ("ups", "fups") for pool in (3, 0, 4294967295)]
        self.assertEqual(self.answers(lines, "--stock"), ["err 23 UnknownPool"] * len(lines))
        forms = ["", " ", " 01", " +1", " -1", " 1 ", "  1", " 1.0", " 4294967296", " 1 2", "1"]
        lines = [f"{word}{form}" for word in ("ups", "fups") for form in forms]
        self.assertEqual(self.answers(lines, "--stock"), ["err 33 BadCommand"] * len(lines))

    def test_forms(self) -> None:
        """The tools take a text without empty places for one of sets where it has their form by its letters."""
        rng, texts = random.Random(5), set[str]()
        for _ in range(TEXTS):
            sets = [",".join(rng.choices(("0", "7", "512"), k=rng.randint(0, 3))) for _ in range(rng.randint(1, 3))]
            text = " ".join(f"[{own}]" for own in sets)
            at = rng.randrange(len(text))
            texts.update((text, text[:at] + rng.choice(NEAR) + text[at + rng.randint(0, 1) :]))
        unlike = [text for text in texts if "none" not in text and are_whole_sets(text) != bool(POOL.fullmatch(text))]
        self.assertEqual(unlike, [])
        self.assertEqual([text for text in texts if "none" in text and are_whole_sets(text)], [])
        self.assertTrue(1000 < sum(map(are_whole_sets, texts)) < len(texts) - 1000)

    def test_ups(self) -> None:
        """The sets of a pool have the primaries that each of them has by itself."""
        some: list[list[int | None]] = [[1, 2], [3], [], [None, 2], [1, None], [None, None]]
        for count in range(len(some) + 1):
            with self.subTest(count=count):
                own = answers.PoolSets(7, some[:count])
                wanted = [answers.Up(7, places, answers.primary_of(places)) for places in own.sets]
                self.assertEqual(list(answers.ups_in(own)), wanted)

    def test_plain(self) -> None:
        """Without `--stock` there are no such lines."""
        lines = [f"{word} {pool}" for word in ("ups", "fups") for pool in (1, 9)]
        self.assertEqual(self.answers(lines, case=json.loads(EXAMPLE.read_text())), ["err 33 BadCommand"] * len(lines))
