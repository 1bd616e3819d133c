"""The limits that pages and tools tell are the constants of the crates, so a limit that is raised in a crate is noticed
wherever it is told."""

from __future__ import annotations

import ast
import re
import sys
import unittest

from tests.cases import TOP, Case
from tests.pages import flat, text

sys.path.append(str(TOP / "tools"))

from rekhuso.program import map_forms, monitor, session  # noqa: E402

NUMBER = r"(\d(?:[\d,]*\d)?)"
# Where the constants stand, by the crate and the file.
FILES = {
    "buckets": ("limits",),
    "crush": ("limits",),
    "mapparts": ("limits",),
    "balancer": ("limits",),
    "ticketlock": ("limits",),
    "epochlog": ("row",),
    "server": ("runs",),
    "session": ("holding", "watch"),
    "partjson": ("whole",),
    "mapstore": ("keep",),
    "osdmapstore": ("line", "word"),
}
# Constants that stand in others, by the crates from which they are imported.
GREATEST = {"u32::MAX": 2**32 - 1, "u64::MAX": 2**64 - 1}
# What a page says, or the help or an error of a program, `{}` for each number, and the constants, by their crates, in
# the order of the numbers.
PLAIN, WIDE = "buckets.PLAIN_DEVICES crush.PLAIN_BUCKETS", "buckets.MAX_DEVICES crush.MAX_BUCKETS buckets.MAX_STRAWS"
POOLS = "mapparts.PLAIN_POOLS mapparts.PLAIN_GROUPS"
KEYS = "mapparts.PLAIN_ENTRIES mapparts.MAX_ENTRIES"
TOLD: list[tuple[str, str, str]] = [
    (
        "README.md",
        "A plain map has at most {} OSDs, {} buckets of up to {} items each, {} rules, and {} pools of up to {} groups "
        "and up to size {}.",
        f"{PLAIN} mapparts.PLAIN_ITEMS mapparts.PLAIN_RULES {POOLS} mapparts.PLAIN_SIZE",
    ),
    (
        "README.md",
        "there may be {} OSDs, {} buckets, straw2 buckets of up to {} items, {} rules, and {} pools of up to size {} "
        "and {} groups ({} in all)",
        f"{WIDE} mapparts.MAX_RULES mapparts.MAX_POOLS mapparts.MAX_SIZE mapparts.MAX_GROUPS mapparts.MAX_TOTAL_GROUPS",
    ),
    ("docs/PROVED.md", "The headline holds for up to {} seats", "ticketlock.MAX_SEATS"),
    ("CHANGELOG.md", "straw2 buckets, up to {} OSDs, {} pools and rules", "buckets.MAX_DEVICES mapparts.MAX_POOLS"),
    ("docs/FORMATS.md", "| `version` | number: 1 or {} |", "mapparts.MAX_VERSION"),
    ("docs/FORMATS.md", "| `epoch` | number: 1 to {} |", "mapparts.MAX_FIRST_EPOCH"),
    ("docs/FORMATS.md", "number: 1 to {}, under `--stock` up to {}; OSDs", "buckets.PLAIN_DEVICES buckets.MAX_DEVICES"),
    ("docs/FORMATS.md", 'objects `{{"id","items","kind","type"}}`; under `--stock` up to {} |', "crush.MAX_BUCKETS"),
    ("docs/FORMATS.md", "| `buckets` | 1 to {} objects", "crush.PLAIN_BUCKETS"),
    ("docs/FORMATS.md", "| `rules` | 1 to {} objects", "mapparts.PLAIN_RULES"),
    ("docs/FORMATS.md", '`{{"id","kind","steps"}}`; under `--stock` up to {} |', "mapparts.MAX_RULES"),
    ("docs/FORMATS.md", "| `pools` | 0 to {} objects", "mapparts.PLAIN_POOLS"),
    ("docs/FORMATS.md", '"rule","size"}}`; under `--stock` up to {} |', "mapparts.MAX_POOLS"),
    ("docs/FORMATS.md", "| `pg_upmap` | 0 to {} entries `[group, [osd, ..]]`, under `--stock` up to {}:", KEYS),
    ("docs/FORMATS.md", "| 0 to {} entries `[group, [[from, to], ..]]`, under `--stock` up to {}:", KEYS),
    (
        "docs/FORMATS.md",
        "- **Bucket.** `id` is -1 down to -{}. `type` is 1 to {}.",
        "buckets.LOWEST_BUCKET buckets.MAX_LEVEL",
    ),
    (
        "docs/FORMATS.md",
        "`items` is a list of 1 to {} entries `[item, weight]` in the bucket's order, under `--stock` in a straw2 "
        "bucket of 1 to {}.",
        "buckets.MAX_ITEMS buckets.MAX_STRAWS",
    ),
    (
        "docs/FORMATS.md",
        "a weight is 1 to {}. - **Rule.** `id` is 0 to {}.",
        "mapparts.MAX_ITEM_WEIGHT mapparts.MAX_RULE_ID",
    ),
    ("docs/FORMATS.md", "`steps` is a list of 1 to {} steps:", "crush.MAX_STEPS"),
    ("docs/FORMATS.md", "with n from 1 to {}, and under", "crush.MAX_TRIES"),
    ("docs/FORMATS.md", "with n from 0 to {} and", "crush.MAX_VARY"),
    ("docs/FORMATS.md", "A count is 0 to {}, under `--stock` up to {},", "mapparts.PLAIN_SIZE crush.MAX_COUNT"),
    ("docs/FORMATS.md", "They count among the {} steps", "crush.MAX_STEPS"),
    (
        "docs/FORMATS.md",
        "- **Pool.** `id` is 1 to {}. `kind` is as for rules. `pg_num` is 1 to {} groups, under `--stock` up to {}, "
        "where all pools together have at most {} (else 12).",
        "mapparts.MAX_POOL_ID mapparts.PLAIN_GROUPS mapparts.MAX_GROUPS mapparts.MAX_TOTAL_GROUPS",
    ),
    (
        "docs/FORMATS.md",
        "`size` is 1 to {} places a group, under `--stock` up to {}.",
        "mapparts.PLAIN_SIZE crush.MAX_SIZE",
    ),
    ("docs/FORMATS.md", "`weight` is the reweight, 0 to {}, where", "crush.FULL_WEIGHT"),
    ("docs/FORMATS.md", "Each list has at most {} entries, under `--stock` {};", KEYS),
    ("docs/FORMATS.md", "a well-formed forest over {} devices. 14", "buckets.MAX_DEVICES"),
    ("docs/FORMATS.md", "| 22 | weight: at most {} |", "crush.FULL_WEIGHT"),
    (
        "docs/FORMATS.md",
        "at most {} pools after the change, under `--stock` {};",
        "mapparts.PLAIN_POOLS mapparts.MAX_POOLS",
    ),
    (
        "docs/FORMATS.md",
        "more than {} pools (under `--stock` {}) or {} groups after it",
        f"{POOLS.split()[0]} mapparts.MAX_POOLS mapparts.MAX_TOTAL_GROUPS",
    ),
    (
        "docs/FORMATS.md",
        "`LIMIT` one from 1 to {}, and `APART` one of 32 bits from {} on",
        "balancer.MAX_MOVES balancer.LEAST_APART",
    ),
    ("docs/FORMATS.md", "or nested deeper than {} |", "partjson.MAX_DEPTH"),
    ("docs/FORMATS.md", "more than {} levels |", "partjson.MAX_DEPTH"),
    ("docs/FORMATS.md", "MAP SCRIPT..` takes 1 to {} scripts.", "server.MAX_SCRIPTS"),
    ("docs/FORMATS.md", "how many changes the journal holds: 1 to {}, and", "epochlog.MAX_CAPACITY"),
    ("docs/FORMATS.md", "serves at most {} scripts as `osdmapd` does", "server.MAX_SCRIPTS"),
    ("docs/FORMATS.md", "`--keep N` (0 to {}; {} where it was never given)", "osdmapstore.MOST_KEPT mapstore.KEPT"),
    ("docs/FORMATS.md", "a start with scripts leaves {} changes,", "mapstore.KEPT"),
    ("docs/FORMATS.md", "1 to {} characters of visible ASCII, so no space", "osdmapstore.LONGEST"),
    ("docs/FORMATS.md", "An `await` gives up after {} looks", "session.MAX_LOOKS"),
    ("docs/FORMATS.md", "| 34 | AwaitSpent | {} looks", "session.MAX_LOOKS"),
    ("docs/COMMANDS.md", "as one map has at most {} pools", "mapparts.MAX_POOLS"),
    ("docs/COMMANDS.md", "A round has at most {} moves a pool", "balancer.MAX_MOVES"),
    (
        "docs/COMMANDS.md",
        "| up to {} OSDs, and pools of up to size {} | come in where a bucket is straw2; over other buckets alone {} "
        "OSDs, and size {} |",
        "buckets.MAX_DEVICES crush.MAX_SIZE buckets.PLAIN_DEVICES mapparts.PLAIN_SIZE",
    ),
    ("docs/COMMANDS.md", "| a straw2 bucket of up to {} items, in a flat root", "buckets.MAX_STRAWS"),
    (
        "docs/COMMANDS.md",
        "| up to {} buckets and {} rules that pools use; pools of up to {} groups |",
        "crush.MAX_BUCKETS mapparts.MAX_RULES mapparts.MAX_GROUPS",
    ),
    (
        "docs/COMMANDS.md",
        "over other buckets alone {} buckets, {} rules, and {} pools of up to {} groups each |",
        "crush.PLAIN_BUCKETS mapparts.PLAIN_RULES mapparts.PLAIN_POOLS mapparts.PLAIN_GROUPS",
    ),
    (
        "docs/COMMANDS.md",
        "| more than {} pools, or than {} groups together;",
        "mapparts.MAX_POOLS mapparts.MAX_TOTAL_GROUPS",
    ),
    ("docs/COMMANDS.md", "more than {} of those pools of a stock cluster", "mapparts.PLAIN_POOLS"),
    (
        "docs/COMMANDS.md",
        "with more than {} items; a pool of a size above {}; OSDs from {} on |",
        "buckets.MAX_ITEMS crush.MAX_SIZE buckets.MAX_DEVICES",
    ),
    ("docs/LIBRARY.md", "how many moves at most (1 to {}),", "balancer.MAX_MOVES"),
    ("docs/PROVED.md", "of up to {} seats and any number of followers", "ticketlock.MAX_SEATS"),
    ("docs/PROVED.md", "At most {} questions that follow one another", "session.LINES_IN_A_HOLD"),
    ("docs/PROVED.md", "The looks of an `await` are {} where", "session.MAX_LOOKS"),
    ("docs/PROVED.md", "is not 1 to {} characters of visible ASCII", "osdmapstore.LONGEST"),
    ("docs/DESIGN.md", "of up to {} seats and any number of followers", "ticketlock.MAX_SEATS"),
    ("docs/DESIGN.md", "{}, the most seats", "ticketlock.MAX_SEATS"),
    ("docs/DESIGN.md", "up to {} lines, and then the hold is given back", "session.LINES_IN_A_HOLD"),
    ("crates/balancer/README.md", "the `limit` of moves (1 to {})", "balancer.MAX_MOVES"),
    ("crates/ticketlock/README.md", "the lock and its seats, 1 to {};", "ticketlock.MAX_SEATS"),
    ("crates/server/README.md", "how many changes the run takes, 1 to {},", "epochlog.MAX_CAPACITY"),
    ("crates/server/README.md", "whose epoch is 1 to {},", "mapparts.MAX_FIRST_EPOCH"),
    ("crates/cli/src/arguments.rt", "How many changes the journal holds: 1 to {}", "epochlog.MAX_CAPACITY"),
    ("crates/osdmapd/src/line.rt", "change {{..}}; 1 to {} scripts", "server.MAX_SCRIPTS"),
    ("crates/osdmapstore/src/line.rt", "How many changes a run takes: 1 to {}", "epochlog.MAX_CAPACITY"),
    ("crates/osdmapstore/src/line.rt", "0 to \\ {}; {} where it was never said", "osdmapstore.MOST_KEPT mapstore.KEPT"),
    ("crates/osdmapstore/src/line.rt", "change {{..}}; at most {} \\ scripts", "server.MAX_SCRIPTS"),
    ("crates/osdmapstore/src/line.rt", "at most {} characters of visible", "osdmapstore.LONGEST"),
    ("crates/osdmapstore/src/ending.rt", "is not 1 to {} characters of visible ASCII", "osdmapstore.LONGEST"),
    ("crates/osdmapstore/specs/Endings.antt", "is not 1 to {} characters of visible ASCII", "osdmapstore.LONGEST"),
]


def value_of(formula: str, crate: str, texts: dict[str, str]) -> int:
    """The value of a constant by what stands behind its sign of equality: sums, shifts and names of other constants."""
    formula = re.sub(r" as \w+", "", formula)
    formula = re.sub(r"\b(\d[\d_]*)_?(?:u|i)\d+\b", r"\1", formula)
    for name, value in GREATEST.items():
        formula = formula.replace(name, str(value))
    for owner, name in re.findall(r"\b((?:\w+::)*)([A-Z]\w*)", formula):
        place = owner.split("::")[0]
        # `limits` alone is the module that mapparts imports from crush.
        home = place if place in FILES else "crush" if place == "limits" else crate
        formula = formula.replace(f"{owner}{name}", str(constant(f"{home}.{name}", texts)), 1)
    tree = ast.parse(formula, mode="eval")
    allowed = (ast.Expression, ast.BinOp, ast.UnaryOp, ast.Constant, ast.operator, ast.unaryop)
    assert all(isinstance(node, allowed) for node in ast.walk(tree)), formula
    return int(eval(compile(tree, "", "eval"), {}))


def constant(name: str, texts: dict[str, str]) -> int:
    """A constant, by its crate and its name."""
    crate, own = name.split(".")
    found = re.search(rf"\bconst {own}: \w+ = ([^;]+);", texts[crate])
    assert found, f"{name} is no constant of {FILES[crate]}"
    return value_of(found[1], crate, texts)


class LimitsTold(Case):
    """Limits in pages and tools."""

    is_form = True

    def setUp(self) -> None:
        """The texts of the files that have the constants."""
        self.texts = {
            crate: "\n".join(text("crates", crate, "src", f"{file}.rt") for file in files)
            for crate, files in FILES.items()
        }

    def test_pages(self) -> None:
        """Each limit that a page, help or an error tells is the constant of its crate"""
        for page, words, names in TOLD:
            with self.subTest(page=page, words=words):
                values = [abs(constant(name, self.texts)) for name in names.split()]
                form = re.escape(words.replace("{{", "{").replace("}}", "}")).replace(r"\{\}", NUMBER)
                found = re.findall(form, flat(TOP / page))
                self.assertTrue(found, "the page does not say so")
                for numbers in found:
                    told = [numbers] if isinstance(numbers, str) else list(numbers)
                    self.assertEqual([int(number.replace(",", "")) for number in told], values)

    def test_tools(self) -> None:
        """The limits that the tools have of maps, plans and stores are those of the crates"""
        stock = {
            "groups": "mapparts.MAX_GROUPS",
            "total": "mapparts.MAX_TOTAL_GROUPS",
            "entries": "mapparts.MAX_ENTRIES",
            "items": "buckets.MAX_STRAWS",
            "buckets": "crush.MAX_BUCKETS",
            "pools": "mapparts.MAX_POOLS",
            "rules": "mapparts.MAX_RULES",
            "osds": "buckets.MAX_DEVICES",
            "size": "crush.MAX_SIZE",
        }
        plain = {**{key: f"mapparts.PLAIN_{key.upper()}" for key in stock}, "total": stock["total"]}
        plain |= {"buckets": "crush.PLAIN_BUCKETS", "osds": "buckets.PLAIN_DEVICES"}
        for limits, names in ((map_forms.STOCK, stock), (map_forms.PLAIN, plain)):
            self.assertEqual(
                {key: getattr(limits, key) for key in names},
                {key: constant(name, self.texts) for key, name in names.items()},
            )
        self.assertEqual(map_forms.ITEMS, constant("buckets.MAX_ITEMS", self.texts))
        self.assertEqual(map_forms.FULL_WEIGHT, constant("crush.FULL_WEIGHT", self.texts))
        self.assertEqual(map_forms.LOWEST_BUCKET, constant("buckets.LOWEST_BUCKET", self.texts))
        steps = {**dict.fromkeys(map_forms.TRIES, "TRIES"), "set_chooseleaf_vary_r": "VARY"}
        for word, name in {**steps, "set_chooseleaf_stable": "STABLE"}.items():
            self.assertEqual(map_forms.RANGES[word][0][1], constant(f"crush.MAX_{name}", self.texts))
        self.assertEqual(session.MOST_MOVES, constant("balancer.MAX_MOVES", self.texts))
        self.assertEqual(monitor.RUN_MOST, constant("epochlog.MAX_CAPACITY", self.texts))
        self.assertEqual(int(monitor.MOST_KEPT), constant("osdmapstore.MOST_KEPT", self.texts))
        longest = constant("osdmapstore.LONGEST", self.texts)
        self.assertTrue(monitor.BY.fullmatch("~" * longest) and not monitor.BY.fullmatch("~" * (longest + 1)))

    def test_raised(self) -> None:
        """A limit that is raised is not that of the pages any more"""
        raised = {
            **self.texts,
            "mapparts": re.sub(r"(MAX_POOLS: usize =) [\d_]+", r"\1 1_000_000", self.texts["mapparts"]),
        }
        self.assertEqual(constant("mapparts.MAX_POOLS", raised), 1_000_000)
        self.assertLess(constant("mapparts.MAX_POOLS", self.texts), 1_000_000)
        self.assertGreater(sum("mapparts.MAX_POOLS" in names for _, _, names in TOLD), 4)


if __name__ == "__main__":
    unittest.main()
