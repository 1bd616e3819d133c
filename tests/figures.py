"""The figures of the pages can be counted again: each is tied to the rows and the column of a table in bench/results
from which it comes, or to what a page there says, and is that number to as many digits as the page gives."""

from __future__ import annotations

import math
import re
import unittest
from collections.abc import Callable
from typing import NamedTuple

from tests.cases import TOP, Case
from tests.pages import NUMBER, NUMBERS, RESULTS, flat, pages, text

# So many digits of a time, a rate or a size are worth telling: the machine did other work beside.
DIGITS = 3
WORDS = "|".join(NUMBERS)
FIGURE = rf"({NUMBER}|{WORDS})"
UNITS = "min|minutes?|s|seconds?|hours?|ms|µs|ns|GB|microseconds|milliseconds|instructions"
BESIDE = (
    r"of \d+ pools|`up` lines|lines a second|a second\b|% of (?:the )?processor|processor minutes|bytes a group"
    r"|times the (?:memory|time)|of (?:the|its) instructions|of (?:plain )?C\b|of its share"
)


class Cells(NamedTuple):
    """The cells of a page of results: in each table that has the columns, of each row whose first cell is as said."""

    page: str
    row: str
    column: str
    pick: Callable[[list[float]], float]
    divisor: float = 1


class Tie(NamedTuple):
    """Words of a page, `{}` for each figure, and where each comes from: cells, or words of a page of results that have
    the same figures in the same order; with neither, the words are stated as they are and nobody measured them."""

    page: str
    words: str
    cells: tuple[Cells, ...] = ()
    said: tuple[str, str] | None = None


def only(values: list[float]) -> float:
    """The one value of cells that all have the same."""
    assert len(set(values)) == 1, f"{values} are not one value"
    return values[0]


def last(values: list[float]) -> float:
    """The last value of cells."""
    return values[-1]


def one(page: str, row: str, column: str) -> tuple[Cells, ...]:
    """One figure, of one cell."""
    return (Cells(page, row, column, only),)


def span(page: str, row: str, column: str, divisor: float = 1) -> tuple[Cells, ...]:
    """Two figures, the least of some cells and the greatest."""
    return Cells(page, row, column, min, divisor), Cells(page, row, column, max, divisor)


def by_data(name: str, *plans: tuple[str, tuple[str, ...]]) -> Tie:
    """A row of what plans did to a cluster: its fullest OSD before, and some columns of each plan."""
    cells = [Cells("whole_cluster", f"{name}, {plans[0][0]}", "fullest before", last)]
    cells += [Cells("whole_cluster", f"{name}, {plan}", column, last) for plan, columns in plans for column in columns]
    told = [", ".join("{}" for _ in columns[:-1]) + ": {}" for _, columns in plans]
    return Tie("docs/COMMANDS.md", f"| `{name}`, {{}} | " + " | ".join(told) + " |", tuple(cells))


def by_runs(*columns: str, plan: str = "plan --df") -> tuple[Cells, ...]:
    """Columns of the row that counts all plans by data of one kind."""
    return tuple(Cells("plans_by_data", f"60 clusters, {plan}", column, only) for column in columns)


ALL_OF_PLAN, NOT_MOVED = ("commands", "data moved, TiB", "after"), ("commands", "after")
BY_DATA = [("plan --df", ALL_OF_PLAN), ("plan --df --room", ALL_OF_PLAN)]
ALL = ".*"
BUCKETS = "uniform buckets|list buckets|tree buckets"
MADE_UP = "(many_small|het_many|classes_many|tuned), "
WIDE = "1,008 OSDs: 65,536 groups|4,096 OSDs: 65,536|16 pools of 65,536"
SMALL, LARGE = "4,096 groups over 64 OSDs.*", "4,096 groups over 1,024 OSDs.*"
TRY, RUNS = "`make try` takes {} to {} minutes", "runs of the built program {} to {} minutes"
TIES = [
    Tie(
        "CONTRIBUTING.md",
        "before any proof, with a program built with checks in place of proofs | {} to {} minutes",
        said=("gate", TRY),
    ),
    Tie("CONTRIBUTING.md", "and answers the example | {} to {} minutes at first", span("gate", ALL, "osdmapd")),
    Tie(
        "CONTRIBUTING.md",
        "then runs of the program | {} to {} minutes, then the runs",
        span("gate", ALL, "seconds", 60),
    ),
    Tie("CONTRIBUTING.md", "only the runs of the built program | {} to {} minutes", said=("gate", RUNS)),
    Tie(
        "CONTRIBUTING.md",
        "Each proof needs {} to {} GB of memory",
        said=("gate", "Each proof needs {} to {} GB of memory"),
    ),
    Tie("README.md", "One session answers {} `up` lines a second", one("sessions", "1", "`up` lines a second")),
    Tie("README.md", "A map of 131,072 groups opens in {} to {} ms", span("tables", "opening, ms", BUCKETS)),
    Tie(
        "README.md",
        "A placement takes {} to {} of the instructions of plain C, and {} to {} of those of Ceph's",
        span("placements", ALL, "to plain C") + span("placements", ALL, "to `osdmaptool`"),
    ),
    Tie(
        "README.md",
        "deviation from {} to {} groups before. `plan` leaves {} to {}, and Ceph's own balancer {} to {}",
        span("whole_cluster", f"{MADE_UP}before", "groups: deviation")
        + span("whole_cluster", f"{MADE_UP}plan", "groups: deviation")
        + span("whole_cluster", f"{MADE_UP}osdmaptool, deviation 1", "groups: deviation"),
    ),
    Tie(
        "README.md",
        "the fullest OSD has {} to {} of its share before, {} to {} after `plan`, and {} to {} after Ceph's",
        span("whole_cluster", f"{MADE_UP}before", "fullest")
        + span("whole_cluster", f"{MADE_UP}plan", "fullest")
        + span("whole_cluster", f"{MADE_UP}osdmaptool, deviation 1", "fullest"),
    ),
    Tie("README.md", "the promises above cite some {} lines", one("trust", "all promises together", "lines")),
    Tie("README.md", "The tools, some {} lines of Python", one("trust", "all tools", "lines")),
    Tie(
        "docs/SPEEDS.md",
        "plain C, list and tree buckets | {} to {} and {} to {} of its instructions",
        span("placements", ".*, list", "to plain C") + span("placements", ".*, tree", "to plain C"),
    ),
    Tie(
        "docs/SPEEDS.md",
        "The same, uniform and straw2 buckets | {} to {} and {} to {} |",
        span("placements", ".*, uniform", "to plain C") + span("placements", ".*, straw2", "to plain C"),
    ),
    Tie(
        "docs/SPEEDS.md",
        "A placement beside Ceph's `osdmaptool` | {} to {} of its instructions",
        span("placements", ALL, "to `osdmaptool`"),
    ),
    Tie(
        "docs/SPEEDS.md",
        "Look-ups by one session | {} `up` lines a second",
        one("sessions", "1", "`up` lines a second"),
    ),
    Tie(
        "docs/SPEEDS.md",
        "Look-ups by two and by four sessions | {} and {} times those of one",
        one("sessions", "2", "to one session") + one("sessions", "4", "to one session"),
    ),
    Tie(
        "docs/SPEEDS.md",
        "one OSD down or up, among 131,072 groups | {} to {} µs",
        span("tables", "one OSD down or up, µs", BUCKETS),
    ),
    Tie(
        "docs/SPEEDS.md",
        "A plan for one pool of 4,096 groups | {} to {} ms over 64 OSDs; {} to {} ms over 1,024",
        span("balancer", SMALL, "time, ms") + span("balancer", LARGE, "time, ms"),
    ),
    Tie(
        "docs/SPEEDS.md",
        "after `plan --alone` at deviation 1 | {} of {}; by Ceph's own balancer {}",
        said=("beside_ceph", "comes within one group in {} of {} pools and Ceph's in {}"),
    ),
    Tie(
        "docs/SPEEDS.md",
        "over all pools, before, after `plan`, and after Ceph's own balancer | " "{} to {}; {} to {}; {} to {}",
        span("whole_cluster", f"{MADE_UP}before", "groups: deviation")
        + span("whole_cluster", f"{MADE_UP}plan", "groups: deviation")
        + span("whole_cluster", f"{MADE_UP}osdmaptool, deviation 1", "groups: deviation"),
    ),
    Tie(
        "docs/SPEEDS.md",
        "`import` and `df`; `plan` | {} s; {} s",
        one("tools", "import, then df", "it takes") + one("tools", "plan", "it takes"),
    ),
    Tie("docs/SPEEDS.md", "Memory a group | {} to {} bytes", span("wide", "memory a group, bytes", WIDE)),
    Tie(
        "docs/SPEEDS.md",
        "Opening a map of 131,072 groups, and one of 1,048,576 | {} to {} ms; {} ms",
        span("tables", "opening, ms", BUCKETS) + one("wide", "opening, ms", "16 pools of 65,536"),
    ),
    Tie(
        "docs/SPEEDS.md",
        "A plan for one pool of 65,536 groups over 4,096 OSDs | {} ms",
        one("wide", "a plan, ms", "4,096 OSDs: 65,536"),
    ),
    Tie(
        "docs/SPEEDS.md",
        "beside a sync of the disk | {} µs, {} of a sync; {} a second",
        one("store", "a change", "µs")
        + one("store", "a change to a sync", "µs")
        + one("store", "a change", "a second"),
    ),
    Tie(
        "docs/SPEEDS.md",
        "Opening a store of 65,536 changes | {} ms",
        one("store", "opening a store with 65,536 rows, ms", "it takes"),
    ),
    Tie("docs/SPEEDS.md", "with every proof, of older trees | {} to {} minutes", span("gate", ALL, "seconds", 60)),
    Tie("docs/SPEEDS.md", "A first gate took from {} minutes to {} minutes", span("gate", ALL, "seconds", 60)),
    Tie("docs/SPEEDS.md", "the program itself was proved after {} to {} minutes of it", span("gate", ALL, "osdmapd")),
    Tie("docs/SPEEDS.md", "Each proof needs {} to {} GB", said=("gate", "Each proof needs {} to {} GB")),
    Tie("docs/SPEEDS.md", TRY, said=("gate", TRY)),
    Tie("docs/SPEEDS.md", RUNS, said=("gate", RUNS)),
    Tie(
        "docs/FORMATS.md",
        "giving up took {} seconds",
        one("sessions", "1 await an epoch that nobody makes.*", "it takes"),
    ),
    Tie(
        "docs/FORMATS.md",
        "A group takes {} ms in a replicated pool and {} ms in an erasure pool; over straw2 buckets, "
        "under `--stock`, {} and {} ms. At {} ms a group",
        one("cliffs", "one group that 200 and 200 tries seek in vain", "it takes")
        + one("cliffs", "the same for positions, in an erasure pool", "it takes")
        + one("cliffs", "one group that 200 and 200 tries seek in vain, straw2", "it takes")
        + 2 * one("cliffs", "the same for positions, in an erasure pool, straw2", "it takes"),
    ),
    Tie(
        "docs/FORMATS.md",
        "256 groups that seek hosts where there is one take {} ms",
        one("cliffs", "256 groups that seek hosts where there is one", "it takes"),
    ),
    Tie(
        "docs/FORMATS.md",
        "take {} ms: groups of 10 over ten racks of 1 to 10 hosts. Under `--stock` it is {} ms: groups of 20 over "
        "twenty racks of 2 to 21 hosts",
        one("cliffs", ".*10 racks of 1 to 10 hosts, groups of 10", "it takes")
        + one("cliffs", ".*20 racks of 2 to 21 hosts, groups of 20, straw2", "it takes"),
    ),
    Tie(
        "docs/FORMATS.md",
        "these are {} ms (the same racks) and {} ms (groups of 3 over racks",
        one("cliffs", ".*over the same, 65,536 groups", "it takes")
        + one("cliffs", ".*3 racks of 128, 128, 256 hosts, 65,536 groups, straw2", "it takes"),
    ),
    Tie(
        "docs/FORMATS.md",
        "a pair for each of 1,048,576 groups takes {} ms",
        one("cliffs", "a pair for each of 1,048,576 groups", "it takes"),
    ),
    Tie(
        "docs/FORMATS.md",
        "for each of their groups as well: {}, {} and {} ms for as many, where opening such a map takes {} ms",
        one("cliffs", "a reweight of one OSD, 1,048,576 groups of 256 pools", "it takes")
        + one("cliffs", "another CRUSH map, 1,048,576 groups of 256 pools", "it takes")
        + one("cliffs", "255 pools of 4,096 groups that come", "it takes")
        + one("cliffs", "opening 1,048,576 groups of 256 pools", "it takes"),
    ),
    Tie("docs/PROVED.md", "It takes {} to {} minutes and proves nothing", said=("gate", RUNS)),
    *(
        Tie("docs/DECISIONS.md", words, said=("tried", words))
        for words in (
            "{} to {} bytes a group",
            "some {} to {} % of the processor time of a plan",
            "some {} processor minutes longer",
        )
    ),
    Tie("docs/DECISIONS.md", "sleeps 250 microseconds after each 512 looks"),
    Tie("docs/PROVED.md", "searched for five to ten minutes"),
    Tie("bench/README.md", "`past 60 s`"),
    Tie(
        "docs/COMMANDS.md",
        "Over 60 clusters with data drawn twice for each, {} of {} runs had such an OSD before, and {} have one after "
        "`plan --df`. In {} of them",
        by_runs("above 1.1 before", "runs", "above 1.1 after", "above 1.1 by any plan"),
    ),
    Tie(
        "docs/DECISIONS.md",
        "Of {} plans by data {} leave an OSD above 1.1** of what it is to have, where 20 of 128 were wanted. In {} no",
        by_runs("runs", "above 1.1 after", "above 1.1 by any plan"),
    ),
    Tie(
        "docs/DECISIONS.md",
        "By `--room` {} of the {} end above 1.1",
        by_runs("above 1.1 after", "runs", plan="plan --df --room"),
    ),
    Tie("docs/REASONS.md", "(G + 10 s B)"),
    by_data("lab", ("plan", ALL_OF_PLAN), *BY_DATA, ("plan --df --pgs --osds", ALL_OF_PLAN)),
    by_data("fiverack", ("plan", ALL_OF_PLAN), *BY_DATA),
    *(by_data(name, ("plan", NOT_MOVED), *BY_DATA) for name in ("classes_many", "het_many", "tuned")),
]


def number(word: str) -> float:
    """A figure as a number."""
    return float(NUMBERS.get(word, word).replace(",", ""))


def is_to_digits(word: str, value: float) -> bool:
    """Whether a figure is a value, rounded to as many digits as it has; zeros at the end of one from a
    thousand on may be of that."""
    digits = NUMBERS.get(word, word).replace(",", "").replace(".", "").lstrip("0")
    if number(word) >= 1000:
        digits = digits.rstrip("0")
    places = len(digits) - 1 - math.floor(math.log10(value))
    return any(math.isclose(number(word), round(value, more), rel_tol=1e-9) for more in (places, places + 1))


def has_digits(word: str) -> int:
    """How many digits a figure has that tell something."""
    digits = NUMBERS.get(word, word).replace(",", "").replace(".", "").lstrip("0")
    return len(digits if "." in word else digits.rstrip("0"))


def tables(page: str) -> list[tuple[list[str], list[list[str]]]]:
    """The tables of a page of results: the columns of each, and its rows."""
    found = re.findall(r"^(\|.*)\n\|[-:| ]+\n((?:\|.*\n?)+)", text("bench", "results", f"{page}.md"), re.MULTILINE)
    return [(cut(head), [cut(row) for row in rows.splitlines()]) for head, rows in found]


def cut(row: str) -> list[str]:
    """The cells of a row."""
    return [cell.strip() for cell in row.strip().strip("|").split("|")]


def values_of(cells: Cells) -> list[float]:
    """The numbers that stand in cells; of columns of one name in one table the first."""
    found = []
    for columns, rows in tables(cells.page):
        places = {column: place for place, column in reversed([*enumerate(columns)])}
        wanted = [place for column, place in places.items() if re.fullmatch(cells.column, column)]
        for row in rows:
            if re.fullmatch(cells.row, row[0]):
                found += [re.match(NUMBER, row[place]) for place in wanted if place < len(row)]
    return [number(match[0]) / cells.divisor for match in found if match]


def pattern(words: str) -> re.Pattern[str]:
    """What finds words with figures."""
    return re.compile(r"(?<!\d)" + FIGURE.join(map(re.escape, words.split("{}"))))


def tied(page: str) -> list[tuple[int, int]]:
    """Where the words of ties stand in a page, which must have each of them once."""
    shown = flat(TOP / page)
    found = [[*pattern(tie.words).finditer(shown)] for tie in TIES if tie.page == page]
    return [match.span() for matches in found for match in matches]


class Figures(Case):
    """Figures of pages, beside the results."""

    is_form = True

    def test_ties(self) -> None:
        """Each figure that is tied is what its rows and column, or the words of a page of results, give"""
        for tie in TIES:
            with self.subTest(page=tie.page, words=tie.words):
                said = [[*match.groups()] for match in pattern(tie.words).finditer(flat(TOP / tie.page))]
                self.assertEqual(len(said), 1, "stands there so often")
                values = [cells.pick(values_of(cells)) for cells in tie.cells]
                wrong = [pair for pair in zip(said[0], values) if not is_to_digits(*pair)]
                self.assertFalse(wrong, "are not what the tables give")
                if tie.said:
                    page, words = tie.said
                    source = pattern(words).search(flat(RESULTS / f"{page}.md"))
                    assert source, f"{page} does not say so"
                    self.assertEqual([number(word) for word in said[0]], [number(word) for word in source.groups()])
                else:
                    self.assertEqual(len(values), len(said[0]))

    def test_each_is_tied(self) -> None:
        """Each figure with a unit, or beside another thing, is tied, but for those of results, changes and goals"""
        form, count = re.compile(rf"\b(?:{FIGURE} to )?{FIGURE} (?:(?:{UNITS})\b|{BESIDE})"), 0
        for path in pages():
            page = path.relative_to(TOP).as_posix()
            if page == "CHANGELOG.md" or path.parent == RESULTS:
                continue
            shown, places = flat(path), tied(page)
            loose = [
                match[0]
                for match in form.finditer(goalless(shown) if page == "docs/SPEEDS.md" else shown)
                if not any(begin <= match.start() and match.end() <= end + 16 for begin, end in places)
            ]
            count += len(places)
            self.assertFalse(loose, f"of {page} are tied to no row")
        self.assertGreater(count, 40)

    def test_pools_within_one_group(self) -> None:
        """The pools of which a plan comes within one group are those of the table and those that it leaves out"""
        page, (columns, rows) = flat(RESULTS / "beside_ceph.md"), tables("beside_ceph")[0]
        found = pattern(
            "{} pools of 8 to 48 groups of the cluster 025-many-pools: ours comes within one group in all "
            "{} of them, Ceph's in {}"
        ).search(page)
        said = pattern("comes within one group in {} of {} pools and Ceph's in {}").search(page)
        assert found and said
        first, second = [place for place, column in enumerate(columns) if column == "farthest"]
        both = [row for row in rows if row[second]]
        counted = [len(both), *(sum(number(row[place]) <= 1 for row in both) for place in (first, second))]
        more = [number(word) for word in found.groups()]
        self.assertEqual([number(said[2]), number(said[1]), number(said[3])], [a + b for a, b in zip(counted, more)])

    def test_figures_of_readme(self) -> None:
        """Each line of the figures in README.md is tied, and each row of docs/SPEEDS.md"""
        found = re.search(r"In figures, .*?:\n\n((?:- .*\n(?:  .*\n)*)+)", text("README.md"))
        assert found
        lines = [" ".join(line.split()) for line in re.split(r"^- ", found[1], flags=re.MULTILINE)[1:]]
        rows = [row for row in text("docs", "SPEEDS.md").splitlines() if re.match(r"\|.*results/.*\|$", row)]
        self.assertGreater(len(lines), 3)
        self.assertEqual(len(rows), 16)
        for line, page in [*((line, "README.md") for line in lines), *((row, "docs/SPEEDS.md") for row in rows)]:
            self.assertTrue(any(tie.page == page and pattern(tie.words).search(line) for tie in TIES), line)

    def test_digits(self) -> None:
        """No figure of a time, a rate or a size has more than three digits, as the machine did other work beside"""
        for tie in TIES:
            found = pattern(tie.words).search(flat(TOP / tie.page))
            long = [word for word in (found.groups() if found else ()) if has_digits(word) > DIGITS]
            self.assertFalse(long, tie.words)

    def test_results_say_how(self) -> None:
        """Each page of results says that `make bench` writes it or that it is made by hand, and when"""
        for path in sorted(RESULTS.glob("*.md")):
            with self.subTest(page=path.name):
                shown = flat(path)
                self.assertRegex(shown, "`make bench` puts each table here|[Bb]y hand|`make bench` does not run|OTHER=")
                self.assertRegex(shown, r"\b20\d\d-\d\d-\d\d\b|the days were not noted")


def goalless(shown: str) -> str:
    """The page of speeds without the goals of its table, each sign of which becomes a blank."""
    return re.sub(r"(?<=\|)([^|]*)(?=\| (?:met|missed|met; missed) \|)", lambda found: " " * len(found[0]), shown)


if __name__ == "__main__":
    unittest.main()
