"""The page of `report`: what stands on it for those who read it by keys or by ear, and what a browser makes of it,
where Chromium is there.
"""

from __future__ import annotations

import html
import html.parser
import json
import pathlib
import re
import shutil
import subprocess
import tempfile
from typing import Any, Optional

from tests.ceph_monitor import WORST
from tests.clusters import commands, exceptions_in, exceptions_told, with_commands
from tests.tool_cases import StockCase

SECONDS = 180
KIB = 1024
# What a browser is asked once the page stands: what each table has once its headers are pressed, how wide things are,
# and which elements take keys.
ASKED = """<script>addEventListener('load',()=>{
const told={sorted:[],cut:[],keys:[],marks:[]};
for(const b of document.querySelectorAll('th button'))told.keys.push(b.tabIndex);
for(const d of document.querySelectorAll('[role=region]'))told.keys.push(d.tabIndex);
for(const d of document.querySelectorAll('.wide'))if(d.querySelector('table')&&d.scrollWidth>d.clientWidth)
told.cut.push([d.ariaLabel,d.scrollWidth,d.clientWidth]);
told.page=[document.documentElement.scrollWidth,innerWidth];
for(const h of document.querySelectorAll('.sorts th[scope=col]'))for(const way of ['ascending','descending']){
h.firstChild.click();const rows=[...h.closest('table').tBodies[0].rows],row=h.closest('tr');
told.marks.push([h.getAttribute('aria-sort')===way,row.querySelectorAll('[aria-sort]').length]);
told.sorted.push([h.textContent,way,rows.map(r=>r.cells[h.cellIndex].textContent)])}
const p=document.createElement('pre');p.id='told';p.textContent=JSON.stringify(told);
document.body.append(p)})</script>"""


def bright(colour: str) -> float:
    """The relative luminance of a colour (WCAG 2.1)."""
    own = colour if len(colour) == 7 else "#" + "".join(2 * sign for sign in colour[1:])
    parts = [int(own[at : at + 2], 16) / 255 for at in (1, 3, 5)]
    linear: list[float] = [part / 12.92 if part <= 0.04045 else ((part + 0.055) / 1.055) ** 2.4 for part in parts]
    return 0.2126 * linear[0] + 0.7152 * linear[1] + 0.0722 * linear[2]


def contrast(one: str, other: str) -> float:
    """The contrast of two colours (WCAG 2.1)."""
    low, high = sorted([bright(one), bright(other)])
    return (high + 0.05) / (low + 0.05)


def worth(text: str) -> Optional[float]:
    """What a size or a number comes to, as the page writes it; None of what is neither."""
    found = re.fullmatch(r"(?:osd\.)?([+-]?[0-9.]+)(?: ([KMGTPE]?)i?B)?", text)
    return None if found is None else float(found[1]) * KIB ** " KMGTPE".index(found[2] or " ")


class Seen(html.parser.HTMLParser):
    """The elements of a page, each with its attributes and the elements in which it stands."""

    def __init__(self) -> None:
        super().__init__()
        self.found: list[tuple[str, dict[str, Optional[str]], list[str]]] = []
        self.open: list[str] = []

    def handle_starttag(self, tag: str, attrs: list[tuple[str, Optional[str]]]) -> None:
        self.found.append((tag, dict(attrs), list(self.open)))
        if tag not in ("meta", "rect", "path", "br"):
            self.open.append(tag)

    def handle_endtag(self, tag: str) -> None:
        if tag in self.open:
            while self.open.pop() != tag:
                pass


class Pages(StockCase):
    """The page."""

    def page(self, name: str) -> str:
        """The page of a cluster, with disks of sizes from KiB to TiB in use."""
        own = WORST[name]
        files = self.tools.put("osd", own["osd_dump"]), self.tools.put("crush", own["crush_dump"])
        osds = [osd["osd"] for osd in own["osd_dump"]["osds"]]
        used = {osd: 7**at % 2**31 + at for at, osd in enumerate(osds)}
        nodes = [{"id": osd, "kb": 2**33, "kb_used": used[osd], "kb_avail": 2**33 - used[osd]} for osd in osds]
        return self.output("report", *files, "--osds", self.tools.put("df", {"nodes": nodes}))

    def test_parts(self) -> None:
        """The page has landmarks, links to its parts, and a caption for each table; each table and picture that may be
        wider than the page takes keys, and each picture says what it shows."""
        seen = Seen()
        page = self.page("takes")
        seen.feed(page)
        tags = [tag for tag, _, _ in seen.found]
        for tag in ("header", "nav", "main", "h1"):
            self.assertEqual(tags.count(tag), 1, tag)
        ids = {own["id"] for _, own, _ in seen.found if "id" in own}
        links = [str(own["href"])[1:] for tag, own, _ in seen.found if tag == "a"]
        self.assertEqual(len(links), tags.count("section"))
        self.assertLessEqual(set(links), ids)
        self.assertEqual(tags.count("caption"), tags.count("table"))
        for tag, own, above in seen.found:
            if tag == "th":
                self.assertIn(own.get("scope"), ("row", "col"))
            if tag == "svg":
                self.assertEqual(own["role"], "img")
                self.assertTrue(own["aria-label"])
            if tag in ("table", "svg", "pre"):
                self.assertIn("div", above)
            if own.get("role") == "region":
                self.assertEqual(own["tabindex"], "0")
                self.assertTrue(own["aria-label"])
        rows = re.findall(r'<th scope="row">(osd\.[0-9]+)</th>', page)
        self.assertEqual(sorted(rows), sorted({f"osd.{osd['osd']}" for osd in WORST["takes"]["osd_dump"]["osds"]}))

    def test_contrast(self) -> None:
        """What stands in a square is read on its colour, at both ends of the scale and between: a contrast of 4.5, in
        the dark too."""
        ratios = []
        for name in ("takes", "few_hosts", "racks"):
            own = WORST[name]
            files = self.tools.put("osd", own["osd_dump"]), self.tools.put("crush", own["crush_dump"])
            for more in ([], ["--pools", own["osd_dump"]["pools"][-1]["pool"]]):
                picture = self.output("picture", *files, *more)
                for style in picture.split("@media")[:2]:
                    inks = {kind: re.findall(rf"\.{kind}{{[^}}]*fill:(#[0-9a-f]+)", style)[-1] for kind in ("n", "w")}
                    squares = re.findall(r'fill="(#[0-9a-f]{6})" class="c"/><text [^>]*class="(n|n w)"', picture)
                    ratios += [contrast(fill, inks["w" if "w" in kind else "n"]) for fill, kind in squares]
        self.assertGreater(len(ratios), 100)
        self.assertGreaterEqual(min(ratios), 4.5)

    def test_plan(self) -> None:
        """The picture of a plan has each OSD twice: as `df` counts it now, and once the commands are given."""
        own = WORST["takes"]
        files = self.tools.put("osd", own["osd_dump"]), self.tools.put("crush", own["crush_dump"])
        picture = self.tools.folder / "plan.svg"
        lines = commands(self.output("plan", *files, "--picture", picture))
        after = with_commands(exceptions_in(own["osd_dump"]), lines)
        later = self.tools.put("later", dict(own["osd_dump"], **exceptions_told(**after)))
        wanted = []
        for dump in (files[0], later):
            nodes = self.json("df", dump, files[1])["nodes"]
            wanted.append({node["name"]: node["pgs"] for node in nodes if node["id"] >= 0})
        told = re.findall(r"<title>(osd\.[0-9]+): ([0-9]+) groups?, ", picture.read_text())
        half = len(told) // 2
        found = [{name: int(count) for name, count in part} for part in (told[:half], told[half:])]
        self.assertEqual(found, wanted)
        self.assertIn(" in squares by their hosts, each with its groups; before; after", picture.read_text())

    def seen_by(self, chromium: str, page: str) -> Any:
        """What a browser tells of a page at 1,280 columns."""
        with tempfile.TemporaryDirectory() as folder:
            path = pathlib.Path(folder, "page.html")
            path.write_text(page.replace("</html>", f"{ASKED}</html>"))
            words = [chromium, "--headless", "--no-sandbox", "--disable-gpu", "--disable-dev-shm-usage"]
            words += ["--window-size=1280,900", f"--user-data-dir={folder}/own", "--dump-dom", path.as_uri()]
            done = subprocess.run(words, capture_output=True, text=True, timeout=SECONDS, check=True)
        found = re.search(r'<pre id="told">(.*?)</pre>', done.stdout, re.S)
        self.assertTrue(found, done.stderr[-600:])
        return json.loads(html.unescape(found[1] if found else "{}"))

    def test_browser(self) -> None:
        """At 1,280 columns no table is cut; each header sorts both ways by what its column is worth, and says so; what
        sorts or scrolls takes keys."""
        chromium = shutil.which("chromium")
        self.needs("chromium", chromium is not None)
        told = self.seen_by(str(chromium), self.page("takes"))
        self.assertEqual(told["cut"], [])
        self.assertLessEqual(*told["page"])
        self.assertEqual(set(told["keys"]), {0})
        self.assertEqual({tuple(own) for own in told["marks"]}, {(True, 1)})
        columns = {column for column, _, _ in told["sorted"]}
        self.assertLessEqual({"OSD", "RAW USE", "AVAIL", "%USE", "DEVIATION", "PGS", "POOL"}, columns)
        for column, way, texts in told["sorted"]:
            values = [worth(text) for text in texts]
            known = [own for own in values if own is not None]
            with self.subTest(column=column, way=way):
                if column == "GROUP":
                    known = [int(text.split(".")[0]) * 2**32 + int(text.split(".")[1], 16) for text in texts]
                    values = list(known)
                self.assertEqual(known, sorted(known, reverse=way == "descending"))
                self.assertEqual(values[: len(known)], known)
