"""Tables of the HTML page: a caption, headers that sort by a click or a key, and room to scroll by keys where one is
wider than the page.
"""

from __future__ import annotations

from collections.abc import Sequence

from ..words import escaped

# How sizes, numbers with a sign, groups and OSDs are put in order; what is none of these stands behind them.
SORT_SCRIPT = """document.querySelectorAll('.sorts th button').forEach(e=>e.addEventListener('click',()=>{
const h=e.parentNode,t=h.closest('table'),b=t.tBodies[0],k=h.cellIndex,up=h.getAttribute('aria-sort')!=='ascending',
g=x=>/^([0-9]+)\\.([0-9a-f]+)$/.exec(x),n=x=>{const m=/^(?:osd\\.)?([+-]?[0-9.]+)(?: ([KMGTPE]i)?B)?$/.exec(x);
return m?m[1]*1024**(m[2]?'KMGTPE'.indexOf(m[2][0])+1:0):NaN},isGroup=h.textContent==='GROUP',
w=r=>{const x=r.cells[k].textContent,m=isGroup&&g(x);return m?m[1]*2**32+parseInt(m[2],16):n(x)};
[...b.rows].sort((p,q)=>{const x=w(p),y=w(q),a=isNaN(x),c=isNaN(y);return a||c?a-c||(up?1:-1)*
p.cells[k].textContent.localeCompare(q.cells[k].textContent):up?x-y:y-x}).forEach(r=>b.append(r));
t.querySelectorAll('th').forEach(o=>o.removeAttribute('aria-sort'));
h.setAttribute('aria-sort',up?'ascending':'descending')}))"""
TABLE_STYLE = """table{border-collapse:collapse;width:100%}caption{text-align:left;padding:.2rem 0}
td,th{padding:.2rem .55rem;text-align:right;border-bottom:1px solid #8884;white-space:nowrap}
.long td{white-space:normal}
th button{font:inherit;color:inherit;background:none;border:0;padding:0;cursor:pointer}
[aria-sort=ascending] button::after{content:' \\2191'}[aria-sort=descending] button::after{content:' \\2193'}
tr>:first-child{text-align:left;white-space:pre;position:sticky;left:0;background:Canvas}
tbody th{font-weight:normal}.wide{overflow-x:auto}"""


def wide(inner: str, told: str, kind: str = "wide") -> str:
    """What may be wider or higher than its place, which then scrolls by keys too; with what it is."""
    return f'<div class="{kind}" role="region" tabindex="0" aria-label="{escaped(told)}">{inner}</div>'


def row_of(row: Sequence[object]) -> str:
    """A row, whose first entry says of what it is."""
    first, *rest = (escaped(str(entry)) for entry in row)
    return f'<tr><th scope="row">{first}</th>{"".join(f"<td>{entry}</td>" for entry in rest)}</tr>'


def table(told: str, columns: list[str], rows: Sequence[Sequence[object]], kind: str = "sorts") -> str:
    """A table with its caption; its headers are buttons that sort it where its kind says so."""
    inner = "<button>{}</button>" if "sorts" in kind else "{}"
    head = "".join(f'<th scope="col">{inner.format(escaped(column))}</th>' for column in columns)
    own = (
        f'<table class="{kind}"><caption>{escaped(told)}</caption><thead><tr>{head}</tr></thead>'
        f'<tbody>{"".join(map(row_of, rows))}</tbody></table>'
    )
    return wide(own, told)
