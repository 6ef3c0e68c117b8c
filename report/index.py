"""The table of several records as one page of HTML, which sorts and filters; each row leads to the page of its record."""

from __future__ import annotations

import os
from collections.abc import Sequence
from html import escape
from urllib.parse import quote

from report.page import STYLE
from report.table import COLUMNS, Row, total

INDEX, PAGES = "index.html", "records"  # the page of the table, and the folder of those of its records
MORE_STYLE = """
main{max-width:1280px}label{display:block;margin:0 0 12px}input{font:inherit;width:min(320px,100%);padding:6px 10px;color:inherit;background:var(--card);
border:1px solid var(--line);border-radius:8px}.table{overflow-x:auto}table{width:100%}thead th{border-bottom:1px solid var(--line);white-space:nowrap}
button{font:600 14px system-ui;color:inherit;background:none;border:0;padding:4px 0;cursor:pointer}[aria-sort] button{color:var(--link)}
td:nth-child(n+3):nth-child(-n+7),th:nth-child(n+3):nth-child(-n+7){text-align:right}td:nth-child(2){white-space:nowrap;font-weight:600}
tbody a{padding:0;white-space:nowrap}tbody tr:nth-child(odd){background:var(--card)}tr[hidden]{display:none!important}
@media(max-width:560px){tr{display:table-row}td,th{display:table-cell;padding:4px 10px 4px 0}}@media print{label{display:none}}
"""
# A click on a heading sorts by its column, a second one the other way round; what is typed hides the rows that lack one of its words.
SCRIPT = """
const head=document.querySelector("thead"),body=document.querySelector("tbody"),rows=[...body.rows],compare=new Intl.Collator("en",{numeric:true}).compare;
head.onclick=event=>{const cell=event.target.closest("th");if(!cell)return;
const way=cell.ariaSort=="ascending"?"descending":"ascending",text=row=>row.cells[cell.cellIndex].textContent;
for(const other of head.querySelectorAll("th"))other.removeAttribute("aria-sort");cell.setAttribute("aria-sort",way);
rows.sort((one,other)=>(way=="ascending"?1:-1)*compare(text(one),text(other)));body.append(...rows)};
document.querySelector("input").oninput=event=>{const words=event.target.value.toLowerCase().split(" ");
for(const row of rows)row.hidden=!words.every(word=>row.textContent.toLowerCase().includes(word))};
"""


def page_name(package: str) -> str:
    """The file of a record's page: no two packages have one."""
    return quote(os.fsencode(package), safe="+~") + ".html"


def row_text(row: Row) -> str:
    """A row; its package leads to the page of the record."""
    package, verdict, *rest = (escape(it) for it in row.cells)
    link = f'<a href="{PAGES}/{quote(page_name(row.cells[0]))}">{package}</a>'
    return f'<tr><th scope="row">{link}</th><td class="{row.verdict}">{verdict}</td>{"".join(f"<td>{it}</td>" for it in rest)}</tr>'


def as_index(rows: Sequence[Row]) -> str:
    """The whole page."""
    heads = "".join(f'<th scope="col"><button type="button">{it}</button></th>' for it in COLUMNS)
    worst = next(it for it in ("none", "race", "safe") if it in {row.verdict for row in rows})
    return ('<!DOCTYPE html><html lang="en"><head><meta charset="utf-8"/><meta name="viewport" content="width=device-width,initial-scale=1"/>'
            f'<meta name="color-scheme" content="light dark"/><title>{total(rows)}</title><style>{STYLE}{MORE_STYLE}</style></head>'
            f'<body><main><header class="verdict {worst}"><p>{total(rows)}</p></header><h2>Records</h2><label>Filter <input type="search"/></label>'
            f'<div class="table"><table><thead><tr>{heads}</tr></thead><tbody>{"".join(map(row_text, rows))}</tbody></table></div></main>'
            f"<script>{SCRIPT}</script></body></html>\n")
