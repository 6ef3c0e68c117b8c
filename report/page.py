"""The report as one page of HTML: no outside resource, no script, light and dark, printable."""

from __future__ import annotations

from collections.abc import Iterator
from html import escape
from pathlib import PurePath

from record.missing.report import missing_text
from record.report import Colours
from record.build.text import shown
from report.model import Race, Report
from report.pictures import graph, schedule
from report.plain import HEADLINES, counted, summary

# The pictures of so many races are drawn; of the others the places and the fix are shown.
PICTURES = 150
STYLE = """
:root{--back:#fbfbfa;--card:#fff;--text:#1c1e21;--soft:#5d646c;--line:#dfe2e5;--bad:#b3261e;--bad-back:#fdeceb;
--good:#1a6b37;--good-back:#e8f5ec;--none:#7a5200;--none-back:#fdf3dc;--run:#dbe7fb;--run-line:#4a78c4;--done:#eceef0;--link:#1f5fbf}
@media screen and (prefers-color-scheme:dark){:root{--back:#131517;--card:#1c1f22;--text:#e8eaec;--soft:#a0a8b0;--line:#33383d;
--bad:#ff8a80;--bad-back:#3a1c1b;--good:#7fd79b;--good-back:#17301f;--none:#f2c063;--none-back:#342813;--run:#22344f;
--run-line:#7ba5ea;--done:#2a2e32;--link:#8ab4f8}}
*{box-sizing:border-box}html{-webkit-text-size-adjust:100%}
body{margin:0;background:var(--back);color:var(--text);font:16px/1.55 system-ui,-apple-system,"Segoe UI",Roboto,sans-serif}
main{max-width:960px;margin:0 auto;padding:24px 16px 64px}code,pre,.name{font-family:ui-monospace,SFMono-Regular,Menlo,Consolas,monospace}
h1{font-size:17px;margin:0 0 2px;letter-spacing:.06em}h2{font-size:19px;margin:40px 0 12px}
h3{font:600 16px/1.4 ui-monospace,SFMono-Regular,Menlo,Consolas,monospace;margin:28px 0 10px;overflow-wrap:anywhere}
.verdict{border-radius:12px;padding:20px;border-left:6px solid}.verdict p{margin:0;font-size:20px;line-height:1.4}
.verdict .where{font-size:14px;color:var(--soft);margin-top:8px;overflow-wrap:anywhere}
.race{color:var(--bad)}.safe{color:var(--good)}.none{color:var(--none)}.verdict p{color:var(--text)}
.verdict.race{background:var(--bad-back)}.verdict.safe{background:var(--good-back)}.verdict.none{background:var(--none-back)}
.card{background:var(--card);border:1px solid var(--line);border-radius:12px;padding:16px;margin:0 0 14px;break-inside:avoid}
table{border-collapse:collapse;font-size:15px}td,th{padding:4px 14px 4px 0;vertical-align:top;text-align:left;overflow-wrap:anywhere}
th{font-family:ui-monospace,monospace;font-weight:600}th+td{color:var(--soft);font-family:ui-monospace,monospace;font-size:14px}
pre.all{max-height:21em;overflow-y:auto}.kind{color:var(--soft);font-size:14px;margin:10px 0 0}.kind+pre{margin-top:6px}td:last-child{padding-right:0}.tag{font:600 12px/1 system-ui;border:1px solid var(--line);border-radius:9px;padding:3px 8px;color:var(--soft)}
pre{background:var(--back);border:1px solid var(--line);border-radius:8px;padding:10px 12px;margin:10px 0 0;font-size:14px;user-select:all;white-space:pre-wrap;overflow-wrap:anywhere}
.pictures{display:grid;grid-template-columns:repeat(auto-fit,minmax(290px,1fr));gap:20px;margin-top:16px}figure{margin:0}
figcaption{font-size:13px;color:var(--soft);margin-bottom:6px}svg{width:100%;max-width:440px;height:auto;display:block;overflow:visible}
svg text{font-size:11px;fill:var(--text)}svg .lane{fill:var(--soft)}svg .bad{fill:var(--bad);font-weight:600}
.run{fill:var(--run);stroke:var(--run-line)}.done,.plain{fill:var(--done);stroke:var(--line)}.meet{fill:var(--bad-back);stroke:var(--bad);stroke-dasharray:3 3}
.axis,.edge{stroke:var(--soft);fill:none;opacity:.6}.missing{stroke:var(--bad);stroke-width:2;stroke-dasharray:5 4}.missing-end{stroke:var(--bad);stroke-width:2;fill:none}
li{margin:4px 0;overflow-wrap:anywhere}.soft{color:var(--soft)}summary{cursor:pointer;color:var(--soft);padding:6px 0}
h4{float:right;margin:2px 0 4px 12px;font-size:14px;font-weight:400;color:var(--soft)}
nav ul{display:flex;flex-wrap:wrap;gap:2px 18px;margin:8px 0 0;padding:0;list-style:none;font-size:15px}nav li{margin:0}
a{color:var(--link);text-underline-offset:2px;display:inline-block;padding:3px 0}
a:focus-visible,summary:focus-visible,pre:focus-visible{outline:2px solid var(--link);outline-offset:2px;border-radius:3px}
:target{scroll-margin-top:12px}div.card:target{border-color:var(--link)}
@media(max-width:560px){tr,td,th{display:block}td,th{padding:0}tr{margin-bottom:10px}}
@media print{body{background:#fff;font-size:14px}main{max-width:none;padding:0}.pictures{grid-template-columns:1fr 1fr}nav{display:none}
.verdict,pre,svg{print-color-adjust:exact;-webkit-print-color-adjust:exact}h2,h3{break-after:avoid}
pre.all{max-height:none}details::details-content{content-visibility:visible;height:auto;opacity:1}summary{display:none}}
"""


def code(text: str) -> str:
    """Text in which words between backticks are code."""
    parts = escape(text).split("`")
    return "".join(f"<code>{it}</code>" if at % 2 else it for at, it in enumerate(parts))


def figures(race: Race) -> str:
    """Both pictures of a race."""
    return (f'<div class="pictures"><figure><figcaption>A schedule in which the two meet</figcaption>{schedule(race)}</figure>'
            f"<figure><figcaption>The edge that is missing</figcaption>{graph(race)}</figure></div>")


def sides(race: Race) -> str:
    """Both recipes as a table. Its parts say what they are, since a narrow screen shows them as blocks."""
    cells = [(it.recipe, it.verb) for it in (race.first, race.second)]
    rows = "".join(f'<tr role="row"><th role="rowheader" scope="row">{escape(it.target)}</th>'
                   f'<td role="cell">{escape(it.place or "no place known")}</td><td role="cell">{verb}</td></tr>'
                   for it, verb in cells)
    return f'<table role="table" aria-label="The two recipes">{rows}</table>'


def to_do(race: Race, known: str) -> str:
    """What it is, what is better than a line, and the lines that fix it."""
    advice = f" Advice: {escape(race.remedy.advice)}." if race.remedy.advice else ""
    what = f'<p class="kind">{code(race.kind.title[0].upper() + race.kind.title[1:])}.{advice}{known}</p>'
    if not race.fix:
        return what + ('<p class="kind">The lines of other races end this one too.</p>' if race.remedy.lines else "")
    note = f" ({escape(race.note)})" if race.note else ""
    return what + f'<p class="kind">Write{note}:</p><pre>{escape(chr(10).join(race.fix))}</pre>'


def card(race: Race, number: int, report: Report, is_drawn: bool) -> str:
    """One race: who does what and where, what it is, the line that fixes it, and its pictures."""
    state = report.state(race.fingerprint)
    why = f" {escape(report.ignored[race.fingerprint])}" if state == "ignored" else ""
    known = f' <span class="tag">{state}</span>{why}' if state != "new" else ""
    return (f'<div class="card" id="race-{number}"><h4>Race {number}</h4>{sides(race)}'
            f'{to_do(race, known)}{figures(race) if is_drawn else ""}</div>')


def confirming(report: Report) -> str:
    """How to see a race happen; only a record says how to build."""
    if report.is_direct:
        return ""
    return '<p class="kind"><code>race-confirm N</code> makes race N happen in a copy of the project.</p>'


def contents(groups: list[tuple[str, list[Race]]]) -> str:
    """The files with links to their races, where there are several."""
    links = (f'<li><a href="#file-{at}" class="name">{escape(group[0].shown)}</a> <span class="soft">{counted(len(group), "race")}</span></li>'
             for at, (_, group) in enumerate(groups, 1))
    return f'<nav aria-label="Files with races"><ul>{"".join(links)}</ul></nav>' if len(groups) > 3 else ""


def title(report: Report) -> str:
    """What a tab of the browser shows: the verdict, and whose it is."""
    said = "safe" if report.verdict == "safe" else "no verdict" if report.verdict == "none" else counted(len(report.races), "race")
    return f"{said}: {PurePath(report.folder).name or report.folder}"


def races(report: Report) -> Iterator[str]:
    """The races, grouped by file."""
    if not report.races:
        return
    yield "<h2>Races, file by file</h2>" + confirming(report)
    numbers, drawn = {id(it): at for at, it in enumerate(report.races, 1)}, 0
    groups = [*report.by_path()]
    yield contents(groups)
    for place, (_, group) in enumerate(groups, 1):
        meaning = f' <span class="soft">({escape(group[0].meaning)})</span>' if group[0].meaning else ""
        yield f'<section aria-labelledby="file-{place}"><h3 id="file-{place}">{escape(group[0].shown)}{meaning}</h3>'
        for at, race in enumerate(group):
            is_drawn = drawn < PICTURES and at < 2
            drawn += is_drawn
            if at == 2:
                yield f"<details><summary>{counted(len(group) - 2, 'more race')} on this file</summary>"
            yield card(race, numbers[id(race)], report, is_drawn)
        yield ("</details>" if len(group) > 2 else "") + "</section>"


def listed(title: str, items: list[str]) -> str:
    """A heading with a list below it; nothing where there is none."""
    return f"<h2>{title}</h2><ul>" + "".join(f"<li>{it}</li>" for it in items) + "</ul>" if items else ""


def assumptions(report: Report) -> str:
    """What was taken for granted."""
    items = []
    for it in report.assumptions:
        such = f"such as <code>{escape(it.example)}</code>" if it.example else ""
        note = ", ".join(filter(None, [f"{it.count} times" if it.count > 1 else "", such]))
        items.append(escape(it.text) + (f' <span class="soft">({note})</span>' if note else ""))
    return listed("Safe only if" if report.verdict == "safe" else "What was assumed", items)


def fixes(report: Report) -> str:
    """All lines that fix the build, to copy at once."""
    if not report.fixes:
        return ""
    safe = "With these lines the build is safe: <code>race fix</code> checked it."
    checked = safe if report.is_checked else "These lines were not checked together."
    where = {"make": "the makefile", "ninja": "CMakeLists.txt, meson.build or build.ninja, whichever you write", "tasks": "what writes the tasks"}[report.tool]
    return (f"<h2>All fixes</h2><p>{checked} Add them to {where}.</p>"
            '<pre class="all" tabindex="0" role="region" aria-label="All lines that fix the build">'
            f"{escape(chr(10).join(report.fixes))}</pre>")


def missing(report: Report) -> str:
    """What recipes read and make does not know of, in the words of race-record."""
    if report.missing is None:
        return ""
    heading, _, *lines = missing_text(report.missing, Colours())
    return (f'<h2>{heading}</h2><pre class="all" tabindex="0" role="region" aria-label="What recipes read and make does not know of">'
            f"{escape(chr(10).join(lines))}</pre>")


def as_html(report: Report) -> str:
    """The whole page."""
    body = [
        f'<header class="verdict {report.verdict}"><h1>{HEADLINES[report.verdict]}</h1><p>{escape(" ".join(filter(None, (summary(report), report.standing()))))}</p>'
        f'<div class="where"><code>{escape(" ".join(report.words))}</code> in <code>{escape(shown(report.folder))}</code></div></header>',
        listed("Why there is no verdict", [escape(it) for it in report.holes]), listed("With several jobs, whatever the order of recipes is", [escape(it) for it in report.jobs]), listed("What to try", [escape(it) for it in report.hints]), fixes(report), *races(report),
        *(listed(title, [escape(it.text) for it in report.gone if it.is_fixed == side]) for title, side in (("Fixed since the baseline", True), ("Not seen in this build", False))),
        listed("Lines of race-ignore that no race meets", [escape(it) for it in report.unmet]), assumptions(report), missing(report),
    ]
    return ('<!DOCTYPE html><html lang="en"><head><meta charset="utf-8"/><meta name="viewport" content="width=device-width,initial-scale=1"/>'
            f'<meta name="color-scheme" content="light dark"/><title>{escape(title(report))}</title><style>{STYLE}</style></head>'
            f"<body><main>{''.join(body)}</main></body></html>\n")
