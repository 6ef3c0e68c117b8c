"""Pictures of a race as SVG: the schedule in which the two recipes meet, and the graph around them.

Both are 360 units wide, so that a phone shows their text at its own size. Colours are those of the page (CSS classes).
"""

from __future__ import annotations

from html import escape

from report.model import Race

WIDTH = 360


def short(text: str, most: int) -> str:
    """A name that fits: what stands in the middle goes."""
    if len(text) <= most:
        return text
    tail = (most - 1) * 2 // 3
    return text[: most - 1 - tail] + "…" + text[-tail:]


def label(x: float, y: float, text: str, style: str = "", anchor: str = "middle") -> str:
    """A text at a place."""
    return f'<text x="{x:g}" y="{y:g}" text-anchor="{anchor}" class="{style}">{escape(text)}</text>'


def box(x: float, y: float, wide: float, text: str, style: str) -> str:
    """A rounded box with a name in it."""
    most = max(3, int(wide / 6.6))
    return (f'<rect x="{x:g}" y="{y:g}" width="{wide:g}" height="26" rx="6" class="{style}"/>'
            + label(x + wide / 2, y + 17, short(text, most), "name"))


def picture(height: int, title: str, parts: list[str]) -> str:
    """The parts as one picture, with a sentence for who cannot see it."""
    return (f'<svg viewBox="0 0 {WIDTH} {height}" role="img" aria-label="{escape(title, quote=True)}">'
            + "".join(parts) + "</svg>")


def schedule(race: Race) -> str:
    """Two lanes over time: what came before, the two recipes, and where they overlap."""
    first, second = race.first.recipe.target, race.second.recipe.target
    before = ", ".join(race.before) or "nothing has to come before"
    begin = 124 if race.before else 44
    parts = [
        label(0, 23, "job 1", "lane", "start"), label(0, 67, "job 2", "lane", "start"),
        '<rect x="196" y="0" width="92" height="82" class="meet"/>',
        box(begin, 6, 288 - begin, f"{first} {race.first.does}", "run"), box(196, 50, 160, f"{second} {race.second.does}", "run"),
        '<line x1="44" y1="94" x2="356" y2="94" class="axis"/><path d="M350 90l6 4-6 4" class="axis"/>',
        label(44, 110, "time", "lane", "start"), label(242, 110, "both use " + short(race.shown, 24), "bad"),
    ]
    if race.before:
        parts.append(box(44, 6, 74, race.before[0], "done"))
    return picture(116, f"Before: {before}. Then {first} and {second} run at once, and meet on {race.shown}", parts)


def edge(x1: float, y1: float, x2: float, y2: float, style: str = "edge") -> str:
    """A line between two places."""
    return f'<line x1="{x1:g}" y1="{y1:g}" x2="{x2:g}" y2="{y2:g}" class="{style}"/>'


def graph(race: Race) -> str:
    """What the two need, the two, and what needs them; the edge that is missing is dashed."""
    late, early = race.second.recipe.target, race.first.recipe.target
    above, below = race.before[:3], race.behind[:3]
    row = 54 if above else 18
    parts = [edge(136, row + 13, 220, row + 13, "missing"), f'<path d="M213 {row + 8}l8 5-8 5" class="missing-end"/>',
             label(178, row + 6, "missing", "bad")]
    for y, names, needs in ((0, above, True), (row + 54, below, False)):
        wide = min(150, WIDTH / max(len(names), 1) - 8)
        begin = (WIDTH - len(names) * (wide + 8) + 8) / 2
        for at, name in enumerate(names):
            x = begin + at * (wide + 8)
            for side, target in ((70, early), (290, late)):
                if name in ends_of(race, target, needs):
                    parts.append(edge(x + wide / 2, y + 26 * needs, side, row if needs else row + 26))
            parts.append(box(x, y, wide, name, "done" if needs else "plain"))
    parts += [box(4, row, 132, early, "run"), box(222, row, 134, late, "run")]
    return picture(row + (82 if below else 30), f"{late} does not wait for {early}", parts)


def ends_of(race: Race, target: str, needs: bool) -> tuple[str, ...]:
    """What a target of the race needs, or what needs it."""
    side = race.first if race.first.recipe.target == target else race.second
    return side.needs if needs else side.needed_by
