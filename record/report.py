"""The verdict as text: races with both places, the fix, and what was taken for granted."""

import json
import os
import sys
import textwrap
from dataclasses import dataclass
from functools import partial
from pathlib import Path
from typing import Any, Callable, Dict, Iterable, List, Sequence, Tuple, TypeVar, cast

from record.fixes import Remedy, is_needed, merged, remedy
from record.judge import Race, Verdict, explained
from record.kinds import Meeting, target, whole
from record.messages import after_no_verdict, plural
from record.ninja.fix import pool_text
from record.orders import result
from record.build.assumptions import OF_TREE
from record.build.text import OWN_NAME, file_of, shown

SHOWN_BLOCKS, SHOWN_LINES, SHOWN_FILES, SHOWN_HOLES = 10, 3, 3, 20
SHOWN_SIGNS = 80  # of an example
WORDS = 100  # signs of a call, at most
Item = TypeVar("Item")
UNJUDGED = "what the trace shows, and nobody can judge, does no harm: "


@dataclass
class Judged:
    """One round of the record with what `race` said of it."""

    number: str
    about: Dict[str, Any]
    verdict: Verdict
    orders: result.Orders = None  # what builds in other orders came to


@dataclass
class Colours:
    """Escapes, empty where the text goes to no terminal."""

    bad: str = ""
    good: str = ""
    end: str = ""


def colours() -> Colours:
    """For standard output."""
    has_colours = sys.stdout.isatty() and not os.environ.get("NO_COLOR")
    return Colours("\x1b[1;31m", "\x1b[1;32m", "\x1b[0m") if has_colours else Colours()


def place(about: Dict[str, Any], label: str) -> str:
    """`Makefile:26`, from the folder of the recorded command; a dash where no place is known."""
    file, line = spot(about, label, about.get("project", about.get("folder", "/")))
    return "%s:%d" % (file, line) if file else "-"


def spot(about: Dict[str, Any], label: str, base: str) -> Tuple[str, int]:
    """The file, from a folder on, and the line that a person edits; nothing where no place is known."""
    found = about["labels"].get(label, {})
    file, line = found.get("place") or (found.get("file", ""), found.get("line", 0))
    return (near(about, file, base), line) if file else ("", 0)


def near(about: Dict[str, Any], path: str, base: str) -> str:
    """A path of a build from a folder on; whole where it is not in the project."""
    name, top = whole(about, path), about.get("top", about.get("folder", "/"))
    return os.path.relpath(name, base) if os.path.commonpath([name, top]) == top else name


def verb(about: Dict[str, Any], label: str, does: str, path: str) -> str:
    """What a task does to a path, in the words of all companions."""
    if OWN_NAME.search(path):
        return "settles it" if does == "writes" else "sees it"
    if does == "reads" and path in about["labels"].get(label, {}).get("asks", ()):
        return "make looks at it"
    return does + " it" if does in ("reads", "writes") else does


def name_of(about: Dict[str, Any], path: str) -> str:
    """A path as people know it: the file that it is about, which is spelled as in its makefile where it is in the project."""
    name = file_of(path) if path in about.get("meanings", {}) else path
    return near(about, name, about.get("folder", "/")) + "/" * name.endswith("/") if name.startswith("/") else name


def who(about: Dict[str, Any], race: Race, label: str) -> str:
    """A recipe of a race, by its target; by its command, where that is a process of it that races with another one, or that it leaves running."""
    found, name = about["labels"].get(label, {}), target(about, label)
    command: str = found.get("command", "")
    return command if Meeting(about, race).is_of_one_recipe else "%s (%s)" % (name, command) if found.get("left") else name


def rows(about: Dict[str, Any], race: Race) -> List[str]:
    """The two recipes of a race with their places and what they do, in columns."""
    sides = ((race.first, race.first_does, ""), (race.second, race.second_does, ", and nothing orders the two"))
    found = [(who(about, race, label), place(about, label), verb(about, label, does, race.path) + more) for label, does, more in sides]
    wide = [max(len(row[at]) for row in found) for at in (0, 1)]
    pool = pool_text(about["labels"], race.first, race.second)
    return ["  %s  %s  %s" % (row[0].ljust(wide[0]), row[1].ljust(wide[1]), row[2]) for row in found] + (["  " + pool] if pool else [])


def remedy_text(remedies: List[Remedy], is_fixed: bool) -> List[str]:
    """What ends some races: advice, and the lines to write, with what was checked of them."""
    lines = ["  advice: " + advice for advice in dict.fromkeys(one.advice for one in remedies if one.advice)]
    words = merged(remedies)
    lined = [one for one in remedies if one.lines]
    checked = "          (checked: ends %s)" % ("these races" if len(lined) > 1 else "this race") if is_fixed and all(one.is_edge for one in lined) else ""
    last = min(len(words), SHOWN_LINES) - 1
    lines += ["  fix: %s%s" % (word, checked if at == last else "") for at, word in enumerate(words[:SHOWN_LINES])]
    return lines + (["  and %d more lines: race-report lists them" % (len(words) - SHOWN_LINES)] if len(words) > SHOWN_LINES else [])


def race_text(one: Judged, races: List[Race]) -> List[str]:
    """The lines of some races that stand together: the first one, and what ends all of them."""
    about, verdict = one.about, one.verdict
    found = [(race, remedy(about, race)) for race in races]
    remedies = [it for race, it in found if is_needed(verdict, race) or not it.is_edge]
    ended = ["  the lines of other races end this one too"] if not remedies else []
    more = [more_text(about, races)] if len(races) > 1 else []
    inside = "  in %s: %s, %s" % (target(about, races[0].first), *(who(about, races[0], it) for it in (races[0].first, races[0].second))) if Meeting(about, races[0]).is_of_one_recipe else ""
    meaning = about.get("meanings", {}).get(races[0].path)  # what the path stands for if it is no file
    return ["RACE  " + name_of(about, races[0].path) + ("  (%s)" % meaning if meaning else "") + inside, *rows(about, races[0]), *result.seen(one.orders, races[0].first, races[0].second), *more, *ended, *remedy_text(remedies, verdict.is_fixed)]


def in_order(count: int, word: str) -> str:
    """`1 pair that conflicts is in order`, `2 pairs that conflict are in order`"""
    return plural(count, word) + (" that conflicts is in order" if count == 1 else " that conflict are in order")


def group_of(about: Dict[str, Any], race: Race) -> Tuple[str, str]:
    """What stands together: races of one kind by one writer."""
    return Meeting(about, race).kind.name, race.first if race.first_does == "writes" else race.second


def more_text(about: Dict[str, Any], races: List[Race]) -> str:
    """The line about the other races of a group."""
    count = len(races) - 1
    files = list(dict.fromkeys(name_of(about, race.path) for race in races))
    if len(files) == 1:
        return "  and %d more on this file by the same writer" % count
    others = "" if len(files) <= SHOWN_FILES + 1 else " and %d other files" % (len(files) - SHOWN_FILES - 1)
    return "  and %d more of this kind by the same writer, also on %s%s" % (count, ", ".join(files[1:SHOWN_FILES + 1]), others)


def grouped(found: Iterable[Item], key: Callable[[Item], Tuple[str, ...]]) -> List[List[Item]]:
    """What has the same key stands together."""
    groups: Dict[Tuple[str, ...], List[Item]] = {}
    for one in found:
        groups.setdefault(key(one), []).append(one)
    return list(groups.values())


def races_text(judged: List[Judged], colour: Colours) -> List[str]:
    """The races of all rounds: the first groups, and how many others there are."""
    groups = [(one, group) for one in judged for group in grouped(one.verdict.races, partial(group_of, one.about))]
    lines: List[str] = []
    last = None
    for one, group in groups[:SHOWN_BLOCKS]:
        if len(judged) > 1 and one is not last:
            call = "%s %s" % (one.about.get("tool", "make"), one.about["words"])  # a make may hand on a hundred macros: record.json has them all
            lines.append("%s  in %s" % (textwrap.shorten(call, WORDS, placeholder=" .."), one.about["folder"]))  # guard: calls-with-many-words
        first, *others = race_text(one, group)
        lines += [colour.bad + first + colour.end, *others, ""]
        last = one
    left = groups[SHOWN_BLOCKS:]
    count = sum(len(group) for _, group in left)
    return lines + ["%s in %s more: race-report lists all" % (plural(count, "race"), plural(len(left), "group")), ""] * bool(left)


def summary(judged: List[Judged]) -> str:
    """How many races there are, and whether all lines together end them."""
    races = [(one, race) for one in judged for race in one.verdict.races]
    files = len({(one.number, race.path) for one, race in races})
    recipes = sum(one.about["counts"]["recipes"] for one in judged)
    pairs = sum(one.verdict.pairs for one in judged) - len(races)
    remedies = [remedy(one.about, race) for one, race in races]
    is_whole = all(one.verdict.is_fixed and not one.verdict.refused for one in judged) and all(one.lines and one.is_edge for one in remedies)  # guard: build-is-not-safe-beside-look
    return "%s on %s. %s, %s. %s" % (plural(len(races), "race"), plural(files, "file"), plural(recipes, "recipe"), in_order(pairs, "other pair"), checked(remedies, is_whole))


def checked(remedies: Sequence[Remedy], is_whole: bool) -> str:
    """What is known of all lines together."""
    without = sum(not one.lines for one in remedies)
    if is_whole:
        return "With %s the build is safe (checked)." % ("this line" if len(merged(remedies)) == 1 else "these lines")
    if without:
        return "No line ends %d of the races." % without if without < len(remedies) else "No line ends %s." % ("it" if without == 1 else "them")
    return "Write the lines, and record again: they are not checked."


def assumptions_text(record: Dict[str, Any], is_safe: bool) -> List[str]:
    """What was taken for granted: a line for each kind or, where other orders were tried, three at most."""
    found = [(one["kind"], one["text"], example_text(one, record["folder"])) for one in record["assumptions"] if one["kind"] != "orders" or not record.get("orders")]
    texts = [text + example for _, text, example in found]
    if record.get("orders"):
        tree = "; ".join(text + example for kind, text, example in found if kind in OF_TREE)
        left = ", ".join(kind + example for kind, _, example in found if kind not in OF_TREE)
        texts = [*result.premise(record["orders"]), *filter(None, [tree, left and UNJUDGED + left])]
    lines = ["safe, if:" if is_safe else "Assumed:", *(line for text in texts for line in wrapped(text, "  - ", "    "))]
    keys = ", ".join(kind for kind, _, _ in found)
    return [*lines, *(wrapped("race-explain says what to do about a line, by its key: " + keys) if keys else [])] if texts else []


def example_text(one: Dict[str, Any], folder: str) -> str:
    """How often something was met, and the first case: with names from the project's folder on; of a long one the beginning, and a mark that it goes on."""
    text = one["example"].replace(folder + "/", "")
    text = text if len(text) <= SHOWN_SIGNS else text[:SHOWN_SIGNS] + ".."
    return "" if one["count"] == 1 and not text else " (%d, such as %s)" % (one["count"], text)


def wrapped(text: str, first: str = "  ", others: str = "  ") -> List[str]:
    """A text in as many lines as it takes, and what each begins with."""
    return textwrap.wrap(text, 78, initial_indent=first, subsequent_indent=others, break_long_words=False, break_on_hyphens=False)


def listed(holes: List[str], out: Path) -> List[str]:
    """Holes, a line each; of many the first ones, and where all of them are."""
    more = ["  - and %d more: %s has all of them, under holes" % (len(holes) - SHOWN_HOLES, out / "record.json")]
    return ["  - " + hole for hole in holes[:SHOWN_HOLES]] + (more if len(holes) > SHOWN_HOLES else [])


def no_verdict(record: Dict[str, Any], judged: List[Judged], out: Path, colour: Colours) -> List[str]:
    """Why there is no verdict, and which page says what to do; nothing where there is one."""
    refused = ["  - no verdict on build %s: %s" % (one.number, explained(one.verdict.refused)) for one in judged if one.verdict.refused]
    if not refused and not record["holes"]:
        return []
    why = "the record has holes:" if record["holes"] else "race did not judge all builds:"
    return [colour.bad + "NO VERDICT" + colour.end + "  " + why, *refused, *listed(record["holes"], out), after_no_verdict()]


def report(record: Dict[str, Any], judged: List[Judged], out: Path) -> List[str]:
    """The whole text of the record in a folder: why there is no verdict, the races, and what was taken for granted."""
    colour = colours()
    racing, orders = [one for one in judged if one.verdict.races], record.get("orders")
    whatever = result.whatever(orders)
    is_safe = not racing and not whatever and not record["holes"] and not any(one.verdict.refused for one in judged)
    lines = warm_text(record, colour) + no_verdict(record, judged, out, colour)
    lines += ["HINT  " + hint for hint in record.get("hints", [])] + ["note: " + note for note in record.get("notes", []) + result.uncompared(orders, record["folder"], SHOWN_FILES)]
    lines += [colour.bad + "RACE" + colour.end + "  with several jobs, whatever the order of recipes is:", *("  " + line for line in whatever), ""] * bool(whatever)
    lines += ([""] if lines and racing else []) + races_text(judged, colour)
    if is_safe:
        recipes, pairs = sum(one.about["counts"]["recipes"] for one in judged), sum(one.verdict.pairs for one in judged)
        ran = plural(recipes, "recipe") + ("" if orders else " in " + plural(len(judged), "build"))
        lines.append("%sSAFE%s  %s; %s%s" % (colour.good, colour.end, ran, in_order(pairs, "pair"), result.left(orders)))
        lines += ["      for %s" % record["tree"]] if record.get("tree") else []
    elif racing:
        lines.append(summary(judged))
    return lines + assumptions_text(record, is_safe)


def warm_text(record: Dict[str, Any], colour: Colours) -> List[str]:
    """The first lines where something that the build makes was there before."""
    warm = record.get("warm", {"count": 0})
    if not warm["count"]:
        return []
    was = "was" if warm["count"] == 1 else "were"
    names = [os.path.relpath(shown(name), shown(record["folder"])) for name in warm["names"]]
    more = ["%d more" % (warm["count"] - len(names))] if warm["count"] > len(names) else []
    first = "%sWARM%s  %s that this build makes %s there before: this is about builds from such a tree" % (colour.bad, colour.end, plural(warm["count"], "file"), was)
    return [first, *wrapped(", ".join(names + more))]


def read_json(path: Path) -> Dict[str, Any]:
    """One file of the record."""
    return cast(Dict[str, Any], json.loads(path.read_text(encoding="utf-8")))
