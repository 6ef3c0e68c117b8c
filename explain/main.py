"""The command race-explain."""
from __future__ import annotations

import argparse
import difflib
import re
import shutil
import sys
from pathlib import Path

from explain.plain import plain
from explain.topics import Topic, topics, topics_of_records
from record import RELEASE

ABOUT = "Prints what an answer, a fault, a refusal of a log, a kind of race, a missing input or a premise means, and what to do about it."
DOCS = Path(__file__).resolve().parents[1] / "docs"
PAGE = DOCS / "FAULTS.md"
OF_RECORDS = (DOCS / "RECORD.md", DOCS / "MISSING.md")
EXAMPLE = """
examples:
  race-explain F16              a fault, by its number
  race-explain BadTask V3       by its word; several at once
  race-explain race             what a race is, and the kinds of races
  race-explain shared-log       one kind
  race-explain missing          what race missing prints
  race-explain NO VERDICT       an answer of race-record: also SAFE, WARM
  race-explain unasked          a line below `safe, if`, by its key
  race-explain                  lists all that can be asked for

status: 0 printed; 1 a name is not known, near ones are listed; 3 usage, or the page cannot be read or the output written
"""
WIDEST = 100


def parse(words: list[str] | None) -> argparse.Namespace:
    parser = argparse.ArgumentParser(prog="race-explain", description=ABOUT, epilog=EXAMPLE,
                                     formatter_class=argparse.RawDescriptionHelpFormatter)
    parser.add_argument("names", nargs="*", metavar="NAME", help="F16, V3, a word such as NoRule, race, a kind such as shared-log, SAFE, WARM, NO VERDICT, or the key of a premise (all are listed)")
    parser.add_argument("-V", "--version", action="version", version=f"%(prog)s {RELEASE}", help="print the version")
    return parser.parse_args(words)


def width() -> int:
    """How wide the text may be: the terminal's width, or that of most where there is none."""
    return max(40, min(WIDEST, shutil.get_terminal_size((80, 24)).columns))


def index(found: list[Topic]) -> dict[str, Topic]:
    """The topics under each of their names, without regard to case."""
    return {name.lower(): it for it in reversed(found) for name in it.names}


def listed(found: list[Topic], columns: int) -> str:
    """One line for each topic: its names, and what it is, cut to this width."""
    rows = [(" ".join(it.names) if it.names[0] != "race" else "race", it.title.replace("`", "")) for it in found]
    first = max(len(name) for name, _ in rows)
    lines = (f"{name:{first}}  {title}" for name, title in rows)
    return "\n".join(it if len(it) <= columns else it[: columns - 2] + ".." for it in lines)


def near(name: str, found: list[Topic]) -> list[str]:
    """The names that are like one that is not known: up to five, the nearest first."""
    names = {it.lower(): it for topic in found for it in topic.names}
    close = difflib.get_close_matches(name.lower(), names, n=5, cutoff=0.5)
    inside = [it for it in names if len(name) > 2 and name.lower() in it and it not in close]
    return [names[it] for it in [*close, *inside][:5]]


def explained(topic: Topic, columns: int) -> str:
    head = " ".join(topic.names) if topic.names[0] != "race" else "race"
    return f"{head}\n{'=' * len(head)}\n\n{plain(topic.lines, columns)}"


def answer(names: list[str], found: list[Topic]) -> tuple[int, str]:
    """The status, and the text: nothing is printed of names that are not known."""
    if not names:
        return 0, listed(found, width() if sys.stdout.isatty() else sys.maxsize)
    known = index(found)
    names = re.sub("(?i)no verdict", "no-verdict", " ".join(names)).split()
    missing = [it for it in names if it.lower() not in known]
    for name in missing:
        close = ", ".join(near(name, found))
        print(f"race-explain: no such name: {name}" + (f"; near it: {close}" if close else "; race-explain lists all"), file=sys.stderr)
    texts = (explained(known[it.lower()], width()) for it in names if it not in missing)
    return (1 if missing else 0), "\n\n".join(texts)


def main(words: list[str] | None = None) -> int:
    """Reads the page, prints; the status."""
    try:
        args = parse(words)
    except SystemExit as end:
        return 3 if end.code else 0
    try:
        records = "\n".join(it.read_text("utf-8") for it in OF_RECORDS)
        status, text = answer(args.names, [*topics(PAGE.read_text("utf-8")), *topics_of_records(records)])
        if text:
            sys.stdout.buffer.write(f"{text}\n".encode("utf-8", "backslashreplace"))
            sys.stdout.buffer.flush()
    except OSError as error:
        how = "; it has what is explained: ./install puts it there" if error.filename in (str(PAGE), *map(str, OF_RECORDS)) else ""
        print(f"race-explain: {error.filename or 'standard output'}: {error.strerror or error}{how}", file=sys.stderr)
        return 3
    return status
