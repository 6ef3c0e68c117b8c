"""The model of `race` over tasks, race_tasks.py, and the program: what both say of random texts."""

import json
import os
import random
import subprocess
import tempfile
import unittest
from pathlib import Path
from typing import Any, Dict, List

from support import STAND_IN, race_program


LABELS = ["a", "b", "cc -c x.c", "d/e", "ä", "x\\", "lex.o", "t", "~"]
PATHS = ["t", "u", "d/x", "d/y", "d/", "e/f/g", "e/", "../out", "w w"]
TEXTS = 60
FILES = ["f", "g", "d/h", "out", "u", "w w"]


def random_text(dice: random.Random) -> str:
    """A text of tasks whose footprints meet; some labels stand twice, or are named too early."""
    labels = dice.sample(LABELS, dice.randint(0, len(LABELS)))
    lines: List[str] = []
    for at, label in enumerate(labels):
        known = labels if dice.random() < 0.02 else labels[:at]
        after = dice.sample(known, min(len(known), dice.randint(0, 2)))
        reads, writes = dice.sample(PATHS, dice.randint(0, 3)), dice.sample(PATHS, dice.choice([0, 0, 1, 2]))
        name = dice.choice(labels) if dice.random() < 0.02 else label
        lines.append(json.dumps({"task": name, "after": after, "reads": reads, "writes": writes}))
    return "".join(line + "\n" for line in lines)


def random_due_text(dice: random.Random) -> str:
    """A text of tasks, most of which say the file that they make and the files that they need, and wait for who makes these."""
    lines: List[str] = []
    made: Dict[str, str] = {}
    for at, label in enumerate(dice.sample(LABELS, dice.randint(1, len(LABELS)))):
        one: Dict[str, Any] = {"task": label, "after": [json.loads(dice.choice(lines))["task"]] if lines and dice.random() < 0.5 else []}
        writes = dice.sample(FILES, dice.choice([0, 0, 0, 1]))
        if dice.random() < 0.8:
            one["makes"] = dice.choice(FILES) if dice.random() < 0.02 else "m%d" % at
            one["needs"] = dice.sample([*FILES, *made], min(dice.randint(0, 3), len(FILES)))
            one["after"] += [made[it] for it in one["needs"] if it in made and dice.random() < 0.8]
            writes += [one["makes"]] if dice.random() < 0.9 else []
            made[one["makes"]] = label
        if dice.random() < 0.03:
            one["makes"] = "x"
        one["reads"] = dice.sample([*FILES, *made, "d/"], dice.randint(0, 3))
        lines.append(json.dumps({**one, "writes": [it for it in writes if dice.random() < 0.3 or it == one.get("makes")]}))
    return "".join(line + "\n" for line in lines)


@unittest.skipIf(race_program() == str(STAND_IN), "the program does not read tasks")
class StandIn(unittest.TestCase):
    """Both answer alike."""

    def ask(self, program: str, command: str, tasks: str) -> "subprocess.CompletedProcess[bytes]":
        """One answer over a text of tasks."""
        words = [program, command, "--tasks", tasks, "--root", "/w"]
        return subprocess.run(words, capture_output=True, stdin=subprocess.DEVNULL, timeout=60, check=False)

    def test_random_tasks(self) -> None:
        with tempfile.TemporaryDirectory() as room:
            tasks = Path(room, "tasks")
            for seed in range(TEXTS):
                tasks.write_text(random_text(random.Random(seed)), encoding="utf-8")
                for command in ("list", "check"):
                    ours, model = (self.ask(it, command, str(tasks)) for it in (race_program(), os.fspath(STAND_IN)))
                    said = [(it.returncode, it.stdout if command == "list" else it.stdout.split(b"\n")[0]) for it in (ours, model)]
                    self.assertEqual(*said, msg=tasks.read_text(encoding="utf-8"))

    def test_random_missing(self) -> None:
        with tempfile.TemporaryDirectory() as room:
            tasks, listing = Path(room, "tasks"), Path(room, "listing")
            for seed in range(2 * TEXTS):
                dice = random.Random(seed)
                tasks.write_text(random_due_text(dice), encoding="utf-8")
                listing.write_text("".join(name + "\n" for name in dice.sample(FILES, dice.randint(2, len(FILES)))), encoding="utf-8")
                words = ["missing", "--tasks", str(tasks), "--listing", str(listing), "--root", "/w"]
                ran = (subprocess.run([program, *words], capture_output=True, stdin=subprocess.DEVNULL, timeout=60, check=False)
                       for program in (race_program(), os.fspath(STAND_IN)))
                self.assertEqual(*((it.returncode, it.stdout) for it in ran), msg=tasks.read_text(encoding="utf-8") + listing.read_text(encoding="utf-8"))
