"""Trees that were built before they are recorded: built and cleaned in part, perhaps more than once, with or without git.

A yes about such a tree is one about a new checkout, unless it says that builds start from this tree, or names another one than a checkout.
"""

import os
import random
import re
import subprocess
from dataclasses import dataclass
from pathlib import Path
from typing import List, Optional

LEFT = [0.1]  # the part of the seeds that have such a tree
GIT = "git init -q . && echo '%s' > .gitignore && git add -f -A && git -c user.name=x -c user.email=x@y commit -q -m x"
OTHER_TREE = re.compile(r"(?m)^      for (?:this folder|.* new files? \()")  # what git tracks is not all of it


@dataclass
class Left:
    """What was done with a tree before."""

    cleans: List[float]  # for each build: the part of what it made that was removed then
    has_git: bool = True
    ignores: bool = True  # git ignores what builds make
    is_fresh: bool = False  # it is recorded with --fresh

    def options(self) -> List[str]:
        """Those of the recorder."""
        return ["--fresh"] if self.is_fresh else []

    def prepare(self, folder: Path, sources: List[str], build: List[str], seed: int) -> None:
        """Builds and cleans in a folder that holds the sources; git tracks these."""
        draw = random.Random(seed)
        if self.has_git:
            subprocess.run(["sh", "-c", GIT % ("*" if self.ignores else ".race")], cwd=folder, check=True, capture_output=True)
        kept = {os.path.normpath(name) for name in sources}
        for part in self.cleans:
            subprocess.run(build, cwd=folder, capture_output=True, stdin=subprocess.DEVNULL, check=False)
            made = sorted(path for path in folder.rglob("*") if ".git" not in path.parts and not path.is_dir() and str(path.relative_to(folder)) not in kept)
            for path in made:
                if draw.random() < part:
                    path.unlink()


def is_about_another(output: str) -> bool:
    """Whether a yes names another tree than a new checkout."""
    return OTHER_TREE.search(output) is not None


def draw_left(seed: int) -> Optional[Left]:
    """That of a seed, if it has one."""
    draw = random.Random("left %d" % seed)
    if draw.random() >= LEFT[0]:
        return None
    return Left([draw.choice((0.3, 0.6, 0.9)) for _ in range(draw.choice((1, 1, 2)))], draw.random() < 0.85, draw.random() < 0.7, draw.random() < 0.3)
