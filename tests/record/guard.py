"""Guards: each turns a rule of a companion off, and names a test that fails then.

The line of the rule ends in a comment with a name, its marker: `# guard: waits-for-end`. A guard says what stands in the place of that line.
"""

from dataclasses import dataclass
from typing import List, Tuple

YES = "1 != 0"  # a yes in place of a race
FALSE_RACE = "0 != 1"  # a race in place of a yes
LOST_HOLE = "2 != 0"  # a yes on a record with a hole
LOST_RACE = "1 != 2"  # a race that is lost where a hole or the warm tree still bars the yes
UNSAID = "not found in"
WITHHELD = "0 != 2"
MARKER = "  # guard: "


@dataclass(frozen=True)
class Guard:
    """One guard: the module, the marker of a line, what stands there instead, the test that fails then, and what its failure must hold; the shapes of the
    fuzzer (fuzz_gadgets.py) that show it too."""

    module: str
    marker: str
    new: str
    test: str
    gives: str = ""
    shape: str = ""

    @property
    def name(self) -> str:
        """What it is called by."""
        return "%s %s" % (self.module, self.marker)

    def off(self, text: str) -> str:
        """The text of the module without the rule; nothing where it has no such line, or several."""
        lines = text.split("\n")
        found = [at for at, line in enumerate(lines) if line.endswith(MARKER + self.marker)]
        if len(found) != 1:
            return ""
        indent = lines[found[0]][:len(lines[found[0]]) - len(lines[found[0]].lstrip())]
        lines[found[0]] = "\n".join(indent + line for line in self.new.split("\n"))
        return "\n".join(lines)


def guards(module: str, *rows: Tuple[str, ...]) -> List[Guard]:
    """The guards of a module. A row has the other parts of one; its test is `FILE.CLASS.NAME`, without `test_`."""
    return [Guard(module, marker, new, full(test), *more) for marker, new, test, *more in rows]


def full(test: str) -> str:
    """The whole name of a test."""
    file, name, method = test.split(".")
    return "%s.%s.test_%s" % (file if file.endswith("_tests") else "test_" + file, name, method)


def markers(text: str) -> List[str]:
    """The markers of a text."""
    return [line.rpartition(MARKER)[2] for line in text.split("\n") if MARKER in line]
