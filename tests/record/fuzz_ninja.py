"""Random small manifests of ninja for the fuzzer, some of whose statements forget an input on purpose.

A project is a list of blocks, as those of make are, with the same steps beside what a statement is for. `${N:-:}` in a command
delays it, and `${J:--j1}` is the number of jobs of a ninja inside of a command; the environment says both.
"""

import re
from dataclasses import dataclass, replace
from typing import Callable, Dict, List, Optional

from fuzz_projects import EXTRA, NEW, OLD, SHARED, STEPS, Block, Draw, Project
from support import is_new_ninja

HEAD = ("rule sh\n  command = $c\nrule again\n  command = cp next.ninja build.ninja\n  generator = 1\nrule list\n  command = $c\n  deps = gcc\n  depfile = $d\n"
        "rule spool\n  command = $c\n  rspfile = $f\n  rspfile_content = $in $out\npool one\n  depth = 1\n")
# Steps that GNU make itself works out are none of a shell.
PLAIN = tuple(step for step in STEPS if not re.search(r"\$\((?!@F)", step))
NAP = "$${N:-:} %s"


@dataclass
class NinjaProject(Project):
    """A manifest, and the files that stand beside it; `remade`: ninja makes the manifest first."""

    tool: str = "ninja"
    remade: bool = False

    def manifest(self) -> str:
        """The text of the manifest."""
        again = "build build.ninja: again next.ninja\n" if self.remade else ""
        text = HEAD + again + "".join(block.text for block in self.blocks)
        return text if is_new_ninja() else text.replace(" |@ ", " || ")

    def all_files(self) -> Dict[str, str]:
        found = {"build.ninja": self.manifest(), **self.files}
        if self.remade:
            found.update({"next.ninja": self.manifest(), "build.ninja": HEAD + "build build.ninja: again next.ninja\n"})
        for block in self.blocks:
            found.update(block.files)
        return found

    def turned(self) -> Optional[Project]:
        """The order of statements settles only which of those that could start do so first: other versions of ninja take another one."""
        blocks = [replace(block, text=turned(block.text), files={name: turned(text) for name, text in block.files.items()}) for block in self.blocks]
        return replace(self, blocks=blocks[::-1])

    def words(self) -> List[str]:
        return ["ninja"]

    def serial(self) -> List[str]:
        return ["ninja", "-j1"]

    def parallel(self, jobs: int, shuffle: int) -> List[str]:
        return ["ninja", "-j%d" % jobs]


def turned(text: str) -> str:
    """A text with its statements in another order, where it has some; what stands in front of the first stays there."""
    head, *statements = re.split(r"(?m)^(?=build )", text)
    return head + "".join(statements[::-1])


class NinjaDraw(Draw):
    """Draws one project; the parts of the other kind that fit are used as they are."""

    def __init__(self, seed: int, only: Optional[List[str]] = None) -> None:
        super().__init__(seed, only)
        self.project = NinjaProject(seed, files=self.project.files)
        shapes: Dict[str, Callable[[str], Block]] = {
            "file": self.file, "header": self.header, "user": self.user, "folder": self.folder, "outputs": self.outputs, "row": self.row,
            "restat": self.restat, "dyndep": self.dyndep, "pool": self.pool, "depfile": self.depfile, "response": self.response,
            "other": self.other, "inner": self.inner,
        }
        self.shapes = [shapes[name] for name in shapes if not only or name in only]

    def draw(self) -> Project:
        """The project: blocks in an order of their own; seldom a manifest that is remade."""
        project = super().draw()
        if isinstance(project, NinjaProject) and self.random.random() < 0.1:
            project.remade = True
            project.ages["build.ninja"] = OLD
        return project

    # ---------------------------------------------------------------- parts
    def needs(self) -> str:
        """Inputs of each kind."""
        marks = self.random.choice((("", " | "), ("", " || "), ("", " |@ "), ("", " ")))
        return "".join(mark + " ".join(self.prerequisites()) for mark in marks)

    def more(self, name: str) -> str:
        """More steps of a command, perhaps none."""
        steps = []
        while self.random.random() < EXTRA and len(steps) < 3:
            one, two = self.random.sample(SHARED, 2)
            step = self.random.choice(PLAIN).replace("X", one).replace("Y", two)
            step = step.replace("$N $@", NAP % name).replace("$@", name).replace("$(@F)", name.replace("/", "_"))
            steps.append("; %s; { %s; } || true" % (NAP % name, step))
        return "".join(steps)

    def build(self, name: str, needs: str, command: str, rule: str = "sh", outputs: str = "", more: str = "") -> str:
        """The text of a statement."""
        return "build %s%s: %s %s\n  c = %s; %s%s\n%s" % (name, outputs, rule, needs, NAP % name, command, self.more(name), more)

    def known(self, name: str, text: str, *outputs: str) -> Block:
        """A block whose outputs others may ask for."""
        self.done += [name, *outputs]
        return Block([name], text)

    # ---------------------------------------------------------------- shapes
    def file(self, name: str) -> Block:
        needs = self.needs()
        return self.known(name, self.build(name, needs, "cat /dev/null %s > %s" % (self.files_of(needs.partition("|")[0].split()), name)))

    def header(self, name: str) -> Block:
        self.headers.append(name + ".h")
        return self.known(name + ".h", self.build(name + ".h", self.needs(), "echo h > %s.t; %s; mv %s.t %s.h" % (name, NAP % name, name, name)))

    def user(self, name: str) -> Block:
        """Reads a header that somebody makes, and may forget to say so."""
        if not self.headers:
            return self.header(name)
        header = self.random.choice(self.headers)
        how = self.random.choice(("", "| ", "|| ")) if not self.forgets() else None
        needs = "src0" + ("" if how is None else " %s%s" % (how, header))
        return self.known(name, self.build(name, needs, "cat src0 %s > %s 2> /dev/null || true" % (header, name)))

    def folder(self, name: str) -> Block:
        """Outputs in a folder that ninja makes, and one who uses the folder with and without an output there."""
        text = self.build(name + ".d/a", self.needs(), "echo a > %s.d/a" % name) + self.build(name + ".d/e/b", self.needs(), "echo b > %s.d/e/b" % name)
        needs = "" if self.forgets() else "|| %s.d/a" % name
        text += self.build(name + ".u", needs, "echo u > %s.d/u 2> /dev/null || true; touch %s.u" % (name, name))
        return self.known(name + ".d/a", text, name + ".d/e/b")

    def outputs(self, name: str) -> Block:
        text = self.build(name, self.needs(), "echo 1 > %s; %s; echo 2 > %s.b" % (name, NAP % name, name), outputs=" | %s.b" % name if self.random.random() < 0.6 else "")
        reader = "%s.b" % name if "|" in text.partition(":")[0] and not self.forgets() else ""
        return self.known(name, text + self.build(name + ".r", reader, "cat %s.b > %s.r 2> /dev/null || true" % (name, name)))

    def row(self, name: str) -> Block:
        self.phony.add(name)
        return self.known(name, "build %s: phony %s\n" % (name, self.needs().replace(" |@ ", " || ")))

    def restat(self, name: str) -> Block:
        step = self.random.choice(("touch %s", "test -f %s || echo 1 > %s", "echo 1 > %s")).replace("%s", name)
        text = self.build(name, self.needs(), step, more="  restat = 1\n")
        text += self.build(name + ".r", name, "cat %s > %s.r" % (name, name))
        if self.random.random() < 0.3:
            text += self.build(name + ".w", "" if self.forgets() else name, "%s %s; touch %s.w" % (self.random.choice(("touch", "echo 2 >")), name, name))
        return self.known(name, text, name + ".r")

    def dyndep(self, name: str) -> Block:
        """A file that says while ninja runs what a statement needs, or makes besides."""
        header = self.random.choice(self.headers) if self.headers else "src1"
        needed = "" if self.forgets() else " | %s" % header
        extra = " | %s.x" % name if self.random.random() < 0.4 else ""
        restat = "\\n  restat = 1" if self.random.random() < 0.2 else ""
        dd = self.build(name + ".dd", self.needs(), "printf 'ninja_dyndep_version = 1\\nbuild %s%s: dyndep%s%s\\n' > %s.dd" % (name, extra, needed, restat, name))
        text = self.build(name, "|| %s.dd" % name, "cat %s > %s 2> /dev/null || true; touch %s.x" % (header, name, name), more="  dyndep = %s.dd\n" % name)
        return self.known(name, dd + text)

    def pool(self, name: str) -> Block:
        text = self.build(name, self.needs(), "echo %s >> x0; touch %s" % (name, name), more="  pool = %s\n" % self.random.choice(("one", "console")))
        return self.known(name, text)

    def depfile(self, name: str) -> Block:
        """A statement whose depfile ninja reads and removes; its name may be that of another's."""
        header = self.random.choice(self.headers) if self.headers else "src1"
        needs = "src0" + ("" if self.forgets() else " || %s" % header)
        file = self.random.choice((name + ".m", name + ".m", "x1.m"))
        step = "cat %s > %s 2> /dev/null || true; echo '%s: %s' > %s" % (header, name, name, header, file)
        return self.known(name, self.build(name, needs, step, "list", more="  d = %s\n" % file))

    def response(self, name: str) -> Block:
        file = self.random.choice((name + ".rsp", name + ".rsp", "x2.rsp"))
        return self.known(name, self.build(name, self.needs(), "cat %s > %s" % (file, name), "spool", more="  f = %s\n" % file))

    def other(self, name: str) -> Block:
        """A statement in a file of its own."""
        text = self.build(name, self.needs(), "echo 1 > %s" % name)
        block = self.known(name, "%s %s.ninja\n" % (self.random.choice(("include", "subninja")), name))
        block.files[name + ".ninja"] = text
        return block

    def inner(self, name: str) -> Block:
        """A ninja inside of a command, in a folder of its own, with a small project; it may reach out of its folder."""
        if self.below:
            return self.file(name)
        draw = NinjaDraw(self.random.getrandbits(32), ["file", "header", "user", "folder", "outputs"])
        draw.below = True
        draw.project.blocks = [draw.random.choice(draw.shapes)("s%d" % n) for n in range(draw.random.randint(1, 3))]
        text = self.build(name, self.needs(), "ninja $${J:--j1} -C %s.n > /dev/null; touch %s" % (name, name))
        block = self.known(name, text)
        block.files.update({"%s.n/%s" % (name, k): t for k, t in draw.project.all_files().items()})
        if self.random.random() < 0.3:
            self.project.ages["src2"] = NEW
        return block
