"""The reader of build.ninja: build statements with what they ask for, what they make, and their commands, as ninja has them; and of dyndep files, which say
while ninja runs what a statement needs and makes besides.

Values of rules are worked out when they are asked for, all others where they stand: so does ninja. It has read these files before, so what it refuses does
not come here.
"""

import os
import re
from collections import ChainMap
from dataclasses import dataclass, field
from functools import cached_property
from typing import Callable, Dict, Iterator, List, Optional, Set, Tuple

from record.build.tasks import grouped, reached

VARIABLE = re.compile(r"\$(?:\{([A-Za-z0-9_.-]+)\}|([A-Za-z0-9_-]+)|(.?))", re.S)
TOKEN = re.compile(r"(\|\||\|@|\||:)|((?:\$.|[^ :|$])+)")
LET = re.compile(r" *([A-Za-z0-9_.-]+) *= *(.*)", re.S)
PLAIN = re.compile(r"[A-Za-z0-9_+./-]*\Z")
OWN = (".ninja_log", ".ninja_deps", ".ninja_lock")  # what ninja keeps for itself
SECTIONS = {"|": "implicit", "||": "order_only", "|@": "validations"}


class Unreadable(Exception):
    """A manifest that ninja would not read, or that this reader does not know."""


def evaluate(text: str, value: Callable[[str], str]) -> str:
    """A text with its variables and escapes worked out."""
    return VARIABLE.sub(lambda found: value(found[1] or found[2]) if found[1] or found[2] else found[3], text)


def canonical(path: str) -> str:
    """A path as ninja keeps it."""
    plain = os.path.normpath(path)
    return plain[1:] if plain.startswith("//") else plain


def quoted(path: str) -> str:
    """A path as ninja puts it into a command for `$in` and `$out`."""
    return path if PLAIN.match(path) else "'" + path.replace("'", "'\\''") + "'"


class Scope:
    """Variables and rules of one file, or of one build statement, and of those around it."""

    def __init__(self, parent: "Optional[Scope]" = None) -> None:
        self.values: ChainMap[str, str] = parent.values.new_child() if parent is not None else ChainMap()
        self.rules: ChainMap[str, Dict[str, str]] = parent.rules.new_child() if parent is not None else ChainMap({"phony": {}, "dyndep": {}})

    def value(self, name: str) -> str:
        """What a variable holds; nothing where nobody sets it."""
        return self.values.get(name, "")


@dataclass(eq=False)
class Edge:
    """One build statement."""

    number: int
    rule: str
    scope: Scope
    bindings: Dict[str, str]  # of the rule
    file: str
    line: int
    outputs: List[str] = field(default_factory=list)
    implicit_outputs: List[str] = field(default_factory=list)
    inputs: List[str] = field(default_factory=list)
    implicit: List[str] = field(default_factory=list)
    order_only: List[str] = field(default_factory=list)
    validations: List[str] = field(default_factory=list)
    restat_by_file: bool = False  # a dyndep file says `restat`

    @property
    def label(self) -> str:
        """The first output."""
        return self.makes()[0]

    def makes(self) -> List[str]:
        """All outputs."""
        return self.outputs + self.implicit_outputs

    def waits(self) -> List[str]:
        """All that must be there before the command starts."""
        return self.inputs + self.implicit + self.order_only  # guard: validations-give-none

    def value(self, name: str, escape: bool = True) -> str:
        """A binding of this statement; `escape`: paths as a command needs them."""
        if name in ("in", "in_newline", "out"):
            paths = self.outputs if name == "out" else self.inputs
            return ("\n" if name == "in_newline" else " ").join(quoted(p) if escape else p for p in paths)
        if name in self.scope.values.maps[0]:
            return self.scope.values[name]
        if name in self.bindings:
            return evaluate(self.bindings[name], lambda other: self.value(other, escape))
        return self.scope.value(name)

    def path(self, name: str) -> str:
        """A binding that names a file; nothing where there is none."""
        found = self.value(name, False)
        return canonical(found) if found else ""

    @property
    def is_phony(self) -> bool:
        """Whether it has no command."""
        return self.rule == "phony"

    @property
    def is_generator(self) -> bool:
        """Whether it makes the manifest itself."""
        return bool(self.value("generator"))

    @property
    def is_restat(self) -> bool:
        """Whether ninja looks at its outputs once its command has ended."""
        return self.restat_by_file or bool(self.value("restat"))

    @property
    def command(self) -> str:
        """The text that the shell gets."""
        return "" if self.is_phony else self.value("command")


def logical_lines(text: str) -> Iterator[Tuple[int, str]]:
    """The lines of a file without comments, each with its number; a `$` at the end joins it with the next."""
    held, begun = "", 0
    for number, line in enumerate(text.replace("\r\n", "\n").split("\n"), 1):
        if not begun and line.lstrip(" ").startswith("#"):
            continue
        line, begun = held + line.lstrip(" ") if begun else line, begun or number
        if (len(line) - len(line.rstrip("$"))) % 2:
            held = line[:-1]
        else:
            yield begun, line
            held, begun = "", 0


@dataclass(eq=False)
class Manifest:
    """All that was read of one build.ninja and the files that it includes."""

    folder: str
    edges: List[Edge] = field(default_factory=list)
    defaults: List[str] = field(default_factory=list)
    files: List[str] = field(default_factory=list)
    makers: Dict[str, Edge] = field(default_factory=dict)  # output: statement
    top: Scope = field(default_factory=Scope)

    def add(self, edge: Edge, paths: List[str]) -> None:
        """Notes who makes some paths."""
        self.makers.update((path, edge) for path in paths if path not in self.makers)

    def add_found(self, edge: Edge, found: "Manifest") -> None:
        """What a dyndep file says of a statement."""
        for one in found.edges:
            if self.makers.get(one.label) is edge:  # guard: dyndep-file-adds-to-its-statement-alone
                edge.implicit += one.implicit
                edge.implicit_outputs += one.implicit_outputs
                edge.restat_by_file = edge.restat_by_file or one.is_restat
                self.add(edge, one.implicit_outputs)

    def makers_of(self, edge: Edge) -> List[Edge]:
        """The statements whose outputs a statement waits for."""
        found = (self.makers.get(path) for path in edge.waits())
        return list(dict.fromkeys(one for one in found if one is not None and one is not edge))

    @cached_property
    def users(self) -> Dict[str, List[Edge]]:
        """For each path the statements that wait for it. Asked when all is read."""
        return grouped((path, edge) for edge in self.edges for path in edge.waits())

    def users_of(self, edge: Edge) -> List[Edge]:
        """The statements that wait for a statement."""
        return [user for path in edge.makes() for user in self.users.get(path, ()) if user is not edge]

    def goals(self, names: List[str]) -> Optional[List[Edge]]:
        """The statements that words of the command line name; without words the default; None where a word is not known."""
        needed = {path for edge in self.edges for path in edge.waits() + edge.validations}
        asked = [canonical(n) for n in names] or self.defaults or [path for path in self.makers if path not in needed]
        return [self.makers[name] for name in asked] if self.makers.keys() >= {*asked} else None

    def below(self, goals: List[Edge]) -> Set[int]:
        """The numbers of all statements that goals need, validations with them."""
        found = reached(goals, lambda edge: [*self.makers_of(edge), *(self.makers[path] for path in edge.validations if path in self.makers)])
        return {edge.number for edge in found}


class Reader:
    """Reads a manifest, and what it includes."""

    def __init__(self, manifest: Manifest, text_of: Callable[[str], str]) -> None:
        self.manifest, self.text_of = manifest, text_of

    def read(self, name: str, scope: Scope) -> None:
        """One file; its statements in order, each with the block below it."""
        self.manifest.files.append(name)
        statements: List[Tuple[int, str, Dict[str, str]]] = []
        for number, text in logical_lines(self.text_of(os.path.join(self.manifest.folder, name))):
            if text.startswith(" ") and (binding := LET.fullmatch(text)):
                statements[-1][2][binding[1]] = binding[2]
            elif text.strip(" "):
                statements.append((number, text, {}))
        for number, text, block in statements:
            self.statement(name, number, text, block, scope)

    def statement(self, file: str, number: int, text: str, block: Dict[str, str], scope: Scope) -> None:
        """One statement, and what it is."""
        word, _, rest = text.partition(" ")
        if binding := LET.fullmatch(text):
            scope.values[binding[1]] = evaluate(binding[2], scope.value)
        elif word == "rule":
            scope.rules[rest.strip(" ")] = block
        elif word == "default":
            self.manifest.defaults += [canonical(evaluate(one, scope.value)) for _, one in TOKEN.findall(rest)]
        elif word in ("include", "subninja"):
            self.read(evaluate(rest.strip(" "), scope.value), scope if word == "include" else Scope(scope))
        elif word == "build":
            self.edge(file, number, rest, block, scope)
        elif word != "pool":
            raise Unreadable("%s:%d: no statement of ninja: %s" % (file, number, text[:80]))

    def edge(self, file: str, number: int, text: str, block: Dict[str, str], scope: Scope) -> None:
        """A build statement."""
        own = Scope(scope) if block else scope
        own.values.update({key: evaluate(value, scope.value) for key, value in block.items()})
        rule, parts = split_build(text)
        edge = Edge(len(self.manifest.edges), rule, own, scope.rules[rule], file, number)
        for section, word in parts:
            getattr(edge, section).append(canonical(evaluate(word, own.value)))
        self.manifest.edges.append(edge)
        self.manifest.add(edge, edge.makes())


def split_build(text: str) -> Tuple[str, List[Tuple[str, str]]]:
    """The rule of a build line, and its words, each with the list of `Edge` that it belongs to."""
    rule, section, parts = "", "outputs", []
    for mark, word in TOKEN.findall(text):
        if mark:
            section = "rule" if mark == ":" else SECTIONS[mark] if rule else "implicit_outputs"
        elif section == "rule":
            rule, section = word, "inputs"
        else:
            parts.append((section, word))
    return rule, parts


def read_manifest(folder: str, name: str, text_of: Callable[[str], str]) -> Manifest:
    """The manifest `name`, or a dyndep file, in a folder; `text_of` gives the text of a file by its path."""
    manifest = Manifest(folder)
    try:
        Reader(manifest, text_of).read(name, manifest.top)
    except OSError as fault:
        raise Unreadable("%s: %s" % (fault.filename or name, fault.strerror)) from None
    except (LookupError, RecursionError) as fault:
        raise Unreadable("%s: no manifest of ninja: %s" % (name, fault)) from None
    return manifest
