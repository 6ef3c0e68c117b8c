"""Names in pages and comments: each file, module, call, command, option and fault that is named has to be there."""
import re
from collections.abc import Iterator
from pathlib import Path

from .repository import Repository
from .texts import Line

TOPS = "crates docs cases examples tests tools bench share record report confirm".split()
# A path in running text or in a span: one that begins with a folder of the top or with a crate.
PATH = re.compile(rf"(?<![\w/.$~<>-])((?:{'|'.join(TOPS)}|[a-z_]+_tests|mk_[a-z]+)/[\w.*/-]*[\w*/])")
PLACEHOLDER = re.compile(r"(?<=/)(?:NAME|CRATE|N)\b")
SUFFIXES = (".antt", ".rt", ".md", ".py")
ITEM_PATH = re.compile(r"\b(mk_[a-z]+|[a-z]+_tests)((?:::\w+)+)")
CRATE = re.compile(r"^(?:mk_[a-z]+|[a-z]+_tests)$")
METHOD = re.compile(r"^([A-Z]\w+)::(\w+)$")
# Names that code alone has: words in camel case of two humps, and lower words with an underscore.
CODE_NAME = re.compile(r"^(?:(?:[A-Z][a-z0-9]+){2,}|[a-z][a-z0-9]*(?:_[a-z0-9]+)+)$")
FAULT = re.compile(r"(?<![\w-])([FV]\d{1,2})\b(?: ([A-Z][a-z]+(?:[A-Z][a-z0-9]+)*)\b)?")
OPTION = re.compile(r"(?<![\w-])--[a-z][\w-]*")
LINK = re.compile(r"\[`([\w:]+)`\](?!\()")


class Names:
    """The check over one repository; `options` has those of each command of the program, under its name."""

    def __init__(self, repository: Repository, options: dict[str, set[str]]):
        self.at = repository
        self.options = options
        self.all_options = repository.script_options.union(*options.values())

    def wrong(self, line: Line) -> Iterator[str]:
        """What a line names that is not there, a text for each."""
        for found in self.lost(line):
            yield f"{line.place}: {found}"

    def lost(self, line: Line) -> Iterator[str]:
        yield from (f"no file {it}" for it in PATH.findall(line.text) if not self.has_path(it))
        for crate, parts in ITEM_PATH.findall(line.text):
            if not self.is_named(crate, parts.split("::")[1:]):
                yield f"no item {crate}{parts}"
        yield from self.lost_faults(line)
        for span in line.spans():
            yield from self.lost_in_span(line, span)
        if line.path.suffix == ".rt":
            yield from (f"no item {it}" for it in LINK.findall(line.text) if not self.has_link(it))

    def has_path(self, path: str) -> bool:
        """Whether a file or folder is there, from the top or from the crates; what a build leaves in out/ counts."""
        path = path.rstrip("/")
        if re.match(r"(crates/)?\w+/out\b", path):
            return True
        pattern = PLACEHOLDER.sub("*", path)
        return any(self.at.has_file(begin + it) for begin in ("", "crates/") for it in (path, pattern))

    def is_named(self, crate: str, parts: list[str]) -> bool:
        """Whether a path of items names something: a spec of the crate, or an item of its code."""
        if crate not in self.at.crates:
            return False
        specs = f"crates/{crate}/specs"
        if parts[0] in ("specs", "proofs"):
            return f"crates/{crate}/{'/'.join(parts[:2])}.antt" in self.at.files
        return self.at.has_item(crate, parts) or f"{specs}/{parts[0]}.antt" in self.at.files

    def lost_faults(self, line: Line) -> Iterator[str]:
        """Faults and refusals whose number is not there, or has another word."""
        spans = " | ".join(line.spans()) if line.path.suffix == ".md" and not line.is_block else line.text
        for number, word in FAULT.findall(spans):
            is_name = word and (number[0] == "F" or word in self.at.faults.values())
            if number not in self.at.faults and (line.path.suffix == ".md" or is_name):
                yield f"no fault {number}"
            elif is_name and self.at.faults.get(number) != word:
                yield f"fault {number} is {self.at.faults[number]}, not {word}"

    def lost_in_span(self, line: Line, span: str) -> Iterator[str]:
        """What a span names that is not there."""
        words = span.split()
        first = words[0] if words else ""
        if span.endswith(SUFFIXES) and len(words) == 1 and "/" not in span and "*" not in span:
            yield from [] if self.has_name(line, span) else [f"no file {span}"]
        elif CRATE.match(span):
            yield from [] if span in self.at.crates else [f"no crate {span}"]
        elif found := METHOD.match(span):
            yield from [] if self.has_method(*found.groups()) else [f"no call {span}"]
        elif f"kit's `{span}`" in line.text or f"std's `{span}`" in line.text:
            return
        elif CODE_NAME.match(span) and not {span} & (self.at.words | self.at.spec_words | self.at.names):
            yield f"no item {span}"
        elif first == "race" and ":" not in words or first.startswith("--"):  # `race out : a writes b reads` is a report
            yield from self.lost_options(words)

    def lost_options(self, words: list[str]) -> Iterator[str]:
        """Commands and options of `race` in a span that it has not; a span of an option alone may be a script's."""
        command = words[1] if words[0] == "race" and len(words) > 1 else ""
        if command.isalpha() and command.islower() and command not in self.options:
            yield f"no command race {command}"
        known = self.options.get(command, self.options[""]) if words[0] == "race" else self.all_options
        if words[0] == "race" and not command.isalpha():
            known = self.all_options
        for word in words:
            found = OPTION.match(word)
            if found and found[0] not in known:
                yield f"no option {found[0]}" + (f" of race {command}" if command.isalpha() else "")

    def has_name(self, line: Line, name: str) -> bool:
        """Whether a bare file name is that of a file: of the same crate where a comment names it, else of any."""
        parts = line.path.parts
        if parts[0] == "crates" and name.endswith(".antt"):
            own = [it for it in self.at.files if it.startswith(f"crates/{parts[1]}/") and Path(it).name == name]
            return bool(own) or name in self.at.names and "of `mk_" in line.text
        return name in self.at.names

    def has_method(self, owner: str, method: str) -> bool:
        """Whether a crate has a type of this name, and a function or variant of that one."""
        for crate in self.at.crates:
            sources = self.at.sources(crate)
            if self.at.defines(sources, owner):
                return self.at.defines(sources, method) or method in self.at.words
        return owner in self.at.words and method in self.at.words

    def has_link(self, link: str) -> bool:
        """Whether a link of a doc comment names something: of std, or of words that code has."""
        return all(it in self.at.words or it in ("std", "crate", "super", "self") for it in link.split("::"))
