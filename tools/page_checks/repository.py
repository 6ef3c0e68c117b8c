"""What is there to be named: files, crates, modules, items, words of code, options of scripts, faults."""
import fnmatch
import re
import subprocess
from dataclasses import dataclass, field
from functools import cached_property
from pathlib import Path

ITEM = re.compile(r"\b(?:fn|struct|enum|trait|const|static|type|mod|macro_rules!)\s+(\w+)")
WORD = re.compile(r"[^\W\d]\w*")
CODE = {".rt", ".py", ".c", ".mk", ".rattle", ".edit"}
COMMENT = re.compile(r"^\s*(?://|--).*$", re.M)
NUMBERED = re.compile(r"\b(Kind|Refusal)::(\w+) => (\d+)")
# The script that plants names which are not there.
PLANTS = "tests/pages"
LETTERS = {"Kind": "F", "Refusal": "V"}


@dataclass
class Repository:
    """The tree below `top`; what is asked more than once is looked for once."""

    top: Path
    known: dict[Path, str] = field(default_factory=dict)

    @cached_property
    def files(self) -> set[str]:
        """The files that git has or would take, below the top."""
        words = ["git", "ls-files", "-co", "--exclude-standard"]
        listed = subprocess.run(words, cwd=self.top, capture_output=True, text=True, check=False)
        if listed.returncode == 0:
            return {it for it in listed.stdout.splitlines() if (self.top / it).exists()}
        return {str(it.relative_to(self.top)) for it in self.top.rglob("*") if it.is_file()}

    @cached_property
    def folders(self) -> set[str]:
        return {str(parent) for it in self.files for parent in Path(it).parents}

    def has_file(self, pattern: str) -> bool:
        """Whether a file or folder is there; a `*` stands for a part of one component."""
        if "*" not in pattern:
            return pattern in self.files or pattern in self.folders
        parts = pattern.split("/")
        paths = (it.split("/") for it in self.files | self.folders)
        return any(len(it) == len(parts) and all(map(fnmatch.fnmatch, it, parts)) for it in paths)

    @cached_property
    def names(self) -> set[str]:
        """The last parts of all paths."""
        return {Path(it).name for it in self.files | self.folders}

    @cached_property
    def crates(self) -> set[str]:
        return {it.split("/")[1] for it in self.files if it.startswith("crates/") and it.count("/") > 1}

    def text(self, path: str) -> str:
        """A file's text without the comments that stand on lines of their own."""
        key = self.top / path
        if key not in self.known:
            self.known[key] = COMMENT.sub("", key.read_text(encoding="utf-8", errors="replace"))
        return self.known[key]

    @cached_property
    def scripts(self) -> list[str]:
        """The scripts: files in Python or shell, with or without a suffix."""
        tops = ("tools/", "tests/", "bench/", "record/", "report/", "confirm/", "explain/")
        return [it for it in sorted(self.files)
                if it in ("test", "demo", "install") or it.endswith(".py") or it.startswith(tops) and "." not in Path(it).name]

    @cached_property
    def words(self) -> set[str]:
        """Each word of code, of definitions and of scripts, that is none of a comment on a line of its own."""
        code = {it for it in self.files if Path(it).suffix in CODE | {".antt", ".txt"}}
        return {word for it in (code | {*self.scripts}) - {PLANTS} for word in WORD.findall(self.text(it))}

    @cached_property
    def spec_words(self) -> set[str]:
        """Names of definitions may hold a dash: each word with its dashes."""
        found = re.compile(r"[\w-]+")
        return {word for it in self.files if it.endswith(".antt") for word in found.findall(self.text(it))}

    @cached_property
    def script_options(self) -> set[str]:
        """The options that scripts take."""
        option = re.compile(r"""["'](--[a-z][\w-]*)""")
        return {it for path in self.scripts for it in option.findall(self.text(path))}

    @cached_property
    def faults(self) -> dict[str, str]:
        """The word of each fault and of each refusal of a log, under its number: `F1` is `BadName`."""
        texts = [self.text(it) for it in sorted(self.files) if re.fullmatch(r"crates/mk_(name|sched)/src/.*\.rt", it)]
        return {LETTERS[kind] + number: word for text in texts for kind, word, number in NUMBERED.findall(text)}

    def sources(self, crate: str) -> list[str]:
        return sorted(it for it in self.files if it.startswith(f"crates/{crate}/src/"))

    def defines(self, paths: list[str], name: str) -> bool:
        """Whether one of these files has an item, a variant or a re-export of this name."""
        used = re.compile(rf"(?m)^\s*pub use [^;]*\b{name}\b|^\s*{name}(?: \{{|\(|,| =)")
        return any(name in ITEM.findall(self.text(it)) or used.search(self.text(it)) for it in paths)

    def has_item(self, crate: str, parts: list[str]) -> bool:
        """Whether a crate has what this path names: modules, then an item, then what belongs to it."""
        stem = f"crates/{crate}/src"
        files = [it for it in (f"{stem}/lib.rt", f"{stem}/main.rt") if it in self.files]
        for at, part in enumerate(parts):
            stem = f"{stem}/{part}"
            if f"{stem}.rt" in self.files or stem in self.folders:
                files = [it for it in self.sources(crate) if it == f"{stem}.rt" or it.startswith(f"{stem}/")]
                continue
            rest = parts[at:]
            return self.defines(files, rest[0]) and all(self.defines(self.sources(crate), it) for it in rest)
        return bool(parts)
