"""The command that builds: the folders in which it works, and how many jobs a ninja has in it."""

import json
import os
import re
from contextlib import suppress
from pathlib import Path
from typing import List

from record.commands.system import is_below

FOLDER = re.compile(r"\0(?:-C\0?|--build\0|--directory[\0=])([^\0]+)")  # words that name a folder


def with_jobs(words: List[str], jobs: int) -> List[str]:
    """The words of a command that surely runs ninja, with a number of commands at once; of any other as they are."""
    name = os.path.basename(words[0])
    own = ["-j%d" % jobs]
    if re.fullmatch(r"ninja(-build)?|samu", name) or name == "meson" and words[1:2] == ["compile"]:
        split = words.index("--") if "--" in words else len(words)
        return words[:split] + own + words[split:]
    is_cmake = name == "cmake" and words[1:2] == ["--build"] and len(words) > 2 and cached(words[2], "CMAKE_GENERATOR").startswith("Ninja")
    return words + own if is_cmake else words  # the last number counts


def named_folders(words: List[str]) -> List[str]:
    """The real paths of the folders that a command is to work in, whether they are there or not, and of that where it starts."""
    return [os.path.realpath(name) for name in (*FOLDER.findall("\0".join(words)), ".")]


def ninja_folder(words: List[str]) -> str:
    """The folder of a command in which ninja builds; nothing where none does."""
    return next((folder for folder in named_folders(words) if os.path.isfile(os.path.join(folder, "build.ninja"))), "")


def tops_of(words: List[str], others: List[str]) -> List[str]:
    """The folders that a build works in: where it starts, those that its words name, and the sources that they belong to."""
    found = [os.path.realpath(name) for name in [".", *others, *filter(os.path.isdir, named_folders(words))]]
    found += [os.path.realpath(source) for source in map(source_of, found) if source]
    return [top for top in dict.fromkeys(found) if not any(top != other and is_below(top, other) for other in found)]


def cached(folder: str, name: str) -> str:
    """What CMake's cache in a folder says; nothing where there is none."""
    try:
        text = Path(folder, "CMakeCache.txt").read_text(errors="surrogateescape")
    except OSError:
        return ""
    match = re.search(r"(?m)^%s:INTERNAL=(.*)$" % name, text)
    return match.group(1) if match else ""


def source_of(folder: str) -> str:
    """The sources of a folder that CMake or Meson configured; nothing where neither did."""
    source = cached(folder, "CMAKE_HOME_DIRECTORY")
    with suppress(OSError, ValueError, KeyError, TypeError):
        source = source or json.loads(Path(folder, "meson-info", "meson-info.json").read_text())["directories"]["source"]
    return source if isinstance(source, str) else ""
