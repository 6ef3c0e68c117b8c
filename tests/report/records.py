"""Records as race-record writes them, made for tests."""

from __future__ import annotations

import json
import os
from pathlib import Path

ASSUMED = [{"kind": "serial", "count": 1, "example": "", "text": "recipes do not look at MAKEFLAGS or the number of processors"},
           {"kind": "upto", "count": 13, "example": "lib/<config>.h", "text": "targets that were up to date stay so"}]


def task(label: str, after: tuple = (), reads: tuple = (), writes: tuple = ()) -> dict:
    return {"task": label, "after": [*after], "reads": [*reads], "writes": [*writes]}


def write(record: Path, tasks: list, places: dict, holes: tuple = (), meanings: dict | None = None, folder: str = "/home/dev/shell", inner: str = ".") -> Path:
    """A record of one build in a folder of a project; `places` has a file and a line for each label that has a place."""
    build = record / "builds" / "001"
    build.mkdir(parents=True)
    (build / "tasks").write_text("".join(json.dumps(it) + "\n" for it in tasks), encoding="utf-8")
    labels = {it["task"]: {"target": it["task"], "kind": "recipe", "file": places.get(it["task"], ("", 0))[0],
                           "line": places.get(it["task"], ("", 0))[1], "recipe": f"make-it {it['task']}"} for it in tasks}
    about = {"folder": os.path.normpath(os.path.join(folder, inner)), "words": "", "round": "goals", "labels": labels, "meanings": meanings or {},
             "counts": {"considered": len(tasks), "tasks": len(tasks), "edges": 0, "recipes": len(tasks), "paths": 0}}
    (build / "build.json").write_text(json.dumps(about), encoding="utf-8")
    whole = {"version": "1", "words": ["make", "all"], "folder": folder, "top": folder, "status": 0, "seconds": 2.5,
              "tools": {"make": "4.3"}, "holes": [*holes], "assumptions": ASSUMED, "builds": ["001"]}
    (record / "record.json").write_text(json.dumps(whole), encoding="utf-8")
    return record


def changed(record: Path, **about: object) -> None:
    """Says something else of the build of a record."""
    path = record / "builds" / "001" / "build.json"
    path.write_text(json.dumps({**json.loads(path.read_text(encoding="utf-8")), **about}), encoding="utf-8")


def labelled(record: Path, label: str, **about: object) -> None:
    """Says something else of a label of a record."""
    path = record / "builds" / "001" / "build.json"
    found = json.loads(path.read_text(encoding="utf-8"))
    found["labels"][label].update(about)
    path.write_text(json.dumps(found), encoding="utf-8")


def header(record: Path, is_fixed: bool = False, **more: object) -> Path:
    """A generated header that one of two objects forgets to name; with its fix it is safe."""
    tasks = [
        task("build/keywords.h", (), ("keywords.txt", "tools/table.awk"), ("build/keywords.h",)),
        task("main.o", ("build/keywords.h",), ("main.c", "build/keywords.h"), ("main.o",)),
        task("lex.o", ("build/keywords.h",) if is_fixed else (), ("lex.c", "build/keywords.h"), ("lex.o",)),
        task("shell", ("main.o", "lex.o"), ("main.o", "lex.o"), ("shell",)),
    ]
    places = {"build/keywords.h": ("Makefile", 26), "main.o": ("Makefile", 18), "lex.o": ("src/rules.mk", 23), "shell": ("Makefile", 3)}
    return write(record, tasks, places, **more)


def of_ninja(folder: Path, is_fixed: bool = False) -> Path:
    """The same where ninja ran the recipes, and CMake wrote its manifest."""
    record = header(folder, is_fixed)
    path = record / "builds" / "001" / "build.json"
    about = json.loads(path.read_text(encoding="utf-8"))
    targets = {"build/keywords.h": "words", "main.o": "shell", "lex.o": "lexer", "shell": "shell"}
    for label, it in about["labels"].items():
        it.update(file="build.ninja", owner={"by": "cmake", "target": targets[label]}, rule="r", pool="", sum="")
    path.write_text(json.dumps({**about, "tool": "ninja"}), encoding="utf-8")
    return record


def kinds(folder: Path) -> Path:
    """A race of each kind that a race can show, with names that need care in each form."""
    tasks = [
        task("a.c", (), (), ("y.tab.c",)), task("b.c", (), (), ("y.tab.c",)),
        task("x<1>.o", (), (), ("build.log",)), task("x,2:&.o", (), (), ("build.log",)),
        task("m1.o", (), (), ("lib.a",)), task("m2.o", (), (), ("lib.a",)),
        task("parse.c", (), (), ("parse.h",)), task("use.o", (), ("parse.h",), ()),
        task("out", (), (), ("out/",)), task("list", (), ("out/",), ()),
        task("say", (), (), ("d/~seen/1/0",)), task("tell", (), ("d/~seen/1/0",), ()),
        task("gen%.h", (), (), ("gen%.h",)), task("with'quote.o", (), ("gen%.h",), ()),
        task("a.h", (), (), ("a.h", "b.h")), task("b.h", (), (), ("b.h",)),
        task("cat", (), (), ("log",)), task("sort", (), (), ("log",)),
        task("serve", (), (), ("port",)), task("ping", (), ("port",), ()),
    ]
    places = {it["task"]: ("sub dir/Makefile", at + 1) for at, it in enumerate(tasks) if at % 5} | dict.fromkeys(("a.h", "b.h"), ("Makefile", 3))
    record = write(folder, tasks, places, meanings={"d/~seen/1/0": "that the folder d is there"})
    for label in ("cat", "sort"):
        labelled(record, label, target="all", command=f"{label} in")
    labelled(record, "serve", left=True)
    return record


def large(folder: Path) -> Path:
    """700 recipes with 300 races on 30 files."""
    tasks = [task(f"gen/header-{at}.h", (), (f"gen/source-{at}.txt",), (f"gen/header-{at}.h",)) for at in range(30)]
    tasks += [task(f"obj/module-{at}.o", (), (f"gen/header-{at % 30}.h",) if at < 300 else (), (f"obj/module-{at}.o",)) for at in range(670)]
    return write(folder, tasks, {it["task"]: ("Makefile", 10 + at) for at, it in enumerate(tasks)})
