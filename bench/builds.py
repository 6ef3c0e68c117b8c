"""Builds for the benches: each `lay_NAME(folder)` writes a makefile, a listing and footprints into a folder."""
import itertools
import json

BEHIND = 120


def write(folder, rules, footprints):
    """Writes the inputs: rules are pairs of a target and its prerequisites, the last one the goal's."""
    with open(folder / "makefile", "w") as makefile:
        makefile.write(f"{rules[-1][0]}:\n")
        for target, prerequisites in rules:
            for i in range(0, max(len(prerequisites), 1), 4_000):
                makefile.write(f"{target}: {' '.join(prerequisites[i:i + 4_000])}\n")
            makefile.write("\tm\n")
    (folder / "listing").write_text("")
    with open(folder / "footprints", "w") as lines:
        for target, reads, writes in footprints:
            lines.write(json.dumps({"target": target, "reads": reads, "writes": writes}) + "\n")


def behind(names, most):
    """Each name behind the ones before it, at most a given number of them."""
    return [(name, names[max(0, i - most):i]) for i, name in enumerate(names)]


def below_all(names):
    """A recipe for each name, none behind another, and a goal that needs them."""
    return [*behind(names, 0), ("all", names)]


def own(names):
    """Each name's recipe writes its own file, and nothing else."""
    return [(name, [], [name]) for name in names]


def lay_log(folder, most=BEHIND):
    """1,414 recipes that append to one log, each behind the 120 before it: 998,991 pairs conflict, all in order. The 120 may be another number."""
    names = [f"r{i}" for i in range(1_414)]
    rules = behind(names, most) if most else below_all(names)
    write(folder, rules, [(name, [], [name, "build.log"]) for name in names] + [("all", [], [])])


def lay_free(folder):
    """1,414 recipes that append to one log, none behind another: 998,991 races."""
    lay_log(folder, 0)


def lay_sparse(folder):
    """19,999 recipes of 50 paths each, of which no two share one."""
    names = [f"r{i}" for i in range(19_999)]
    lines = [(name, [f"{name}/{k}" for k in range(49)], [name]) for name in names]
    write(folder, below_all(names), [*lines, ("all", [], ["all"])])


def lay_paths(folder):
    """10 recipes of 100,000 paths each, of which no two share one."""
    names = [f"r{i}" for i in range(10)]
    lines = [(name, [f"{name}/{k:05}" for k in range(99_999)], [name]) for name in names]
    write(folder, [*behind(names[:-1], 0), (names[-1], names[:-1])], lines)


def lay_dense(folder):
    """20,000 nodes with nearly 200,000 edges, of which the first and the last but one share a file."""
    names = [f"{i:x}" for i in range(20_000)]
    lines = own(names)
    lines[0][2].append("shared")
    lines[-2][2].append("shared")
    write(folder, behind(names, 9), lines)


def lay_trees(folder):
    """9,999 pairs of recipes, of which one reads a folder and the other writes a file in it, in order."""
    names = [f"{kind}{i}" for i in range(9_999) for kind in "wr"]
    rules = [(f"{kind}{i}", [f"w{i}"] if kind == "r" else []) for i in range(9_999) for kind in "wr"]
    lines = [(f"w{i}", [], [f"w{i}", f"d{i}/f"]) for i in range(9_999)] + [(f"r{i}", [f"d{i}/"], [f"r{i}"]) for i in range(9_999)]
    write(folder, [*rules, ("all", names)], [*lines, ("all", [], ["all"])])


def lay_readers(folder, headers=1, readers=19_998):
    """19,998 recipes that read a folder with one header, and do not wait for it: 19,998 races. Both numbers may be others."""
    made, names = [f"h/{i}" for i in range(headers)], [f"r{i}" for i in range(readers)]
    lines = own(made) + [(name, ["h/"], [name]) for name in names]
    write(folder, below_all(made + names), [*lines, ("all", [], [])])


def lay_temporaries(folder):
    """19,999 recipes, of which 50 each write one temporary, none behind another: 489,951 races."""
    names = [f"r{i}" for i in range(19_999)]
    lines = [(name, [], [name, f"t{i // 50}"]) for i, name in enumerate(names)]
    write(folder, below_all(names), [*lines, ("all", [], [])])


def lay_headers(folder):
    """440 recipes that read 440 headers: 193,600 races and as many edges, for which a makefile has no room."""
    lay_readers(folder, 440, 440)


def lay_many_headers(folder):
    """1,000 recipes that read 1,000 headers: 1,000,000 races and as many edges."""
    lay_readers(folder, 1_000, 1_000)


def lay_layers(folder, kind="apart"):
    """Builds at the limits, as a makefile and as tasks: 2,000 layers of 10 recipes, each behind all 10 of the layer before it
    (199,900 edges), with 50 paths each (1,000,000 paths), of which one is as the kind says. The goals are the last layer."""
    layers = [[], *([f"r{i}" for i in range(first, first + 10)] for first in range(0, 20_000, 10))]
    entries = [f"{' '.join(names)}: {' '.join(before)}\n\tm\n" for before, names in zip(layers, layers[1:])]
    (folder / "makefile").write_text("".join(entries))
    (folder / "listing").write_text("")
    with open(folder / "footprints", "w") as footprints, open(folder / "tasks", "w") as tasks:
        for before, name in ((before, name) for before, names in zip(layers, layers[1:]) for name in names):
            reads, writes = LAYER_KINDS[kind](int(name[1:]))
            paths = {"reads": [f"{name}/{k}" for k in range(48)] + reads, "writes": [name, *writes]}
            footprints.write(json.dumps({"target": name, **paths}) + "\n")
            tasks.write(json.dumps({"task": name, "after": before, **paths}) + "\n")
    return layers[-1]


# What a recipe of a number reads and writes beside its own: nothing that others have; a folder in which one recipe of the
# layer before writes a file; or a log of its layer.
LAYER_KINDS = {
    "apart": lambda i: ([f"r{i}/48"], []),
    "shared": lambda i: ([f"d{i // 10 - 1}/"], []) if i % 10 else ([], [f"d{i // 10}/f"]),
    "races": lambda i: ([], [f"log{i // 10}"]),
}


def lay_hostile(folder):
    """A certificate of a million chains that nothing asks for."""
    names = [f"{i:x}" for i in range(19_999)]
    write(folder, [*behind(names[:1_415], BEHIND), *behind(names[1_415:], 0), ("all", names)], [*own(names), ("all", [], ["all"])])
    pairs = [*itertools.islice(itertools.combinations(range(1_415), 2), 1_000_000)]
    write_certificate(folder, pairs, BEHIND)


def write_certificate(folder, pairs, most):
    """Writes a certificate of these pairs where each node needs a given number before it."""
    with open(folder / "proof", "w") as proof:
        proof.write(f"certificate {len(pairs)}\n")
        proof.writelines(f"{' '.join(map(str, chain_between(a, b, most)))}\n" for a, b in pairs)


def chain_between(first, last, most):
    """The chain from the one to the other where each node needs a given number before it, built from its end."""
    chain = [last]
    while chain[-1] != first:
        chain.append(max(first, chain[-1] - most))
    return chain[::-1]
