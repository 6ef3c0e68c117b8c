"""The builds whose calls are timed: those for which a bound is asked, and those that cost the calls most."""
import collections
import functools
import itertools
import random

from builds import BEHIND, behind, below_all, lay_free, lay_hostile, lay_log, lay_paths, lay_sparse, own, write, write_certificate

# A build: its name, what lays it out, and the bounds that are asked of its calls.
Size = collections.namedtuple("Size", "name lay asked")

DEEP = 2_000
DIGITS = "0123456789abcdefghijklmnopqrstuvwxyz"


def refused(lay):
    """The build, with a certificate of no chains."""

    @functools.wraps(lay)
    def lay_out(folder):
        lay(folder)
        write_certificate(folder, [], 1)

    return lay_out


def lay_ordered(folder):
    """1,414 recipes that append to one log, each behind the 120 before it, with a chain for each pair."""
    lay_log(folder)
    write_certificate(folder, [*itertools.combinations(range(1_414), 2)], BEHIND)


def lay_groups(folder):
    """20,000 nodes, each behind the 10 before it: 199,945 edges. In groups of 101 they append to one log, with a chain for each pair."""
    names = ["".join(it) for it in itertools.islice(itertools.product(DIGITS, repeat=3), 20_000)]
    write(folder, behind(names, 10), [(name, [], [name, f"log{i // 101}"]) for i, name in enumerate(names)])
    groups = [range(i, min(i + 101, 20_000)) for i in range(0, 20_000, 101)]
    write_certificate(folder, [pair for group in groups for pair in itertools.combinations(group, 2)], 10)


@refused
def lay_line(folder):
    """1,414 recipes that append to one log, each behind the one before it."""
    lay_log(folder, 1)


@refused
def lay_one_log(folder):
    """19,999 recipes that append to one log."""
    names = [f"r{i}" for i in range(19_999)]
    write(folder, below_all(names), [*[(name, [], [name, "build.log"]) for name in names], ("all", [], ["all"])])


def sources_of(i):
    """49 of 1,000 sources."""
    return [f"s/{(7 * i + 20 * k) % 1_000:03}" for k in range(49)]


@refused
def lay_sources(folder):
    """19,999 recipes that each read 49 of 1,000 sources, which none writes."""
    names = [f"r{i}" for i in range(19_999)]
    write(folder, below_all(names), [*[(name, sources_of(i), [name]) for i, name in enumerate(names)], ("all", [], ["all"])])


@refused
def lay_written_sources(folder):
    """The same, but the first 1,000 recipes read nothing, and each writes one of the sources."""
    names = [f"r{i}" for i in range(19_999)]
    writers = [(name, [], [name, f"s/{i:03}"]) for i, name in enumerate(names[:1_000])]
    readers = [(name, sources_of(i), [name]) for i, name in enumerate(names[1_000:])]
    write(folder, below_all(names), [*writers, *readers, ("all", [], ["all"])])


@refused
def lay_scattered(folder):
    """19,999 recipes that each read 49 paths, spread at random over all paths, of which no two share one."""
    names = [f"r{i}" for i in range(19_999)]
    paths = [f"s/{k:06}" for k in range(49 * len(names))]
    random.Random(1).shuffle(paths)
    lines = [(name, paths[49 * i:49 * i + 49], [name]) for i, name in enumerate(names)]
    write(folder, below_all(names), [*lines, ("all", [], ["all"])])


@refused
def lay_shuffled(folder):
    """19,999 recipes that each read 49 of a million paths, picked at random."""
    names = [f"r{i}" for i in range(19_999)]
    picks = random.Random(1)
    lines = [(name, [f"s/{k:06}" for k in picks.sample(range(1_000_000), 49)], [name]) for name in names]
    write(folder, below_all(names), [*lines, ("all", [], ["all"])])


def lay_sharing(recipes, shared, others):
    """Recipes that write some files together, and others before them that write a file each."""

    @refused
    def lay(folder):
        names = [f"r{i}" for i in range(recipes)]
        together = [f"z/{k:03}" for k in range(shared)]
        lines = [(name, [], [f"{name}/{k:03}" for k in range(others)] + together) for name in names]
        write(folder, below_all(names), [*lines, ("all", [], [])])

    return lay


def nested():
    """2,000 folders, each in the one before it."""
    return ["out/" + "a/" * depth for depth in range(DEEP)]


@refused
def lay_nested(folder):
    """2,000 recipes, of which each writes all that stands in one of 2,000 nested folders."""
    lines = [(f"r{i}", [], [path]) for i, path in enumerate(nested())]
    write(folder, below_all([name for name, _, _ in lines]), [*lines, ("all", [], [])])


@refused
def lay_nested_reads(folder):
    """The same folders are read, and one recipe more writes the innermost one."""
    lines = [(f"r{i}", [path], []) for i, path in enumerate(nested())] + [("w", [], [nested()[-1]])]
    write(folder, below_all([name for name, _, _ in lines]), [*lines, ("all", [], [])])


@refused
def lay_bottom(folder):
    """One recipe reads the 2,000 folders, and 18,000 write a file each in the innermost one."""
    folders = nested()
    lines = [("r", folders, [])] + [(f"w{i}", [], [f"{folders[-1]}{i}"]) for i in range(17_998)]
    write(folder, below_all([name for name, _, _ in lines]), [*lines, ("all", [], [])])


@refused
def lay_root(folder):
    """20,000 recipes that write their own file; one of them reads all files there are."""
    names = [f"r{i}" for i in range(19_999)]
    write(folder, below_all(names), [("r0", ["/"], ["r0"]), *own(names[1:]), ("all", [], ["all"])])


@refused
def lay_root_reads(folder):
    """One recipe writes 980,000 files, and 19,999 read all files there are."""
    names = [f"r{i}" for i in range(19_999)]
    lines = [(name, ["/"], []) for name in [*names[1:], "all"]]
    write(folder, below_all(names), [("r0", [], [f"f/{k}" for k in range(980_000)]), *lines])


READING = "twice `footprints`"

SIZES = [
    Size("free", refused(lay_free), {"pairs": "0.3 s", "decide": "1 s"}),
    Size("ordered", lay_ordered, {"pairs": "0.3 s", "decide": "1 s"}),
    Size("sparse", refused(lay_sparse), {"attach": READING, "decide": "0.2 s"}),
    Size("paths", refused(lay_paths), {"attach": READING}),
    Size("groups", lay_groups, {"rows": "0.1 s", "accept": "seconds"}),
    Size("hostile", lay_hostile, {"rows": "0.1 s", "accept": "seconds"}),
    Size("line", lay_line, {}),
    Size("one-log", lay_one_log, {}),
    Size("sources", lay_sources, {"attach": READING}),
    Size("written", lay_written_sources, {"attach": READING}),
    Size("scattered", lay_scattered, {"attach": READING}),
    Size("shuffled", lay_shuffled, {"attach": READING}),
    Size("shared", lay_sharing(1_000, 1_000, 0), {}),
    Size("last", lay_sharing(1_000, 1, 999), {}),
    Size("half", lay_sharing(1_414, 707, 0), {}),
    Size("nested", lay_nested, {}),
    Size("reads", lay_nested_reads, {}),
    Size("bottom", lay_bottom, {}),
    Size("root", lay_root, {}),
    Size("all-read", lay_root_reads, {}),
]
