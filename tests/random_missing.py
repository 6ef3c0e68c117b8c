"""What `race missing` says of random builds, and what builds of old trees leave where it finds nothing."""
from __future__ import annotations

import random

import answer_oracle
import harness
import incremental_builds
import language_oracle as language
import missing_oracle

# A recipe that unpacks an archive into a tree, and removes nothing there.
UNPACKING = b"t/done: a.tar\n\tc\n"
UNPACKED = b'{"target":"t/done","reads":["a.tar"],"writes":["t/"]}\n'


def differences(runner, build, text: bytes, words: list, agrees):
    """Where `race missing` says something else than the oracle; and, where both find nothing, each name at which a build of an old
    tree leaves other bytes than a build of a clean one."""
    expected = missing_oracle.missing(build.texts(), text)
    ran = runner.run(["missing", *words])
    if not agrees(ran, expected):
        yield "missing", ran, expected
    if ran.status == expected[0] == 0:
        found = missing_oracle.Found(answer_oracle.answer_of(language.read_build(*build.texts()), text))
        for name in incremental_builds.differences(found.jobs, found.unlisted_names, random.Random(len(text))):
            yield "a build of an old tree", ran, (0, name)


def compare(runner, numbers: range, graphs):
    """Of builds that do not race and only miss inputs, four of five show it in some build of an old tree: else the model shows nothing.
    Nor does it if no archive that is unpacked into a tree loses a member."""
    kinds = {True: 0, False: 0}
    for number in numbers:
        build = graphs(random.Random(number)).build()
        try:
            found = missing_oracle.Found(answer_oracle.answer_of(language.read_build(*build.texts()), build.footprints))
        except language.Fault:
            continue
        if found.missing and not (found.answer.races or found.late or found.shared or found.present or found.outputs or found.trees):
            kinds[differs(found)] += 1
    if kinds[True] < 4 * kinds[False] or not kinds[True]:
        yield f"of builds that miss inputs {kinds[True]} leave other bytes, and {kinds[False]} do not"
    unpacked = missing_oracle.Found(answer_oracle.answer_of(language.read_build(b"/w", [], [], b"a.tar", b"", UNPACKING), UNPACKED))
    if not differs(unpacked):
        yield "no archive that is unpacked into a tree loses a member"


def differs(found: missing_oracle.Found) -> bool:
    """Whether some build of an old tree leaves other bytes than one of a clean tree."""
    rows = (incremental_builds.differences(found.jobs, found.unlisted_names, random.Random(seed)) for seed in range(5))
    return any(any(row) for row in rows)
