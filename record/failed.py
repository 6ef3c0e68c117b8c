"""What a record says of a build that failed. make and ninja print themselves which recipe did; where make builds, a hint says what that recipe
lacked: a file that another recipe makes, which had not run yet.
"""

from typing import Dict, List, Sequence, Tuple

from record.build.work import Work
from record.folder import Record
from record.make.database import Base
from record.make.owners import Make, makes_of
from record.ninja.runs import TRIED, Ninja
from record.trace.lives import Life
from record.trace.names import Names

HINTS = 5
WIDTH = 100  # signs of the words of a make


def failure(make: Make) -> Tuple[str, Work]:
    """The first target that a make could not make, and what its recipe did."""
    jobs = (job for one in make.words.rounds for job in one.jobs if one.base and job.target in one.base.failed)  # guard: which-recipe
    return next(((job.target, job.work) for job in jobs), ("", Work()))


def failed(makes: Sequence[Make]) -> List[Make]:
    """The make by which a build failed, the one inside of its recipe by which that failed, and so on: what others failed at was ignored."""
    last = max((make for make in makes if make.words.has_failed), key=lambda make: make.life.died, default=None)
    return [last, *failed(makes_of(failure(last)[1]))] if last is not None else []


def unmade(make: Make, names: Names) -> Dict[str, str]:
    """The files that a make has a recipe for and did not make, by their paths, with their names there."""
    ran = {names.find(make.folder, job.target, True).path for job in make.jobs}
    found = {names.find(make.folder, target, True).path: target for one in make.words.rounds if one.base for target in one.base.recipes if target not in one.base.phony}
    return {path: target for path, target in found.items() if path not in ran}  # guard: it-lacks-no-file-whose-recipe-ran


def lacked(makes: Sequence[Make], names: Names) -> List[str]:
    """What the recipe that failed looked for and did not find, where its make, or else one around that, makes it: had it waited, it would be there."""
    chain = failed(makes)
    missed = {path for kind, path in failure(chain[-1])[1].events if kind == "N"} if chain else set()  # guard: it-lacks-no-file
    for make in reversed(chain):
        target, made = failure(make)[0], unmade(make, names)
        if target and missed & made.keys():
            return ["the recipe that failed looks for %s, and does not wait for it. Write the rule %s: %s" % (made[path], target, made[path]) for path in sorted(missed & made.keys())][:HINTS]
    return []


def passed_over(make: Make) -> str:
    """What a make that failed had not come to, and may run with several jobs before that: a prerequisite of what it considered, or a goal."""
    for one in make.words.rounds[-1:]:
        base = one.base or Base()
        wanted = [name for node in one.nodes for name in (*base.prerequisites.get(node, ()), *base.order_only.get(node, ()))]
        wanted += " ".join(base.values.get("MAKECMDGOALS", ())).split() if one.stage == "goals" else []
        return next((name for name in wanted if name not in one.nodes), "")
    return ""


def answers(makes: Sequence[Make]) -> List[str]:
    """What is not known where makes failed and the build did not: that a make fails may be what it is asked for (`if $(MAKE) compare; then ..`), and then
    it matters what else it might have run. Of those of CMake, which only try what a compiler does, it does not."""
    found = [(passed_over(make), ("make " + make.words.args).strip()[:WIDTH]) for make in makes if make.words.has_failed and not TRIED.search(make.folder)]  # guard: what-cmake-tries
    return ["a make failed, and had not come to %s: %s" % one for one in found if one[0]]  # guard: what-make-had-not-come


def note_failure(record: Record, lives: Sequence[Life], makes: Sequence[Make], ninjas: Sequence[Ninja], names: Names) -> None:
    """Says in a record why its build failed, and what to try; of one that did not, what is not known since a make failed. The first hole of a build that
    failed says that it did. The shell that runs what comes before the build becomes the build where that succeeds."""
    setup, first = record.first.setup if record.first else "", int(record.status != 0)
    if setup and len(lives[0].ran) < 2:  # guard: before-the-build
        record.holes[:first] = ["%s ended with status %d, before the build" % (setup, record.status)]
        record.hints = ["the build did not begin: repair what stands behind --setup first"]
        return
    if record.status == 0:
        record.holes += answers(makes)  # guard: make-that-failed
    else:
        record.hints = lacked(makes, names)  # guard: what-recipe-lacked
    if not makes and not ninjas:
        record.holes.append("no make and no ninja ran")  # guard: no-make-at-all
