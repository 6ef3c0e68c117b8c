"""What lines fix a build, written apart from the program and from its definitions, out of docs/FORMATS.md.

The races without a way around are found by sets of nodes, and the build is read again with the lines.
"""
import answer_oracle
import language_oracle as language
from answer_oracle import spelled, text_of
from language_oracle import Fault, shown

TEXT_LIMIT = 1_048_576
SIGNS = b'#$:;=\\%()*?["\'&|'


def is_word(name):
    """Whether a makefile can have this name as a word."""
    return 0 < len(name) <= 4_096 and all(it > 32 and it != 127 and it not in SIGNS for it in name)


def edges_of(answer):
    """The races of which no other one, with the edges that there are, takes the place."""
    steps = [{answer.jobs.numbers[it] for it in answer.jobs.plan.prerequisites[name]} for name in answer.jobs.plan.order]
    for clash in answer.clashes:
        steps[clash.second].add(clash.first)
    behind = []
    for direct in steps:
        behind.append(direct.union(*(behind[it] for it in direct)))
    around = lambda it: any(it.first in behind[over] for over in steps[it.second])
    return [it for it in answer.races if not around(it)]


def is_open(makefile):
    """Whether a line that is put behind this text might not be a line of its own."""
    return not makefile.endswith(b"\n") or makefile.endswith(b"\\\n")


def remark(answer, edge):
    """What the two do with their path, and that the first is phony."""
    jobs, path = answer.jobs, shown(spelled(edge.path))
    first, second = answer.name(edge.first), answer.name(edge.second)
    verbs = tuple(jobs.verb(it, edge.path) == b"writes" for it in (edge.first, edge.second))
    later = b"writes %s, which %s reads before it" % (path, first)
    text = {(True, True): b"both write " + path, (True, False): b"reads " + path}.get(verbs, later)
    is_phony = jobs.plan.order[edge.first] in jobs.plan.book.phony
    return text + b"; %s is phony, so %s is made each time" % (first, second) * is_phony


def lines_of(answer, edges, makefile):
    """The text that goes behind a makefile, or None where some name is no word, or all of it is too long."""
    names = answer.jobs.plan.order
    if not all(is_word(names[it]) for edge in edges for it in edge[:2]):
        return None
    rows = (b"%s: %s # %s\n" % (names[it.second], names[it.first], remark(answer, it)) for it in edges)
    head = b"\n\n" * is_open(makefile) + b"# race fix: lines %d\n" % len(edges)
    text = (head + b"".join(rows)) * bool(edges)
    return text if len(text) <= TEXT_LIMIT else None


def has_all(old, new, edges):
    """Whether a plan that was read again is the old one, with these edges too."""
    if new.order != old.order or [it in new.book.phony for it in new.order] != [it in old.book.phony for it in old.order]:
        return False
    added = {(old.order[it.first], old.order[it.second]) for it in edges}
    for name in old.order:
        was, now = set(old.prerequisites[name]), set(new.prerequisites[name])
        more = {first for first, second in added if second == name}
        has_recipe = old.makers[name] != b"plain"
        if has_recipe and (now != was | more or new.makers[name] != old.makers[name]) or not now >= was | more:
            return False
    return True


def obstacle(plan, first, second):
    """Why the line of an edge might not be just that edge, if that is known."""
    if not (is_word(first) and is_word(second)):
        return [b"name"]
    is_found = plan.makers[second] == b"inferred" and second not in plan.listing
    return [b"default"] if plan.makers[second] == b"default" else [b"exists"] if is_found else []


def not_fixed(answer, edges, refusal):
    """The report of a build that no lines fix."""
    plan = answer.jobs.plan
    pairs = [(plan.order[it.first], plan.order[it.second]) for it in edges]
    needs = [[b"# needs", shown(second), shown(first), *obstacle(plan, first, second)] for first, second in pairs]
    behind = b"".join(b"# " + line + b"\n" for line in refusal.splitlines())
    return text_of([[b"# not fixed"], *needs]) + behind


def answered(texts, footprints):
    """The answer of a build and no refusal, or None and the refusal."""
    try:
        return answer_oracle.answer_of(language.read_build(*texts), footprints), b""
    except Fault as fault:
        return None, fault.report()


def fix(texts, footprints, wants_proof):
    """Status and output of `race fix` on a build's root, operands, included texts, listing, base and makefile."""
    answer, refusal = answered(texts, footprints)
    if answer is None:
        return 2, refusal
    edges = edges_of(answer)
    lines = lines_of(answer, edges, texts[-1])
    if lines is None:
        return 1, not_fixed(answer, edges, b"")
    again, refusal = answered([*texts[:-1], texts[-1] + lines], footprints)
    if again is None or again.race or not has_all(answer.jobs.plan, again.jobs.plan, edges):
        return 1, not_fixed(answer, edges, refusal)
    return 0, again.proof() if wants_proof else lines
