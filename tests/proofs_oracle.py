"""What a small build's proofs must come to, written apart from the program and from its definitions, out of docs/FORMATS.md.

Of a certificate it says exactly whether it is accepted. Of a trace it says whether it may be: a trace is accepted only where
recipes that do nothing can follow it, whether or not files of equal times count as newer.
"""
import re

GREATEST_NODE, GREATEST_TIME, MOST_CHAINS = 19_999, 20_000, 1_000_000
NUMBER = rb"(0|[1-9][0-9]*)"


class BadLine(Exception):
    """The line is not good; its number."""


class Lines:
    """The lines of a proof, each asked for by its form."""

    def __init__(self, text):
        self.left, self.number = text.split(b"\n"), 1

    def peek(self):
        """The next whole line, or None."""
        return self.left[0] if len(self.left) > 1 else None

    def take(self, form, fits=lambda *_: True):
        """The numbers of the next line, which must have that form and be fit."""
        found = re.fullmatch(form, self.peek() or b"") if self.peek() is not None else None
        if not found or not fits(*map(int, found.groups())):
            raise BadLine(self.number)
        self.left, self.number = self.left[1:], self.number + 1
        return [int(it) for it in found.groups()]

    def end(self):
        if self.left != [b""]:
            raise BadLine(self.number)


def read_certificate(lines):
    """The chains of a certificate."""
    (count,) = lines.take(rb"certificate " + NUMBER, lambda it: it <= MOST_CHAINS)
    chains = []
    for _ in range(count):
        line = lines.peek() or b""
        lines.take(rb"[0-9 ]+" if is_chain(line, chains) else rb"(?!)")
        chains.append([int(it) for it in line.split(b" ")])
    lines.end()
    return chains


def is_chain(line, before):
    """Whether a line is a chain that may stand behind those before it."""
    if not re.fullmatch(NUMBER + rb"( " + NUMBER + rb")+", line):
        return False
    chain = [int(it) for it in line.split(b" ")]
    rises = all(a < b for a, b in zip(chain, chain[1:])) and chain[-1] <= GREATEST_NODE
    return rises and (not before or (before[-1][0], before[-1][-1]) < (chain[0], chain[-1]))


def read_trace(lines):
    """The nodes, the path, the times and the steps of a trace."""
    nodes = lines.take(rb"trace " + NUMBER + b" " + NUMBER, lambda a, b: a < b <= GREATEST_NODE)
    path = bytes.fromhex((lines.peek() or b"")[5:].decode()) if re.fullmatch(rb"path ([0-9a-f]{2})+", lines.peek() or b"") else None
    lines.take(rb"path [0-9a-f]+" if path else rb"(?!)")
    times, steps = {}, []
    while (lines.peek() or b"").startswith(b"time "):
        node, time = lines.take(
            rb"time " + NUMBER + b" " + NUMBER, lambda n, t: max(times, default=-1) < n <= GREATEST_NODE and t <= GREATEST_TIME
        )
        times[node] = time
    while lines.peek() != b"end":
        word = (lines.peek() or b"").split(b" ")[0]
        form = rb"(?:skip|start|finish) " + NUMBER
        steps.append((word, *lines.take(form, lambda n: n <= GREATEST_NODE)))
    lines.take(rb"end")
    lines.end()
    return nodes, path, times, steps


def clashes(build, a, b):
    """The paths on which two nodes clash: those of either that overlap one of the other, where one of the two is written."""
    first, second = build.nodes[a].name, build.nodes[b].name
    found = set()
    for one, other in (first, second), (second, first):
        for written in build.writes[one]:
            for path in build.reads[other] + build.writes[other]:
                if build.covers(written, path.rstrip(b"/") or b"/") or build.covers(path, written.rstrip(b"/") or b"/"):
                    found |= {written, path}
    return found


def is_certificate(build, chains, is_short):
    """Whether the chains go along edges, and each two nodes that clash are the ends of one; or each two neighbours."""
    count = len(build.nodes)
    along = all(
        b < count and build.nodes[a].name in build.nodes[b].before for chain in chains for a, b in zip(chain, chain[1:])
    )
    ends = {(chain[0], chain[-1]) for chain in chains}
    pairs = {(a, b) for b in range(count) for a in range(b) if clashes(build, a, b)}
    return along and (pairs - led_round(pairs, count) if is_short else pairs) <= ends


def led_round(pairs, count):
    """The pairs from whose first number two or more of these pairs lead, one behind another, to the second."""
    rows = set()
    for _ in range(count):
        rows |= {(a, d) for a, b in pairs for c, d in pairs | rows if b == c}
    return rows


def may_hold(build, nodes, times, steps):
    """Whether recipes that do nothing can follow a trace of these nodes, which clash, and both run at its end."""
    listed = {number for number, node in enumerate(build.nodes) if node.name in build.listed}
    if nodes[1] >= len(build.nodes) or not clashes(build, *nodes) or set(times) != listed:
        return False
    return all(follows(build, nodes, times, steps, tie) for tie in (False, True))


def follows(build, nodes, times, steps, tie):
    store = {build.nodes[number].name: (b"", time) for number, time in times.items()}
    passed, running = set(), set()
    for word, number in steps:
        if number >= len(build.nodes):
            return False
        node = build.nodes[number]
        waits = node.name not in passed | running and all(it in passed for it in node.before)
        stale = build.is_stale(store, node, tie)
        good = {
            b"skip": waits and not (node.recipe and stale),
            b"start": waits and node.recipe and stale and len(running) < 2,
            b"finish": node.name in running,
        }[word]
        if not good:
            return False
        (running if word == b"start" else passed).add(node.name)
        if word == b"finish":
            running.discard(node.name)
    return {build.nodes[it].name for it in nodes} <= running


def judge(build, proof, is_short=False):
    """The statuses that `race verify` may end with, and the output where it is refused."""
    try:
        lines = Lines(proof)
        if proof.startswith(b"trace "):
            nodes, _, times, steps = read_trace(lines)
            return ({0, 1} if may_hold(build, nodes, times, steps) else {1}), None
        return {0 if is_certificate(build, read_certificate(lines), is_short) else 1}, None
    except BadLine as bad:
        return {2}, f"refused\nF25 BadProof\nat proof {bad.args[0]}\n".encode()
