"""What a small build's replays and serial logs must be, written apart from the program and from its definitions, out of docs/FORMATS.md.

It is slow and plain, and takes of the program only the graph, as `race order` prints it.
"""
import collections
import itertools
import json
import re

GREATEST_TIME = 2**64 - 1
GREATEST_PATH = 4_096
BLANK = b" \t\r"

Node = collections.namedtuple("Node", "name recipe before")
Event = collections.namedtuple("Event", "do node path bytes time", defaults=(None,) * 3)


class BadLine(Exception):
    """The line is not good; its number."""


def components(root, path):
    """The components of a path from the top."""
    kept = []
    for it in (root + b"/" + path if path[:1] != b"/" else path).split(b"/"):
        if it == b"..":
            kept = kept[:-1]
        elif it not in (b"", b"."):
            kept.append(it)
    return kept


def plain(root, path):
    """The plain name of a path, or None where it is none."""
    if not 0 < len(path) <= GREATEST_PATH or b"\0" in path or b"\n" in path:
        return None
    top, whole = components(b"", root), components(root, path)
    if whole[: len(top)] == top:
        return b"/".join(whole[len(top) :]) or b"."
    return b"/" + b"/".join(whole)


def no_number(text):
    raise ValueError(text)


def whole_number(text):
    """(a zero with a sign is no whole number, and neither is one beyond 64 bits)"""
    return int(text) if text != "-0" and int(text) <= GREATEST_TIME else float(text)


def read_object(line):
    """The object of a line of JSON, or None."""
    try:
        it = json.loads(line.decode("utf-8"), parse_constant=no_number, parse_int=whole_number)
        json.dumps(it, ensure_ascii=False).encode("utf-8")  # a half of a surrogate pair is no text
    except (ValueError, RecursionError):
        return None
    return it if isinstance(it, dict) else None


def text(it, key):
    """The bytes of a text under a key, or None."""
    return it[key].encode() if isinstance(it.get(key), str) else None


def unhex(digits):
    """The bytes that lower-case hexadecimal digits say, or None."""
    if digits is None or len(digits) % 2 or re.search(rb"[^0-9a-f]", digits):
        return None
    return bytes.fromhex(digits.decode())


def note_of(names):
    """The note of footprints whose targets are these names, as they are shown, or nothing."""
    count = b"1 such target" if len(names) == 1 else b"%d such targets" % len(names)
    said = b"race: note: nothing makes %s here, though its footprint says what its recipe does (%s); see --base\n"
    return said % (names[0], count) if names else b""


class Build:
    """The graph, and what each recipe reads and writes."""

    def __init__(self, root, order, makefile, listing, footprints):
        self.root = root
        lines = [it.split(b" ") for it in order.splitlines()]
        self.nodes = [Node(it[2], it[1] != b"plain", it[4:]) for it in lines]
        self.numbers = {node.name: number for number, node in enumerate(self.nodes)}
        self.listed = {plain(root, it) for it in listing.splitlines() if it}
        # (the makefiles that are looked at here name their phony targets without macros)
        self.phony = {plain(root, it) for words in re.findall(rb"(?m)^\.PHONY:(.*)", makefile) for it in words.split()}
        self.reads, self.writes = collections.defaultdict(list), collections.defaultdict(list)
        targets = set()
        for line in filter(None, footprints.splitlines()):
            it = json.loads(line)
            targets.add(plain(root, it["target"].encode()))
            number = self.numbers.get(plain(root, it["target"].encode()))
            node = self.nodes[number] if number is not None else None
            if node is None or node.name in self.listed and node.name not in self.phony and not node.before:
                continue
            self.reads[node.name] += [path.encode() for path in it["reads"]]
            self.writes[node.name] += [path.encode() for path in it["writes"]]
        self.unused = [node.name for node in self.nodes if not node.recipe and node.name in targets]

    def note(self):
        """What all commands but `race order` note of this build."""
        return note_of(self.unused)

    def covers(self, path, name):
        """Whether a path of a footprint is that name, or a folder that ends in a slash and has it below."""
        whole, below = components(self.root, path), components(self.root, name)
        return whole == below or path.endswith(b"/") and below[: len(whole)] == whole

    def may(self, paths, name):
        return any(self.covers(path, name) for path in paths)

    def is_stale(self, store, node, tie):
        if node.name in self.phony or node.name not in store:
            return True
        own = store[node.name][1]
        return any(
            it in self.phony or it not in store or store[it][1] > own or tie and store[it][1] == own for it in node.before
        )

    def read_log(self, log):
        """The files and the events of a log; a BadLine has the number of the first bad one."""
        store, events = {}, []
        lines = log.split(b"\n")
        for number, line in enumerate(lines[:-1] + lines[-1:] * bool(lines[-1]), 1):
            if not line.strip(BLANK):
                continue
            it = read_object(line)
            read = it and self.read_line(it)
            if not read or read.do == "file" and (events or read.path in store):
                raise BadLine(number)
            if read.do == "file":
                store[read.path] = read.bytes, read.time
            else:
                events.append(read)
        return store, events

    def read_line(self, it):
        """What an object of a log says, or None."""
        do, path, node = it.get("do"), text(it, "path"), text(it, "node")
        path, node = path and plain(self.root, path), node and plain(self.root, node)
        has_time = isinstance(it.get("time"), int) and not isinstance(it.get("time"), bool)
        content = unhex(text(it, "bytes"))
        if do == "look" and "bytes" in it and it["bytes"] is None:
            content = b"absent"
        elif do == "look" and content is not None:
            content = b"found " + content
        good = {
            "file": path and content is not None and has_time,
            "put": node and path and content is not None and has_time,
            "look": node and path and content is not None,
            "erase": node and path,
        }
        good.update(dict.fromkeys(("skip", "start", "finish"), node))
        if not isinstance(do, str) or not good.get(do) or do != "file" and node not in self.numbers:
            return None
        return Event(do, node, path, content, it.get("time"))

    def refusal(self, it, store, passed, running, limit, tie):
        """Why an event is not allowed, or None."""
        node = self.nodes[self.numbers[it.node]]
        waits = node.name not in passed and node.name not in running
        ready = all(name in passed for name in node.before)
        stands = b"found " + store[it.path][0] if it.path in store else b"absent"
        questions = {
            "skip": [(waits, "V5 TwicePassed"), (ready, "V1 NotReady"), (not node.recipe or not self.is_stale(store, node, tie), "V3 Stale")],
            "start": [
                *[(waits, "V5 TwicePassed"), (ready, "V1 NotReady"), (node.recipe, "V4 NoRecipe")],
                *[(self.is_stale(store, node, tie), "V2 NotStale"), (len(running) < limit, "V10 TooManyJobs")],
            ],
            "look": [(it.path and self.may(self.reads[node.name], it.path), "V7 OutsideFootprint"), (stands == it.bytes, "V8 WrongBytes")],
            "put": [
                (it.path and self.may(self.writes[node.name], it.path), "V7 OutsideFootprint"),
                (it.time is not None and all(time < it.time for _, time in store.values()), "V9 NotNewer"),
            ],
            "erase": [(it.path and self.may(self.writes[node.name], it.path), "V7 OutsideFootprint")],
            "finish": [],
        }[it.do]
        if it.do in ("look", "put", "erase", "finish"):
            questions.insert(0, (node.name in running, "V6 NotRunning"))
        return next((word for good, word in questions if not good), None)

    def replay(self, log, limit, tie):
        """The status and the output of a replay."""
        try:
            store, events = self.read_log(log)
        except BadLine as bad:
            return 2, f"refused\nF24 BadLog\nat log {bad.args[0]}\n".encode()
        if set(store) != self.listed:
            return 1, b"not allowed V11 StoreNotListing at 0\n"
        passed, running = set(), set()
        for place, it in enumerate(events, 1):
            why = self.refusal(it, store, passed, running, limit, tie)
            if why:
                return 1, f"not allowed {why} at {place}\n".encode()
            if it.do in ("skip", "finish"):
                passed.add(it.node)
                running.discard(it.node)
            elif it.do == "start":
                running.add(it.node)
            elif it.do == "put":
                store[it.path] = it.bytes, it.time
            elif it.do == "erase":
                store.pop(it.path, None)
        report = b"allowed complete\n" if len(passed) == len(self.nodes) else b"allowed incomplete\n"
        rows = [b"file %s %d %s\n" % (shown(name), time, content.hex().encode() or b"-") for name, (content, time) in sorted(store.items())]
        return 0, report + b"".join(rows)

    def has_race(self):
        """Whether two recipes touch a path that one of them writes, and neither needs the other."""
        needed = {}
        for node in self.nodes:
            needed[node.name] = set(node.before).union(*(needed[name] for name in node.before))
        for one, other in itertools.combinations([node.name for node in self.nodes if node.recipe], 2):
            pairs = itertools.chain(
                itertools.product(self.writes[one], self.reads[other] + self.writes[other]),
                itertools.product(self.reads[one], self.writes[other]),
            )
            if one not in needed[other] and any(self.covers(a, b) or self.covers(b, a) for a, b in pairs):
                return True
        return False

    def serialise(self, log, limit, tie):
        """The status and the output of `race serialise` on a build without a race."""
        status, report = self.replay(log, limit, tie)
        if status:
            return status, report
        if not report.startswith(b"allowed complete\n"):
            return 1, b"not complete\n"
        store, events = self.read_log(log)
        time = max((time for _, time in store.values()), default=0)
        if time + len(events) > GREATEST_TIME:
            return 1, b"not complete: times too large\n"
        lines = [{"do": "file", "path": name.decode(), "bytes": content.hex(), "time": time} for name, (content, time) in sorted(store.items())]
        for it in sorted(events, key=lambda it: self.numbers[it.node]):
            time += it.do == "put"
            lines.append(written(it, time))
        return 0, "".join(json.dumps(it, ensure_ascii=False, separators=(",", ":"), sort_keys=True) + "\n" for it in lines).encode()


def written(event, time):
    """The object of an event; a put has this time."""
    it = {"do": event.do, "node": event.node.decode()}
    if event.do in ("look", "put", "erase"):
        it["path"] = event.path.decode()
    if event.do == "look":
        it["bytes"] = None if event.bytes == b"absent" else event.bytes.removeprefix(b"found ").hex()
    if event.do == "put":
        it.update(bytes=event.bytes.hex(), time=time)
    return it


def shown(name):
    return b"".join(bytes([it]) if it > 0x7F or 0x20 < it < 0x7F and it != 0x5C else b"\\x%02x" % it for it in name)
