"""What a makefile means, written apart from the program and from its definitions, out of docs/LANGUAGE.md.

It is slow and plain: the lines of a text, macros and what they expand to, entries, the rulebook, and the graph.
"""
import collections

import oracle

BLANKS = b" \t"
GREATEST_TEXT, GREATEST_EXPANSION, MOST_REFERENCES = 1_048_576, 65_536, 10_000
GREATEST_DEPTH, MOST_INCLUDED = 16, 1_000
MOST_NODES, MOST_EDGES = 20_000, 200_000
NO_MACRO_BYTES = b" \t$(){}:=#"
NO_WORD_BYTES = b"#$:;=\\%()*?[\"'&| \t\x7f" + bytes(range(32))
INTERNAL = {bytes([sign]) + part for sign in b"@<*?%^+" for part in (b"", b"D", b"F")}
SPECIAL = set(b".DEFAULT .IGNORE .NOTPARALLEL .PHONY .POSIX .PRECIOUS .SCCS_GET .SILENT .SUFFIXES .WAIT".split())
FAULTS = """BadName NoColon StrayRecipe DoubleColon BadAssignment Include TextTooLarge MacroLoop BadReference InternalMacro
    ExpansionTooLarge TwoRecipes MixedSpecial DefaultPrerequisites NoGoal NoRule Cycle GraphTooLarge BadFootprint
    FootprintsTooLarge MissingFootprint WritesTarget TooManyPairs BadLog BadProof UnknownInclude IncludeTooDeep
    TooManyIncludes BadTask TaskTwice UnknownTask TooManyTasks TasksTooLarge UnusedFootprint NotAwaited""".split()

Assignment = collections.namedtuple("Assignment", "name operator text")
Entry = collections.namedtuple("Entry", "targets prerequisites has_commands")
Include = collections.namedtuple("Include", "may_be_absent rest")
Command = collections.namedtuple("Command", "")
Rule = collections.namedtuple("Rule", "targets prerequisites has_commands source place")
Plan = collections.namedtuple("Plan", "root listing book order makers prerequisites")


class Fault(Exception):
    """The input is refused."""

    def __init__(self, word, *names):
        self.word, self.names, self.source, self.place = word, names, None, 0

    def at(self, source, place=0):
        """The same fault at this place, unless it has one."""
        if self.source is None:
            self.source, self.place = source, place
        return self

    def report(self):
        """The text of the refusal."""
        lines = [b"refused", b"F%d %s" % (FAULTS.index(self.word) + 1, self.word.encode()), b"at %s %d" % (self.source, self.place)]
        return b"".join(line + b"\n" for line in [*lines, *(b"name " + shown(name) for name in self.names)])


def shown(name):
    """A name as reports show it."""
    return b"".join(b"\\x%02x" % it if it <= 0x20 or it in b"\\\x7f" else bytes([it]) for it in name)


def distinct(names):
    return list(dict.fromkeys(names))


def words_of(text):
    return [word for word in text.replace(b"\t", b" ").split(b" ") if word]


# Lines.


def place_outside(text, signs, start=0):
    """The first place from `start` on, outside references, of one of these signs, or None."""
    at = start
    while at < len(text):
        if text[at : at + 1] == b"$":
            closing = {b"(": b")", b"{": b"}"}.get(text[at + 1 : at + 2])
            end = text.find(closing, at + 2) + 1 if closing else at + 2
            at = end or len(text)
        elif text[at] in signs:
            return at
        else:
            at += 1
    return None


def is_macro_name(name):
    return bool(name) and not any(it in NO_MACRO_BYTES for it in name)


def assignment(text, begin, end, operator):
    name = text[:begin].strip(BLANKS)
    if not is_macro_name(name):
        raise Fault("BadAssignment")
    return Assignment(name, operator, text[end:].lstrip(BLANKS))


def line_of(text):
    """What a logical line says that is no command line."""
    first, *others = words_of(text)
    if first in (b"include", b"-include") and not (others and others[0].startswith((b":", b"=", b"?=", b"+=", b"!="))):
        return Include(first == b"-include", text[text.index(first) + len(first) :])
    at = place_outside(text, b":=")
    if at is None:
        raise Fault("NoColon")
    if text[at : at + 1] == b"=":
        sign = text[at - 1 : at] if at else b""
        if sign == b"!":
            raise Fault("BadAssignment")
        return assignment(text, at - (sign in (b"?", b"+")), at + 1, {b"?": "?=", b"+": "+="}.get(sign, "="))
    for sign, operator in ((b":::=", None), (b"::=", "::="), (b":=", "::=")):
        if text.startswith(sign, at):
            if operator is None:
                raise Fault("BadAssignment")
            return assignment(text, at, at + len(sign), operator)
    if text.startswith(b"::", at):
        raise Fault("DoubleColon")
    semicolon = place_outside(text, b";", at + 1)
    return Entry(text[:at], text[at + 1 : semicolon], semicolon is not None)


def blocks_of(text):
    """The physical lines that escaped newlines join, each with whether a newline ends it, and the number of the first."""
    *whole, last = text.split(b"\n")
    lines = [(line, True) for line in whole] + [(last, False)] * bool(last)
    block, first = [], 1
    for number, (line, ends) in enumerate(lines, 1):
        block.append((line, ends))
        if not (ends and line.endswith(b"\\")) or number == len(lines):
            yield first, block
            block, first = [], number + 1


def joined(block):
    """The text of a block that is no command line: its pieces with a space between, up to the first number sign."""
    pieces = []
    for number, (line, ends) in enumerate(block):
        is_escaped = ends and line.endswith(b"\\")
        piece = line[:-1] if is_escaped else line
        pieces.append(piece.lstrip(BLANKS) if number else piece)
    if is_escaped:
        pieces.append(b"")
    return b" ".join(pieces).split(b"#")[0]


def lines_of(text, source):
    """The logical lines of a text with their first physical lines."""
    if len(text) > GREATEST_TEXT:
        raise Fault("TextTooLarge").at(source)
    lines, is_open = [], False
    for first, block in blocks_of(text):
        whole = b"\n".join(line for line, _ in block)
        if whole.startswith(b"\t") and whole.strip(BLANKS):
            if is_open:
                lines.append((first, Command()))
            elif not whole.lstrip(BLANKS).startswith(b"#"):
                raise Fault("StrayRecipe").at(source, first)
        elif joined(block).strip(BLANKS):
            try:
                line = line_of(joined(block))
            except Fault as fault:
                raise fault.at(source, first)
            lines.append((first, line))
            is_open = isinstance(line, Entry)
    return lines


# Macros.


class Macros:
    """What macros stand for: a text, and whether it was expanded when it was assigned."""

    def __init__(self, given):
        self.given, self.table = given, {}

    def assign(self, name, operator, text):
        old = self.table.get(name)
        if name in self.given or operator == "?=" and old:
            return
        if operator == "+=" and old:
            self.table[name] = old[0] + b" " + (self.expand(text) if old[1] else text), old[1]
        elif operator == "::=":
            self.table[name] = self.expand(text), True
        else:
            self.table[name] = text, False

    def expand(self, text):
        return Expansion(self).text_of(text, frozenset())

    def value(self, name):
        return (self.given[name], False) if name in self.given else self.table.get(name, (b"", True))


class Expansion:
    """One expansion of a text, with its count of references."""

    def __init__(self, macros):
        self.macros, self.count = macros, 0

    def text_of(self, text, busy):
        items, at, length = [], 0, 0
        while at < len(text):
            item, at = self.item(text, at, busy)
            length += len(item)
            if length > GREATEST_EXPANSION:
                raise Fault("ExpansionTooLarge")
            items.append(item)
        return b"".join(items)

    def item(self, text, at, busy):
        """What stands first in a text from a place on, expanded, and the place behind it."""
        sign, other = text[at : at + 1], text[at + 1 : at + 2]
        if sign != b"$":
            return sign, at + 1
        if other == b"$":
            return b"$", at + 2
        closing = {b"(": b")", b"{": b"}"}.get(other)
        end = text.find(closing, at + 2) if closing else at + 2
        if end < 0 or not other:
            raise Fault("BadReference")
        inside = text[at + 2 : end] if closing else other
        return self.refer(inside, bool(closing), busy), end + bool(closing)

    def refer(self, inside, may_change, busy):
        """What a reference gives, by what stands inside it."""
        name, colon, change = inside.partition(b":") if may_change else (inside, b"", b"")
        if b"$" in inside or not is_macro_name(name) or colon and (b"=" not in change or b"%" in change):
            raise Fault("BadReference")
        if name in INTERNAL:
            raise Fault("InternalMacro", name)
        if self.count == MOST_REFERENCES:
            raise Fault("ExpansionTooLarge")
        self.count += 1
        if name in busy:
            raise Fault("MacroLoop", name)
        value, is_final = self.macros.value(name)
        if not is_final:
            value = self.text_of(value, busy | {name})
        return changed(value, *change.split(b"=", 1)) if colon else value


def changed(text, old, new):
    """A text with another end of each word that ends so."""
    parts, word = [], b""
    for byte in (text[at : at + 1] for at in range(len(text) + 1)):
        if byte and byte not in BLANKS:
            word += byte
            continue
        if word and word.endswith(old):
            word = word[: len(word) - len(old)] + new
        parts += [word, byte]
        word = b""
    return b"".join(parts)


# Names.


def name_of_word(word, root):
    if any(it in NO_WORD_BYTES for it in word) or oracle.plain(root, word) is None:
        raise Fault("BadName", word)
    return oracle.plain(root, word)


def name_of_path(path, root):
    name = oracle.plain(root, path)
    if name is None:
        raise Fault("BadName")
    return name


# Rules.


class Reader:
    """Reads lines into rules, those of included texts in the place of their include lines."""

    def __init__(self, macros, texts, root):
        self.macros, self.texts, self.root = macros, texts, root
        self.rules, self.included = [], 0

    def read(self, lines, source, depth=0):
        for place, line in lines:
            try:
                if isinstance(line, Command):
                    self.rules[-1] = self.rules[-1]._replace(has_commands=True)
                elif isinstance(line, Assignment):
                    self.macros.assign(*line)
                elif isinstance(line, Include):
                    self.include(line, depth)
                else:
                    self.rules.append(self.rule(line, source, place))
            except Fault as fault:
                raise fault.at(source, place)

    def names(self, text):
        return [name_of_word(word, self.root) for word in words_of(self.macros.expand(text))]

    def rule(self, entry, source, place):
        targets = distinct(self.names(entry.targets))
        rule = Rule(targets, self.names(entry.prerequisites), entry.has_commands, source, place)
        special = [name for name in targets if name in SPECIAL]
        if special and len(targets) > 1:
            raise Fault("MixedSpecial", special[0])
        if targets == [b".DEFAULT"] and rule.prerequisites:
            raise Fault("DefaultPrerequisites")
        return rule

    def include(self, line, depth):
        for word in words_of(self.macros.expand(line.rest)):
            name = name_of_word(word, self.root)
            if name in self.texts:
                self.take_in(name, depth)
            elif not line.may_be_absent:
                raise Fault("UnknownInclude", name)

    def take_in(self, name, depth):
        if depth == GREATEST_DEPTH:
            raise Fault("IncludeTooDeep", name)
        if self.included == MOST_INCLUDED:
            raise Fault("TooManyIncludes")
        self.included += 1
        source = b"include:" + shown(name)
        self.read(lines_of(self.texts[name], source), source, depth + 1)


def is_suffix(name):
    return len(name) > 1 and name.startswith(b".") and b"." not in name[1:] and b"/" not in name


class Book:
    """What all rules of a build say."""

    def __init__(self, rules):
        rules = [rule for rule in rules if rule.targets]
        of_special = lambda name: [rule for rule in rules if rule.targets == [name]]
        self.suffixes = []
        for rule in of_special(b".SUFFIXES"):
            more = [name for name in rule.prerequisites if is_suffix(name)]
            self.suffixes = distinct(self.suffixes + more) if rule.prerequisites else []
        self.phony = {name for rule in of_special(b".PHONY") for name in rule.prerequisites}
        self.has_default = any(rule.has_commands for rule in of_special(b".DEFAULT"))
        self.waits = sum(rule.prerequisites.count(b".WAIT") for rule in rules)
        inferred = set(self.suffixes) | {old + new for old in self.suffixes for new in self.suffixes if old != new}
        self.inference, self.prerequisites, self.with_recipe = set(), {}, set()
        two = None
        for rule in rules:
            if rule.targets[0] in SPECIAL:
                continue
            if len(rule.targets) == 1 and rule.has_commands and not rule.prerequisites and rule.targets[0] in inferred:
                self.inference.add(rule.targets[0])
                continue
            for name in rule.targets:
                more = [it for it in rule.prerequisites if it != b".WAIT"]
                self.prerequisites[name] = distinct(self.prerequisites.get(name, []) + more)
            again = [name for name in rule.targets if rule.has_commands and name in self.with_recipe]
            if again and not two:
                two = Fault("TwoRecipes", again[0]).at(rule.source, rule.place)
            self.with_recipe |= set(rule.targets) if rule.has_commands else set()
        if two:
            raise two

    def default_goal(self):
        return next((name for name in self.prerequisites if not name.startswith(b".") or b"/" in name), None)


# The graph.


def source_of(book, listing, name):
    """The name from which inference makes this one, or None."""
    exists = lambda it: it in listing or it in book.prerequisites
    dot = name.rfind(b".", name.rfind(b"/") + 1)
    suffix = name[dot:] if dot > name.rfind(b"/") + 1 else b""
    stem, end = (name[: len(name) - len(suffix)], suffix) if suffix in book.suffixes else (name, b"")
    fitting = (it for it in book.suffixes if it + end in book.inference and exists(stem + it))
    return next((stem + it for it in fitting), None)


def maker_of(book, listing, name):
    """How a name is made, and from which inferred name."""
    if name in book.with_recipe:
        return b"recipe", None
    source = None if name in book.phony else source_of(book, listing, name)
    if source is not None:
        return b"inferred", source
    is_unknown = name not in book.phony and name not in book.prerequisites and name not in listing
    if is_unknown and not book.has_default:
        return None, None
    return (b"default" if is_unknown else b"plain"), None


def serial_order(goals, prerequisites):
    """The names behind what they need, each once."""
    order, open_names = {}, set()

    def visit(name):
        if name in open_names:
            raise Fault("Cycle")
        if name not in order:
            open_names.add(name)
            for it in prerequisites[name]:
                visit(it)
            open_names.remove(name)
            order[name] = len(order)

    for goal in goals:
        visit(goal)
    return list(order)


def plan_of(book, listing, goals, root):
    goals = goals or [book.default_goal()]
    if goals == [None]:
        raise Fault("NoGoal")
    makers, prerequisites, left = {}, {}, list(goals)
    while left:
        name = left.pop()
        if name not in makers:
            makers[name], source = maker_of(book, listing, name)
            prerequisites[name] = distinct(book.prerequisites.get(name, []) + [source] * (source is not None))
            left += prerequisites[name]
    if len(makers) > MOST_NODES or sum(map(len, prerequisites.values())) > MOST_EDGES:
        raise Fault("GraphTooLarge")
    lost = [name for name in makers if makers[name] is None]
    if lost:
        raise Fault("NoRule", min(lost))
    return Plan(root, listing, book, serial_order(goals, prerequisites), makers, prerequisites)


def settings_of(root, operands):
    """The macros and the goals of the operands."""
    if not root.startswith(b"/") or oracle.plain(b"/", root) is None:
        raise Fault("BadName", root).at(b"settings")
    given, goals = {}, []
    for place, operand in enumerate(operands, 1):
        name, sign, value = operand.partition(b"=")
        try:
            if not sign:
                goals.append(name_of_word(operand, root))
            elif is_macro_name(name):
                given[name] = value
            else:
                raise Fault("BadAssignment")
        except Fault as fault:
            raise fault.at(b"settings", place)
    return given, goals


def names_of_lines(lines, root, source):
    names = []
    for place, line in enumerate(lines, 1):
        try:
            names.append(name_of_path(line, root) if line else None)
        except Fault as fault:
            raise fault.at(source, place)
    return names


def read_build(root, operands, includes, listing, base, makefile):
    """The plan of a build's texts; `includes` has pairs of a path and a text."""
    given, goals = settings_of(root, operands)
    names = names_of_lines([path for path, _ in includes], root, b"includes")
    texts = dict(reversed([*zip(names, (text for _, text in includes))]))
    listed = set(names_of_lines(listing.split(b"\n"), root, b"listing")) - {None}
    base, makefile = lines_of(base, b"base"), lines_of(makefile, b"makefile")
    reader = Reader(Macros(given), texts, root)
    reader.read(base, b"base")
    reader.read(makefile, b"makefile")
    book = Book(reader.rules)
    try:
        return plan_of(book, listed, goals, root)
    except Fault as fault:
        raise fault.at(b"graph")


def order_text(plan):
    """What `race order` prints."""
    lines = []
    for number, name in enumerate(plan.order):
        behind = [b":", *map(shown, plan.prerequisites[name])] if plan.prerequisites[name] else []
        lines.append(b" ".join([b"%d" % number, plan.makers[name], shown(name), *behind]) + b"\n")
    return b"".join(lines)
