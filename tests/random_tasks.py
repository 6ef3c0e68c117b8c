"""Random texts of tasks, and compared with what tests/tasks_oracle.py says of them."""
import json
import random

import harness
import tasks_oracle

FREE = "t t/ t/u t/u/v out t// /w/t /a/b/t/u d/e/k ../q".split()
TAKEN = "d/ d/e/ s r.c ./ ../ / /w/d/".split()
LABELS = ["a", "b", "cc -c x.c", "d/e", "/w/a", "ä", "\\", "x\n", ".", "\0", "t", "lex.o"]


def random_tasks(dice):
    """A text of tasks whose footprints meet; in some a line, a label or a path is odd, or a line says what it needs, which orders nothing here."""
    labels = dice.sample(LABELS, dice.randint(0, 9))
    read, written = dice.sample(FREE + TAKEN, dice.choice([1, 2, 4, 8])), dice.sample(FREE + TAKEN, dice.choice([1, 2, 3]))
    lines = []
    for number, label in enumerate(labels):
        after = [dice.choice(labels[:number]) for _ in range(dice.randint(0, 2)) if number]
        reads = [dice.choice(read + written) for _ in range(dice.randint(0, 2))]
        writes = [dice.choice(written) for _ in range(dice.choice([0, 0, 1, 1, 2]))]
        if dice.random() < 0.02:
            dice.choice([after, reads, writes]).append(dice.choice(["", "/", label, labels[-1], "\0"]))
        said = {"task": dice.choice(labels) if dice.random() < 0.02 else label, "after": after, "reads": reads, "writes": writes, "line": number}
        if dice.random() < 0.1:
            said |= {"makes": dice.choice(written), "needs": [dice.choice(read + written)]}
        if dice.random() < 0.02:
            del said[dice.choice([*said])]
        lines += [json.dumps(said, ensure_ascii=dice.random() < 0.5)] + dice.choice([[]] * 8 + [["", " \t"]])
    text = "".join(line + "\n" for line in lines).encode()
    at = dice.randint(0, len(text))
    return text if dice.random() < 0.9 else text[:at] + dice.choice([b"", b"\n", b'"', b"1", b"\xff"]) + text[at + 1 :]


def said_of_tasks(runner, root, text):
    """What is said of a text of tasks, and what the model says."""
    words = ["--tasks", runner.write("tasks", text), b"--root=" + root]
    said = {
        ("check",): tasks_oracle.check(root, text, False),
        ("check", "--print-proof"): tasks_oracle.check(root, text, True),
        ("check", "--short"): tasks_oracle.check(root, text, False, True),
        ("check", "--short", "--print-proof"): tasks_oracle.check(root, text, True, True),
        ("list",): tasks_oracle.listed(root, text),
        ("fix",): tasks_oracle.fix(root, text, False),
        ("fix", "--print-proof"): tasks_oracle.fix(root, text, True),
    }
    for (command, *flags), expected in said.items():
        ran = runner.run([command, *words, *flags])
        if harness.outcome(ran) != (*expected, b""):
            yield " ".join([command, *flags]), ran, expected
    for short in [], ["--short"]:
        status, proof = said[("check", *short, "--print-proof")]
        ran = runner.run(["verify", *words, "--proof", runner.write("proof", proof), *short])
        if status < 2 and harness.outcome(ran) != (0, b"accepted\n", b""):
            yield " ".join(["verify", *short]), ran, (0, b"accepted\n")
    if status < 2:
        yield from fixed_tasks(runner, words, text)


def fixed_tasks(runner, words, text):
    """What is said of tasks that have the edges of their fix: they are safe, need no more, and the proof of their fix is theirs."""
    lines, proof = (runner.run(["fix", *words, *flags]).stdout for flags in ([], ["--print-proof"]))
    fixed = tasks_oracle.with_edges(text, tasks_oracle.edges_in(lines))
    words = ["--tasks", runner.write("fixed", fixed), *words[2:]]
    expected = {
        ("fix",): b"",
        ("check", "--print-proof"): proof,
        ("verify", "--proof", runner.write("fixed-proof", proof)): b"accepted\n",
    }
    for (command, *more), output in expected.items():
        ran = runner.run([command, *words, *more])
        if harness.outcome(ran) != (0, output, b""):
            yield f"{command} of fixed tasks", ran, (0, output)
    ran = runner.run(["check", *words])
    if ran.status or not ran.stdout.startswith(b"safe\n"):
        yield "check of fixed tasks", ran, (0, b"safe")


def compare(runner, numbers):
    """Each text of tasks of these numbers is said to be what it is."""
    for number in numbers:
        dice = random.Random(-number - 1)
        root, text = dice.choice([b"/w", b"/w", b"/", b"/a/b", b"/w/../a//", b"w"]), random_tasks(dice)
        for command, ran, expected in said_of_tasks(runner, root, text):
            yield f"tasks {number}, {command}: {harness.seen(ran)}, expected {expected[0]} {expected[1][:80]}: {text!r}"
