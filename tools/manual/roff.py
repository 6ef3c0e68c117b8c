"""Man pages as groff and mandoc read them."""
from __future__ import annotations

import re
from collections.abc import Iterable, Iterator

from manual.helps import Entry, Help
from manual.parts import EXAMPLES, Part, is_example, is_statuses, parts, statuses
from manual.source import DATE, OTHERS, files_of

ESCAPES = str.maketrans({"\\": "\\e", "-": "\\-", "'": "\\(aq", "`": "\\(ga", "^": "\\(ha", "~": "\\(ti"})
CODE = re.compile(r"`([^`]*)`")


def escaped(text: str) -> str:
    """A text of which no byte is taken for a request."""
    return text.translate(ESCAPES)


def safe(line: str) -> str:
    """A line that begins with no request."""
    return f"\\&{line}" if line.startswith((".", "'", "\\(aq")) else line


def prose(text: str) -> str:
    """A paragraph on one line for each sentence, what stands between backticks in bold."""
    spans = CODE.split(" ".join(text.split()))
    shown = "".join(f"\\fB{escaped(it)}\\fR" if at % 2 else escaped(it) for at, it in enumerate(spans))
    return "\n".join(safe(it) for it in re.split(r"(?<=[.:])\s+(?=[A-Z])", shown))


def typed(text: str) -> str:
    """What is typed: words in bold, and what stands for something else in italics."""
    shown = re.sub(r"<[^<>]+>|[A-Z][A-Z=]+|--? ?COMMAND|[^A-Z<]+|.", lambda it: italic(it[0]), text)
    return re.sub(r"\\fR\\f", r"\\f", shown)


def italic(text: str) -> str:
    face = "I" if re.fullmatch(r"<[^<>]+>|[A-Z][A-Z=]+", text) else "B"
    return f"\\f{face}{escaped(text.strip('<>') if face == 'I' else text)}\\fR"


def literal(lines: Iterable[str]) -> Iterator[str]:
    """Lines as they stand, without the blanks that all of them have in front."""
    kept = [*lines]
    least = min(len(it) - len(it.lstrip()) for it in kept)
    yield from (".RS 4", ".nf")
    yield from (safe(escaped(it[least:])) for it in kept)
    yield from (".fi", ".RE")


def tagged(rows: Iterable[tuple[str, str]]) -> Iterator[str]:
    """Rows of something and what it is."""
    for term, text in rows:
        yield from (".TP", term)
        yield prose(text) if text else "\\&"


def sentence(text: str) -> str:
    """A line of help as a sentence."""
    return f"{text[:1].upper()}{text[1:]}" + ("" if not text or text.endswith(".") else ".")


def options(entries: list[Entry]) -> Iterator[str]:
    yield from tagged((typed(it.term), sentence(it.text)) for it in entries)


def described(part: Part) -> Iterator[str]:
    """A part of the description."""
    if part.text:
        yield from (".PP", prose(" ".join(part.text)))
    if part.literal:
        yield from literal(part.literal)


def example(part: Part) -> Iterator[str]:
    """An example: what it is of, then what is typed and printed."""
    text = EXAMPLES.sub("", " ".join(part.text)).strip()
    if text:
        yield from (".PP", prose(text[:1].upper() + text[1:]))
    yield from literal(part.literal)


def about(text: str) -> str:
    """What a command is, as the line NAME has it: the first sentence, up to a colon, no capital in front and no period behind."""
    first = re.split(r"[.:] ", text, maxsplit=1)[0]
    return escaped(CODE.sub(r"\1", first[:1].lower() + first[1:].rstrip(".")))


def usage(help_: Help) -> Iterator[str]:
    """The usage: the command in bold, then what else may be typed; each of several ways on a line of its own."""
    ways = re.split(rf"(?:^| ){re.escape(help_.words)}(?= |$)", help_.usage)[1:]
    yield from (".nh", ".ad l")
    for at, way in enumerate(ways):
        yield from ([".br"] if at else [])
        yield f"\\fB{escaped(help_.words)}\\fR"
        yield from (safe(typed(it)) + "\\&" for it in re.findall(r"\[[^\]]*\](?:\.\.\.)?|--\S+ <[^>]*>|\S+", way))
    yield from (".ad b", ".hy")


def page(help_: Help, pages: list[str], version: str) -> str:
    """The man page of a help, beside these other pages."""
    every = [*parts(help_.rest)]
    lines = ['.\\" Made by tools/man from the help of the command. Do not edit.']
    lines += [f'.TH {help_.page.upper()} 1 "{DATE}" "race {version}" "User Commands"']
    lines += [".SH NAME", f"{escaped(help_.page)} \\- {about(help_.about)}", ".SH SYNOPSIS", *usage(help_)]
    lines += [".SH DESCRIPTION", prose(help_.about)]
    for part in (it for it in every if not is_statuses(it) and not is_example(it)):
        lines += described(part)
    if "commands" in help_.lists:
        lines += [".SH COMMANDS", *tagged((f"\\fBrace {escaped(it.term)}\\fR", sentence(it.text)) for it in help_.lists["commands"])]
    lines += [".SH OPTIONS", *options([*help_.lists.get("arguments", []), *help_.options])]
    lines += [".SH EXIT STATUS", *tagged((f"\\fB{code}\\fR", sentence(text)) for code, text in statuses(help_))]
    lines += [".SH FILES", *tagged((f"\\fI{escaped(name.strip('<>'))}\\fR", text) for name, text in files_of(help_.page))]
    examples = [line for part in every if is_example(part) for line in example(part)]
    lines += [".SH EXAMPLES", *examples[examples[:1] == [".PP"] :]] if examples else []
    others = sorted(it for it in {*pages, *OTHERS} if it != help_.page)
    lines += [".SH SEE ALSO", *(f".BR {escaped(it)} (1){',' if it != others[-1] else ''}" for it in others)]
    return "\n".join(lines) + "\n"
