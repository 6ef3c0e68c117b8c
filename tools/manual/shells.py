"""Completions for bash, zsh and fish, made from the help."""
from __future__ import annotations

import re
from collections.abc import Iterator

from manual.helps import Entry, Help

# What an option's value is, by the name that the help gives it; any other is nothing that can be completed.
FOLDERS = {"DIR", "FOLDER"}
FILES = {"MAKEFILE", "LISTING", "BASE", "FILE", "FOOTPRINTS", "LOG", "PROOF", "TASKS", "TRACE", "PROGRAM", "FIRST", "SECOND"}
EXPLAIN = "race-explain 2>/dev/null | sed 's/  .*//'"
HEAD = "# Completions of race and its companions for {shell}. Made by tools/completions from the help. Do not edit.\n"


def name_of_value(entry: Entry) -> str:
    return entry.value.strip("<>[]. ")


def choices(entry: Entry) -> list[str]:
    """The words that an option's value is one of, where the help lists them."""
    found = re.fullmatch(r"\{(.*)\}", entry.value) or re.search(r"\[possible values: (.*?)\]", entry.text)
    return [it.strip() for it in found[1].split(",")] if found else []


def kind(entry: Entry) -> str:
    """What can be completed behind an option: words, folders, files, or nothing; none where it has no value."""
    if not entry.value:
        return "none"
    if choices(entry):
        return "words"
    name = name_of_value(entry)
    return "folders" if name in FOLDERS else "files" if name in FILES else "nothing"


def flags(entry: Entry) -> list[str]:
    """The spellings of an option; none for an argument."""
    return [it for it in entry.names if it.startswith("-") and it != "--"]


def options(help_: Help) -> list[Entry]:
    return [it for it in help_.options if flags(it)]


def all_flags(help_: Help) -> list[str]:
    return [name for it in options(help_) for name in flags(it)]


def commands(helps: list[Help]) -> list[Help]:
    """The commands of the program."""
    return [it for it in helps if it.words.startswith("race ")]


def programs(helps: list[Help]) -> list[Help]:
    """The program and its companions."""
    return [it for it in helps if " " not in it.words]


# What is completed where no option is: behind race-record a command, behind race-explain a name, else files or folders.
OPERANDS = {"race-record": "command", "race-explain": "names", "race-report": "folders", "race-confirm": "folders"}


def operands(help_: Help) -> str:
    return OPERANDS.get(help_.words, "files")


BASH_ACTIONS = {
    "folders": 'mapfile -t COMPREPLY < <(compgen -d -- "$word")',
    "files": 'mapfile -t COMPREPLY < <(compgen -f -- "$word")',
    "command": 'mapfile -t COMPREPLY < <(compgen -c -- "$word")',
    "names": f'mapfile -t COMPREPLY < <(compgen -W "$({EXPLAIN})" -- "$word")',
    "nothing": "COMPREPLY=()",
}


def bash_words(words: list[str]) -> str:
    return f'mapfile -t COMPREPLY < <(compgen -W "{" ".join(words)}" -- "$word")'


def bash_values(help_: Help) -> Iterator[str]:
    """The lines that complete the value of an option."""
    for entry in (it for it in options(help_) if kind(it) != "none"):
        action = bash_words(choices(entry)) if kind(entry) == "words" else BASH_ACTIONS[kind(entry)]
        yield f"      {'|'.join(flags(entry))}) {action}; return ;;"


def bash_case(help_: Help, is_top: bool) -> Iterator[str]:
    """The lines for one command."""
    yield f"  '{help_.words}')"
    values = [*bash_values(help_)]
    if values:
        yield from ('    case $before in', *values, "    esac")
    yield f'    case $word in -*) {bash_words(all_flags(help_))}; return ;; esac'
    yield f"    {bash_words([it.term for it in help_.lists['commands']]) if is_top else BASH_ACTIONS[operands(help_)]} ;;"


def bash(helps: list[Help]) -> str:
    """The completions of bash."""
    lines = [HEAD.format(shell="bash"), "_race() {", '  local word=${COMP_WORDS[COMP_CWORD]} before=${COMP_WORDS[COMP_CWORD-1]} command=${1##*/}']
    names = "|".join(it.words.split()[1] for it in commands(helps))
    lines += [f'  if [[ $command == race && $COMP_CWORD -gt 1 && ${{COMP_WORDS[1]}} == @({names}) ]]; then', '    command="race ${COMP_WORDS[1]}"', "  fi"]
    lines += ["  COMPREPLY=()", "  case $command in"]
    for it in helps:
        lines += bash_case(it, "commands" in it.lists)
    lines += ["  esac", "}", f"complete -o filenames -F _race {' '.join(it.words for it in programs(helps))}"]
    return "\n".join(lines) + "\n"


ZSH_ACTIONS = {"folders": "_files -/", "files": "_files", "nothing": " "}


def zsh_text(text: str) -> str:
    """A text within the quotes and brackets of an option."""
    return text.replace("\\", "\\\\").replace("[", "\\[").replace("]", "\\]").replace(":", "\\:").replace("'", "'\\''").replace("`", "")


def zsh_option(entry: Entry) -> Iterator[str]:
    """The specifications of an option, one for each spelling."""
    what = kind(entry)
    action = f"({' '.join(choices(entry))})" if what == "words" else ZSH_ACTIONS.get(what, "")
    value = f":{zsh_text(name_of_value(entry).split(' ')[0].split('{')[0].lower() or 'value')}:{action}" if what != "none" else ""
    others = " ".join(flags(entry))
    yield from (f"    '({others}){flag}[{zsh_text(entry.text)}]{value}' \\" for flag in flags(entry))


def zsh_function(help_: Help) -> Iterator[str]:
    """The function of one command. The file itself is the function _race, so that none of these may have this name."""
    yield f"__{help_.page}() {{"
    if "commands" in help_.lists:
        yield from ("  local context state line", "  typeset -A opt_args")
    yield "  _arguments -s -S \\"
    for it in options(help_):
        yield from zsh_option(it)
    if "commands" in help_.lists:
        yield from ("    '1:command:->command' \\", "    '*::operand:->operand' && return")
    elif operands(help_) == "command":
        yield "    '*:::command:_normal'"
    elif operands(help_) == "names":
        yield "    '*:name:__race_names'"
    else:
        yield f"    '*:operand:{ZSH_ACTIONS[operands(help_)]}'"


def zsh_top(helps: list[Help]) -> Iterator[str]:
    """What follows in the function of the program: its commands."""
    top = helps[0]
    yield "  case $state in"
    yield "  command)"
    yield "    local -a known=("
    yield from (f"      '{it.term}:{zsh_text(it.text)}'" for it in top.lists["commands"])
    yield from ("    )", "    _describe command known ;;", "  operand)", "    case $words[1] in")
    yield from (f"    {it.words.split()[1]}) __{it.page} ;;" for it in commands(helps))
    yield from ("    esac ;;", "  esac")


def zsh(helps: list[Help]) -> str:
    """The completions of zsh."""
    lines = [f"#compdef {' '.join(it.words for it in programs(helps))}", HEAD.format(shell="zsh")]
    lines += ["__race_names() {", "  local -a names=(${=\"$(" + EXPLAIN + ")\"})", "  compadd -a names", "}", ""]
    for it in helps:
        lines += zsh_function(it)
        if "commands" in it.lists:
            lines[-1:] = [lines[-1], *zsh_top(helps)]
        lines += ["}", ""]
    lines += ["case $service in"] + [f"{it.words}) __{it.page} \"$@\" ;;" for it in programs(helps)] + ["esac"]
    return "\n".join(lines) + "\n"


FISH_ACTIONS = {"folders": "-x -a '(__fish_complete_directories)'", "files": "-r -F", "nothing": "-x"}


def fish_text(text: str) -> str:
    return "'" + text.replace("\\", "\\\\").replace("'", "\\'").replace("`", "") + "'"


def fish_option(entry: Entry, where: str) -> str:
    """The line of an option."""
    names = " ".join(f"-l {it[2:]}" if it.startswith("--") else f"-s {it[1:]}" for it in flags(entry))
    what = kind(entry)
    action = f"-x -a '{' '.join(choices(entry))}'" if what == "words" else FISH_ACTIONS.get(what, "")
    return " ".join(it for it in (where, names, action, "-d", fish_text(entry.text)) if it)


def fish_operands(help_: Help) -> Iterator[str]:
    where = f"complete -c {help_.words}"
    if operands(help_) == "command":
        yield f"{where} -x -a '(__fish_complete_subcommand)'"
    elif operands(help_) == "names":
        yield f"{where} -x -a \"({EXPLAIN} | tr ' ' \\n)\""
    elif operands(help_) == "folders":
        yield f"{where} -x -a '(__fish_complete_directories)'"


def fish(helps: list[Help]) -> str:
    """The completions of fish."""
    names = " ".join(it.words.split()[1] for it in commands(helps))
    lines = [HEAD.format(shell="fish"), f"set -l race_commands {names}", ""]
    for it in helps:
        command = it.words.partition(" ")[2]
        where = f"complete -c race -n '__fish_seen_subcommand_from {command}'" if command else f"complete -c {it.words}"
        if "commands" in it.lists:
            where += ' -n "not __fish_seen_subcommand_from $race_commands"'
            lines += [f"{where} -f -a {entry.term} -d {fish_text(entry.text)}" for entry in it.lists["commands"]]
        lines += [*(fish_option(entry, where) for entry in options(it)), *(fish_operands(it) if not command else []), ""]
    return "\n".join(lines).rstrip("\n") + "\n"


SHELLS = {"race.bash": bash, "_race": zsh, "race.fish": fish}
