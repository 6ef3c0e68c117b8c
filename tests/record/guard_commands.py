"""The guards of what command lines and the texts of scripts say; guard.py says what each part of one is."""

from typing import List

from guard import Guard, guards

GUARDS: List[Guard] = [
    *guards("commands/shelltext.py",
        ("what-find-does-beside", 'return "-delete" in argv', "shelltext.Words.removals"),
        ("status", "return name == 'rm' and not any(SAYS.fullmatch(word) for word in options)", "shelltext.Words.removals"),
        ("status", "return name == 'rm' and any(FORCES.fullmatch(word) for word in options)", "shelltext.Words.removals"),
    ),
]
