"""All guards of the recorder, by its folders; those of `make` in two parts."""

from importlib import import_module
from typing import List

from guard import Guard

PARTS = ("commands", "trace", "build", "words", "make", "ninja", "tools", "missing", "orders", "record")
GUARDS: List[Guard] = [guard for part in PARTS for guard in import_module("guard_" + part).GUARDS]
