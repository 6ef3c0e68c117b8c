"""Turns a guard off in the modules that are loaded: its edit mostly changes functions alone, and these get the code of the edited text.

That leaves the same as to load the edited module again, with all that import it, where nothing has called these functions by then, no value was
computed by them, and all else of the module is the same. Where one of these does not hold, `patches` says None.
"""

import gc
import sys
from contextlib import contextmanager
from types import CodeType, FunctionType
from typing import Any, Dict, Iterator, List, Optional, Set, Tuple

HANDLERS = tuple(name for name in ("co_exceptiontable",) if hasattr(CodeType, name))  # before Python 3.11 they stand in `co_code`
SAME = ("co_code", "co_names", "co_varnames", "co_freevars", "co_cellvars", "co_flags", "co_argcount", "co_kwonlyargcount", "co_posonlyargcount",
        "co_name", *HANDLERS)
IS_FUNCTION = 0x1  # of `co_flags`: a function has it, and a module or a class has not
Patch = Tuple[FunctionType, CodeType]


class Loaded:
    """What ran while modules were loaded, and their functions."""

    def __init__(self) -> None:
        self.ran: Set[int] = set()  # codes, by id: each stands in a function or in a code that was kept
        self.functions: Dict[int, FunctionType] = {}  # by id of their code

    @contextmanager
    def watching(self) -> Iterator[None]:
        """Notes what runs meanwhile, and then which functions there are."""
        ran = self.ran
        older = sys.getprofile()
        sys.setprofile(lambda frame, event, _: ran.add(id(frame.f_code)) if event == "call" else None)
        try:
            yield
        finally:
            sys.setprofile(older)
        gc.unfreeze()
        self.functions = {id(one.__code__): one for one in gc.get_objects() if isinstance(one, FunctionType)}
        gc.freeze()

    def patches(self, old: CodeType, new: CodeType) -> Optional[List[Patch]]:
        """The functions of a module whose code is another one in an edited text, each with that; None where it must be loaded again."""
        pairs = differing(old, new)
        if pairs is None or any(id(code) in self.ran or id(code) not in self.functions for code, _ in pairs):
            return None
        if any(code.co_freevars != fresh.co_freevars for code, fresh in pairs):
            return None
        return [(self.functions[id(code)], fresh) for code, fresh in pairs]


def plain(value: Any) -> Any:
    """A constant so that others are not equal to it, as `1` and `True` are."""
    return (tuple, tuple(map(plain, value))) if isinstance(value, tuple) else (type(value), repr(value) if isinstance(value, (float, complex)) else value)


def codes(code: CodeType) -> List[CodeType]:
    """The functions and classes in a code."""
    return [one for one in code.co_consts if isinstance(one, CodeType)]


def alike(old: CodeType, new: CodeType) -> bool:
    """Whether two codes do the same, except what is in their functions and classes. Their lines may be other ones."""
    constants = [[None if isinstance(one, CodeType) else plain(one) for one in code.co_consts] for code in (old, new)]
    return constants[0] == constants[1] and all(getattr(old, name) == getattr(new, name) for name in SAME)


def is_same(old: CodeType, new: CodeType) -> bool:
    """The same, with all that is in them."""
    return alike(old, new) and all(map(is_same, codes(old), codes(new)))


def differing(old: CodeType, new: CodeType) -> Optional[List[Tuple[CodeType, CodeType]]]:
    """The functions of a module or class that do other things than before; None where the module or a class itself does, or what it computes."""
    if not alike(old, new):
        return None
    found: List[Tuple[CodeType, CodeType]] = []
    for one, other in zip(codes(old), codes(new)):
        if one.co_flags & IS_FUNCTION:
            found += [] if is_same(one, other) else [(one, other)]
        else:
            inner = differing(one, other)
            if inner is None:
                return None
            found += inner
    return found


def apply(patches: List[Patch]) -> None:
    """Gives functions their other codes."""
    for function, code in patches:
        function.__code__ = code
