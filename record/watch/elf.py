"""Programs in ELF, as far as a make needs that: whether it shows its names to a library, and a copy that loads one more library."""

import os
import struct
from dataclasses import dataclass
from itertools import takewhile
from typing import Dict, List, Sequence, Tuple

LOAD, DYNAMIC, LOADER, NOTE, PROPERTY = 1, 2, 3, 4, 0x6474E553  # kinds of segments
END, NEEDED, STRINGS, SIZE = 0, 1, 5, 10  # tags of the dynamic section
READ_WRITE = 6
PAGE = 1 << 16  # a size that each kind of machine takes


class NotElf(Exception):
    """A file is no program in ELF that loads libraries, or has no room for one more segment."""


@dataclass
class Segment:
    """One program header."""

    kind: int
    flags: int
    offset: int
    address: int
    physical: int
    size: int
    memory: int
    align: int


class Program:
    """A program in ELF that loads libraries."""

    def __init__(self, data: bytes) -> None:
        if data[:4] != b"\x7fELF" or data[4] not in (1, 2) or data[5] not in (1, 2):
            raise NotElf("it is no program in ELF")
        self.data, is_long, order = data, data[4] == 2, "<" if data[5] == 1 else ">"
        self.word = order + ("qQ" if is_long else "iI")
        self.header = order + ("IIQQQQQQ" if is_long else "IIIIIIII")
        self.fields = ("kind flags offset address physical size memory align" if is_long else "kind offset address physical size memory flags align").split()
        self.table, = struct.unpack_from(order + ("Q" if is_long else "I"), data, 32 if is_long else 28)
        step, count = struct.unpack_from(order + "HH", data, 54 if is_long else 42)
        headers = (struct.unpack_from(self.header, data, self.table + at * step) for at in range(count))
        self.segments = [Segment(**dict(zip(self.fields, header))) for header in headers]
        self.dynamic = self.read_dynamic()

    def packed(self, one: Segment) -> bytes:
        """A program header as bytes."""
        return struct.pack(self.header, *(getattr(one, name) for name in self.fields))

    def read_dynamic(self) -> List[Tuple[int, int]]:
        """The dynamic section: tags and values, without its end."""
        found = next((one for one in self.segments if one.kind == DYNAMIC), None)
        if found is None:
            raise NotElf("it loads no libraries: it is linked statically")
        pairs = struct.iter_unpack(self.word, self.data[found.offset:found.offset + found.size])
        return [(tag, value) for tag, value in takewhile(lambda pair: pair[0] != END, pairs)]

    def strings(self) -> bytes:
        """The names that it shows, or asks of libraries, each behind a zero byte."""
        known: Dict[int, int] = dict(self.dynamic)
        try:
            address, size = known[STRINGS], known[SIZE]
            at = next(one.offset + address - one.address for one in self.segments if one.kind == LOAD and one.address <= address < one.address + one.size)
        except (KeyError, StopIteration):
            raise NotElf("its names cannot be found") from None
        return self.data[at:at + size]

    def loader(self) -> List[str]:
        """The program that the kernel starts in its place, as it is spelled there."""
        return [os.fsdecode(self.data[one.offset:one.offset + one.size].rstrip(b"\0")) for one in self.segments if one.kind == LOADER][:1]

    def shows(self, names: Sequence[str]) -> bool:
        """Whether it shows all these names; one may stand at the end of a longer one."""
        strings = self.strings()
        return all(name.encode() + b"\0" in strings for name in names)

    def with_library(self, path: str) -> bytes:
        """A copy that loads a library, by its whole path, in front of all others. It has one more segment behind the others, with another
        dynamic section and another table of names; the place for it in the list of segments was that of a note, which nothing runs by."""
        strings = self.strings()
        spare = next((at for kind in (NOTE, PROPERTY) for at, one in enumerate(self.segments) if one.kind == kind), None)
        if spare is None:
            raise NotElf("it has no room for one more segment")
        offset = -(-len(self.data) // PAGE) * PAGE
        address = -(-max(one.address + one.memory for one in self.segments if one.kind == LOAD) // PAGE) * PAGE
        names = strings + path.encode() + b"\0"
        names += b"\0" * (-len(names) % 16)
        changed = {STRINGS: address, SIZE: len(names)}
        pairs = [(NEEDED, len(strings)), *((tag, changed.get(tag, value)) for tag, value in self.dynamic), (END, 0)]
        section = b"".join(struct.pack(self.word, *pair) for pair in pairs)
        size = len(names) + len(section)
        left = [one for at, one in enumerate(self.segments) if at != spare]
        left = [Segment(DYNAMIC, one.flags, offset + len(names), address + len(names), address + len(names), len(section), len(section), one.align)
                if one.kind == DYNAMIC else one for one in left]
        last = max(at for at, one in enumerate(left) if one.kind == LOAD) + 1
        left.insert(last, Segment(LOAD, READ_WRITE, offset, address, address, size, size, PAGE))
        table = b"".join(map(self.packed, left))
        data = self.data[:self.table] + table + self.data[self.table + len(table):]
        return data + b"\0" * (offset - len(data)) + names + section
