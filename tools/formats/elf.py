"""Linked programs for x86-64, as far as an image is made of them: their sections, symbols and entry (ELF-64 Object File Format)."""
import struct
from dataclasses import dataclass
from typing import Dict, List, NamedTuple, NoReturn

EXECUTABLE, X86_64 = 2, 62
SYMBOLS, RELOCATIONS, NO_BYTES = 2, (4, 9), 8
WRITABLE, ALLOCATED, EXECUTED = 1, 2, 4
UNDEFINED, NUMBERS = 0, 0xFF00


class ElfFault(Exception):
    """Why a file is no program that an image can be made of."""


@dataclass
class Section:
    """A section that is in memory when the program runs."""

    name: str
    address: int
    size: int
    flags: int
    data: bytes

    def perms(self) -> str:
        if self.flags & WRITABLE and self.flags & EXECUTED:
            fail(f"the section `{self.name}` is to be written and to be executed, and no page is both")
        return "rw" if self.flags & WRITABLE else "rx" if self.flags & EXECUTED else "r"


class Symbol(NamedTuple):
    """A name of an address, and how many bytes it names; 0 where that is not told."""

    name: str
    address: int
    size: int


@dataclass
class Program:
    """A linked program."""

    sections: List[Section]
    symbols: Dict[str, Symbol]


def fail(why: str) -> NoReturn:
    raise ElfFault(why)


def name_at(names: bytes, place: int) -> str:
    return names[place : names.index(b"\0", place)].decode("utf-8", "replace")


def read_symbols(data: bytes, names: bytes) -> Dict[str, Symbol]:
    """The symbols of sections; others are numbers, and names of files."""
    symbols = {}
    for name, _, _, section, value, size in struct.iter_unpack("<IBBHQQ", data):
        if name and UNDEFINED < section < NUMBERS:
            symbols[name_at(names, name)] = Symbol(name_at(names, name), value, size)
        elif name and section == UNDEFINED:
            fail(f"the symbol `{name_at(names, name)}` is not defined")
    return symbols


def check_head(data: bytes) -> None:
    if data[:6] != b"\x7fELF\x02\x01" or len(data) < 64:
        fail("no ELF file of 64 bits, little-endian")
    kind, machine = struct.unpack_from("<HH", data, 16)
    if machine != X86_64:
        fail("no program for x86-64")
    if kind != EXECUTABLE:
        fail("no linked program at fixed addresses: link it, with -static and -no-pie")


def read_program(data: bytes) -> Program:
    """The program of an ELF file; an ElfFault tells why there is none."""
    check_head(data)
    try:
        return program_of(data)
    except (struct.error, ValueError, IndexError) as why:
        raise ElfFault("a damaged ELF file") from why


def program_of(data: bytes) -> Program:
    (start,) = struct.unpack_from("<Q", data, 40)
    size, count, names_at = struct.unpack_from("<HHH", data, 58)
    heads = [struct.unpack_from("<IIQQQQIIQQ", data, start + size * i) for i in range(count)]

    def bytes_of(head: tuple) -> bytes:
        return data[head[4] : head[4] + head[5]]

    sections, symbols = [], {}
    for head in heads:
        name, kind, flags, address = name_at(bytes_of(heads[names_at]), head[0]), *head[1:4]
        if kind == SYMBOLS:
            symbols = read_symbols(bytes_of(head), bytes_of(heads[head[6]]))
        elif flags & ALLOCATED and head[5]:
            if kind in RELOCATIONS:
                fail(f"the section `{name}` has relocations that are not resolved")
            sections.append(Section(name, address, head[5], flags, b"" if kind == NO_BYTES else bytes_of(head)))
    return Program(sorted(sections, key=lambda section: section.address), symbols)
