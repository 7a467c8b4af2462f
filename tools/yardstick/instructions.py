"""The program's instructions (docs/INSTRUCTIONS.md): decoding, and one step over memory."""
from dataclasses import dataclass, field
from functools import lru_cache
from typing import Callable, List, NamedTuple, Optional, Tuple

PAGE_SIZE = 4096
LONGEST = 10
MASK = 2**64 - 1
TOP = 63
RAX, RCX, RDX, RSP, RSI, RDI = 0, 1, 2, 4, 6, 7
W_PREFIXES, N_PREFIXES = (0x48, 0x49, 0x4C, 0x4D), (0x40, 0x41, 0x44, 0x45)
ARITHMETIC = {0x01: "add", 0x29: "sub", 0x21: "and", 0x09: "or", 0x31: "xor", 0x39: "cmp", 0x85: "test"}


class Code(NamedTuple):
    """A decoded instruction: its name, its operands and its length."""

    name: str
    operands: Tuple[int, ...]
    length: int


class NeedMore(Exception):
    """The bytes are a proper prefix of an encoding."""


class Illegal(Exception):
    """The bytes are no encoding."""


class Trap(Exception):
    """A vector of the program."""

    def __init__(self, vector: int):
        super().__init__(vector)
        self.vector = vector


class Call(NamedTuple):
    """An ENCLU that calls out."""

    number: int
    argument: int


@dataclass
class Registers:
    """Sixteen registers, four flags and RIP."""

    gpr: List[int] = field(default_factory=lambda: 16 * [0])
    rip: int = 0
    cf: bool = False
    zf: bool = False
    sf: bool = False
    of: bool = False


Touch = Callable[[int, str], None]


class Bytes:
    """Bytes that are read one after the other."""

    def __init__(self, data: bytes):
        self.data = data
        self.place = 0

    def byte(self) -> int:
        if self.place == len(self.data):
            raise NeedMore
        self.place += 1
        return self.data[self.place - 1]

    def number(self, length: int, signed: bool = False) -> int:
        if len(self.data) - self.place < length:
            raise NeedMore
        self.place += length
        return int.from_bytes(self.data[self.place - length : self.place], "little", signed=signed)


@lru_cache(maxsize=4096)
def decode(data: bytes) -> Code:
    """The instruction that the bytes begin with."""
    code = Bytes(data)
    first = code.byte()
    if first in W_PREFIXES:
        name, operands = wide(code, 8 * (first >> 2 & 1), 8 * (first & 1))
    elif first in N_PREFIXES:
        name, operands = narrow(code, 8 * (first >> 2 & 1), 8 * (first & 1), first == 0x41)
    else:
        name, operands = bare(code, first)
    return Code(name, operands, code.place)


Parts = Tuple[str, Tuple[int, ...]]


def wide(code: Bytes, r: int, b: int) -> Parts:
    """After a prefix of 64 bits."""
    opcode = code.byte()
    if opcode & 0xF8 == 0xB8 and not r:
        return "mov_imm", (b + (opcode & 7), code.number(8))
    if opcode in (0x89, 0x8B):
        return moved(code, r, b, opcode)
    if opcode in ARITHMETIC:
        reg, rm = registers(code, r, b)
        return ARITHMETIC[opcode], (rm, reg)
    if opcode == 0x0F:
        if code.byte() != 0xAF:
            raise Illegal
        return "imul", registers(code, r, b)
    if opcode == 0xC1 and not r:
        way, rm = extension(code, b, {4: "shl", 5: "shr"})
        return way, (rm, code.byte())
    if opcode == 0xF7 and not r:
        return "div", (extension(code, b, {6: "div"})[1],)
    raise Illegal


def moved(code: Bytes, r: int, b: int, opcode: int) -> Parts:
    """A move between registers, or between a register and eight bytes."""
    modrm = code.byte()
    reg, rm = r + (modrm >> 3 & 7), b + (modrm & 7)
    if modrm >> 6 == 3:
        return "mov", (rm, reg) if opcode == 0x89 else (reg, rm)
    if modrm >> 6 == 2 and modrm & 7 != 4:
        return ("store" if opcode == 0x89 else "load"), (reg, rm, code.number(4, signed=True))
    raise Illegal


def registers(code: Bytes, r: int, b: int) -> Tuple[int, int]:
    modrm = code.byte()
    if modrm >> 6 != 3:
        raise Illegal
    return r + (modrm >> 3 & 7), b + (modrm & 7)


def extension(code: Bytes, b: int, names: "dict[int, str]") -> Tuple[str, int]:
    modrm = code.byte()
    if modrm >> 6 != 3 or (modrm >> 3 & 7) not in names:
        raise Illegal
    return names[modrm >> 3 & 7], b + (modrm & 7)


def narrow(code: Bytes, r: int, b: int, pushes: bool) -> Parts:
    """After a prefix of bytes, or of PUSH and POP."""
    opcode = code.byte()
    if pushes and opcode & 0xF0 == 0x50:
        return ("push" if opcode < 0x58 else "pop"), (8 + (opcode & 7),)
    if opcode not in (0x88, 0x8A):
        raise Illegal
    modrm = code.byte()
    if modrm >> 6 != 2 or modrm & 7 == 4:
        raise Illegal
    name = "store_byte" if opcode == 0x88 else "load_byte"
    return name, (r + (modrm >> 3 & 7), b + (modrm & 7), code.number(4, signed=True))


def bare(code: Bytes, first: int) -> Parts:
    if first & 0xF0 == 0x50:
        return ("push" if first < 0x58 else "pop"), (first & 7,)
    if first in (0xE8, 0xE9):
        return ("call" if first == 0xE8 else "jmp"), (code.number(4, signed=True),)
    if first in (0xC3, 0x90):
        return ("ret" if first == 0xC3 else "nop"), ()
    if first != 0x0F:
        raise Illegal
    second = code.byte()
    if second in (0x82, 0x83, 0x84, 0x85, 0x8C, 0x8D, 0x8E, 0x8F):
        return "jump_if", (second, code.number(4, signed=True))
    if second == 0x0B:
        return "ud2", ()
    if second == 0x01:
        if code.byte() != 0xD7:
            raise Illegal
        return "enclu", ()
    raise Illegal


class Processor:
    """One step of a program over its pages. Registers and bytes change only where a step completes."""

    def __init__(self, base: int, memory: bytearray, registers_of: Registers, touch: Touch):
        self.base = base
        self.memory = memory
        self.now = registers_of
        self.touch = touch

    # ---- memory

    def offset(self, address: int) -> int:
        """The place of an address of the program; vector 13 where it is none."""
        place = address - self.base
        if not 0 <= place < len(self.memory):
            raise Trap(13)
        return place

    def operand(self, address: int, length: int, kind: str) -> slice:
        """The places of an operand, whose one or two pages are accessed."""
        first, last = self.offset(address), self.offset((address + length - 1) & MASK)
        for page in range(first // PAGE_SIZE, last // PAGE_SIZE + 1):
            self.touch(page, kind)
        return slice(first, last + 1)

    def read(self, address: int, length: int) -> int:
        return int.from_bytes(self.memory[self.operand(address, length, "read")], "little")

    def write(self, address: int, value: int, length: int) -> None:
        self.memory[self.operand(address, length, "write")] = value.to_bytes(length, "little")

    def fetch(self) -> Code:
        """The instruction at RIP: its page, and the next one where its bytes go on there."""
        place = self.offset(self.now.rip)
        self.touch(place // PAGE_SIZE, "exec")
        end = (place // PAGE_SIZE + 1) * PAGE_SIZE
        try:
            return decode(bytes(self.memory[place : min(end, place + LONGEST)]))
        except NeedMore:
            self.touch(self.offset(self.base + end) // PAGE_SIZE, "exec")
        except Illegal as why:
            raise Trap(6) from why
        try:
            return decode(bytes(self.memory[place : place + LONGEST]))
        except (Illegal, NeedMore) as why:
            raise Trap(6) from why

    # ---- one step

    def step(self) -> Optional[Call]:
        """Completes an instruction; a Trap, or what `touch` raises, where it does not."""
        code = self.fetch()
        following = (self.now.rip + code.length) & MASK
        called = getattr(self, "do_" + code.name)(following, *code.operands)
        if isinstance(called, Call):
            return called
        self.now.rip = following if called is None else called
        return None

    def flags(self, result: int) -> None:
        self.now.zf, self.now.sf = result == 0, bool(result >> TOP)

    def do_enclu(self, following: int) -> Call:
        gpr = self.now.gpr
        if gpr[RAX] & 0xFFFFFFFF != 4:
            raise Trap(13)
        gpr[RCX] = self.now.rip = following
        return Call(gpr[RDI], gpr[RSI])

    def do_mov_imm(self, _: int, reg: int, value: int) -> None:
        self.now.gpr[reg] = value

    def do_mov(self, _: int, to: int, source: int) -> None:
        self.now.gpr[to] = self.now.gpr[source]

    def do_store(self, _: int, reg: int, rm: int, displacement: int) -> None:
        self.write((self.now.gpr[rm] + displacement) & MASK, self.now.gpr[reg], 8)

    def do_load(self, _: int, reg: int, rm: int, displacement: int) -> None:
        self.now.gpr[reg] = self.read((self.now.gpr[rm] + displacement) & MASK, 8)

    def do_store_byte(self, _: int, reg: int, rm: int, displacement: int) -> None:
        self.write((self.now.gpr[rm] + displacement) & MASK, self.now.gpr[reg] & 0xFF, 1)

    def do_load_byte(self, _: int, reg: int, rm: int, displacement: int) -> None:
        byte = self.read((self.now.gpr[rm] + displacement) & MASK, 1)
        self.now.gpr[reg] = self.now.gpr[reg] & ~0xFF | byte

    def do_add(self, _: int, rm: int, reg: int) -> None:
        a, b = self.now.gpr[rm], self.now.gpr[reg]
        result = (a + b) & MASK
        self.now.cf, self.now.of = a + b > MASK, bool((a ^ result) & (b ^ result) & 1 << TOP)
        self.flags(result)
        self.now.gpr[rm] = result

    def difference(self, rm: int, reg: int) -> int:
        a, b = self.now.gpr[rm], self.now.gpr[reg]
        result = (a - b) & MASK
        self.now.cf, self.now.of = a < b, bool((a ^ b) & (a ^ result) & 1 << TOP)
        self.flags(result)
        return result

    def do_sub(self, _: int, rm: int, reg: int) -> None:
        self.now.gpr[rm] = self.difference(rm, reg)

    def do_cmp(self, _: int, rm: int, reg: int) -> None:
        self.difference(rm, reg)

    def logic(self, result: int) -> int:
        self.now.cf = self.now.of = False
        self.flags(result)
        return result

    def do_and(self, _: int, rm: int, reg: int) -> None:
        self.now.gpr[rm] = self.logic(self.now.gpr[rm] & self.now.gpr[reg])

    def do_or(self, _: int, rm: int, reg: int) -> None:
        self.now.gpr[rm] = self.logic(self.now.gpr[rm] | self.now.gpr[reg])

    def do_xor(self, _: int, rm: int, reg: int) -> None:
        self.now.gpr[rm] = self.logic(self.now.gpr[rm] ^ self.now.gpr[reg])

    def do_test(self, _: int, rm: int, reg: int) -> None:
        self.logic(self.now.gpr[rm] & self.now.gpr[reg])

    def do_imul(self, _: int, reg: int, rm: int) -> None:
        product = signed(self.now.gpr[reg]) * signed(self.now.gpr[rm])
        result = product & MASK
        self.now.cf = self.now.of = signed(result) != product
        self.now.sf = bool(result >> TOP)
        self.now.gpr[reg] = result

    def do_shl(self, _: int, rm: int, by: int) -> None:
        by, old = by % 64, self.now.gpr[rm]
        if by:
            result = old << by & MASK
            self.now.cf = bool(old >> 64 - by & 1)
            if by == 1:
                self.now.of = bool(result >> TOP) != self.now.cf
            self.flags(result)
            self.now.gpr[rm] = result

    def do_shr(self, _: int, rm: int, by: int) -> None:
        by, old = by % 64, self.now.gpr[rm]
        if by:
            self.now.cf = bool(old >> by - 1 & 1)
            if by == 1:
                self.now.of = bool(old >> TOP)
            self.flags(old >> by)
            self.now.gpr[rm] = old >> by

    def do_div(self, _: int, rm: int) -> None:
        gpr = self.now.gpr
        divisor = gpr[rm]
        if divisor == 0 or gpr[RDX] >= divisor:
            raise Trap(0)
        gpr[RAX], gpr[RDX] = divmod(gpr[RDX] << 64 | gpr[RAX], divisor)

    def do_jmp(self, following: int, displacement: int) -> int:
        return (following + displacement) & MASK

    def do_jump_if(self, following: int, condition: int, displacement: int) -> int:
        now = self.now
        less = now.sf != now.of
        holds = {0x82: now.cf, 0x84: now.zf, 0x8C: less, 0x8E: now.zf or less}
        taken = holds[condition] if condition in holds else not holds[condition - 1]
        return (following + displacement) & MASK if taken else following

    def do_call(self, following: int, displacement: int) -> int:
        below = (self.now.gpr[RSP] - 8) & MASK
        self.write(below, following, 8)
        self.now.gpr[RSP] = below
        return (following + displacement) & MASK

    def do_ret(self, _: int) -> int:
        address = self.read(self.now.gpr[RSP], 8)
        self.now.gpr[RSP] = (self.now.gpr[RSP] + 8) & MASK
        return address

    def do_push(self, _: int, reg: int) -> None:
        below = (self.now.gpr[RSP] - 8) & MASK
        self.write(below, self.now.gpr[reg], 8)
        self.now.gpr[RSP] = below

    def do_pop(self, _: int, reg: int) -> None:
        value = self.read(self.now.gpr[RSP], 8)
        self.now.gpr[RSP] = (self.now.gpr[RSP] + 8) & MASK
        self.now.gpr[reg] = value

    def do_nop(self, _: int) -> None:
        """Nothing."""

    def do_ud2(self, _: int) -> None:
        raise Trap(6)


def signed(value: int) -> int:
    return value - 2**64 if value >> TOP else value

