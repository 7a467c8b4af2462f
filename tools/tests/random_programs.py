"""Programs at random, mostly of instructions that docs/INSTRUCTIONS.md has. Where one comes to its end it puts its registers and the
outcomes of all conditions out. The same seed gives the same program."""
import random

from formats.images import PAGE_SIZE, Image, Page

BASE, DATA = 0x10000000, 0x10002000
STACK, DUMP = DATA + PAGE_SIZE + 1024, DATA + PAGE_SIZE + 2048
RAX, RDX, RSP, RSI, RDI, R14, R15 = 0, 2, 4, 6, 7, 14, 15
CORNERS = [0, 1, 2, 4, 255, 2**31, 2**32 - 1, 2**63 - 1, 2**63, 2**64 - 1]
REGISTERS, ARITHMETIC = (0x89, 0x8B), (0x01, 0x29, 0x21, 0x09, 0x31, 0x39, 0x85)
CONDITIONS = (0x82, 0x83, 0x84, 0x85, 0x8C, 0x8D, 0x8E, 0x8F)
LONGEST = 30


def wide(reg: int, rm: int) -> int:
    return 0x48 | reg >> 3 << 2 | rm >> 3


def of_registers(code: bytes, reg: int, rm: int) -> bytes:
    return bytes([wide(reg, rm), *code, 0xC0 | reg % 8 << 3 | rm % 8])


def of_memory(prefix: int, code: int, reg: int, rm: int, displacement: int) -> bytes:
    prefix |= reg >> 3 << 2 | rm >> 3
    return bytes([prefix, code, 0x80 | reg % 8 << 3 | rm % 8]) + displacement.to_bytes(4, "little", signed=True)


def number(reg: int, value: int) -> bytes:
    return bytes([wide(0, reg), 0xB8 | reg % 8]) + value.to_bytes(8, "little")


CALL = number(RAX, 4) + b"\x0f\x01\xd7"


def dump() -> bytes:
    """Puts out all registers but the last one, and for each condition 1 where it does not hold."""
    code = number(R15, DUMP) + b"".join(of_memory(0x48, 0x89, reg, R15, 8 * reg) for reg in range(15))
    for place, condition in enumerate(CONDITIONS):
        over = number(R14, 1)
        code += number(R14, 0) + bytes([0x0F, condition]) + len(over).to_bytes(4, "little") + over + of_memory(0x48, 0x89, R14, R15, 8 * (15 + place))
    for place in range(15 + len(CONDITIONS)):
        code += of_memory(0x48, 0x8B, RSI, R15, 8 * place) + number(RDI, 1) + CALL
    return code + number(RDI, 0) + CALL


class Instructions:
    """A source of instructions, of which some are no instructions."""

    def __init__(self, seed: int):
        self.source = random.Random(seed)

    def register(self) -> int:
        return self.source.randrange(16)

    def some_bytes(self, length: int) -> bytes:
        return self.source.getrandbits(8 * length).to_bytes(length, "little")

    def value(self) -> int:
        address = DATA + self.source.randrange(2 * PAGE_SIZE)
        return self.source.choice([self.source.choice(CORNERS), self.source.getrandbits(64), address, DATA + PAGE_SIZE - self.source.randrange(9), address])

    def numbered(self) -> bytes:
        return number(self.register(), self.value())

    def pair(self) -> bytes:
        code = self.source.choice([*([each] for each in REGISTERS + ARITHMETIC), [0x0F, 0xAF]])
        return of_registers(bytes(code), self.register(), self.register())

    def single(self) -> bytes:
        """A shift or a division."""
        rm, way = self.register(), self.source.choice([4, 5, 6])
        if way == 6:  # a quotient that fits, mostly
            return (number(RDX, 0) if self.source.random() < 0.9 else b"") + bytes([wide(0, rm), 0xF7, 0xC0 | way << 3 | rm % 8])
        return bytes([wide(0, rm), 0xC1, 0xC0 | way << 3 | rm % 8, self.source.choice([0, 1, 63, 64, 65, self.source.randrange(256)])])

    def accessing(self) -> bytes:
        """A load or a store by a register that mostly holds an address of the program."""
        rm = self.source.choice([reg for reg in range(16) if reg % 8 != 4])
        prefix, code = self.source.choice([(0x48, 0x89), (0x48, 0x8B), (0x40, 0x88), (0x40, 0x8A)])
        place = self.source.choice([self.source.randrange(2 * PAGE_SIZE), PAGE_SIZE - self.source.randrange(9), -self.source.randrange(9)])
        before = number(rm, DATA + place) if self.source.random() < 0.9 else b""
        return before + of_memory(prefix, code, self.register(), rm, self.source.choice([0, 0, 8, -8]))

    def stacking(self) -> bytes:
        reg = self.register()
        return bytes([0x41] * (reg >> 3) + [self.source.choice([0x50, 0x58]) | reg % 8])

    def jump(self) -> bytes:
        """Mostly forward, over an instruction."""
        code = self.source.choice([b"\xe9", b"\xe8", *(bytes([0x0F, condition]) for condition in CONDITIONS)])
        over = self.source.choice([self.numbered, self.pair, self.stacking])()
        far = len(over) if self.source.random() < 0.9 else self.source.randrange(-40, 40)
        return code + far.to_bytes(4, "little", signed=True) + over

    def rare(self) -> bytes:
        return self.source.choice([b"\x90", b"\xc3", b"\x0f\x0b", CALL, b"\x0f\x01\xd7", self.some_bytes(4), b"\x48" + self.some_bytes(6)])

    def one(self) -> bytes:
        kinds = [self.numbered, self.pair, self.pair, self.single, self.accessing, self.accessing, self.stacking, self.jump]
        return self.rare() if self.source.random() < 0.02 else self.source.choice(kinds)()

    def program(self) -> bytes:
        return number(RSP, STACK) + b"".join(self.one() for _ in range(self.source.randint(1, LONGEST))) + dump()


def random_program(seed: int) -> Image:
    """An image at random: two pages of code, where some programs lie across their border, and two of data."""
    made = Instructions(seed)
    program = made.program()
    entry = made.source.choice([0, 0, PAGE_SIZE - made.source.randrange(1, len(program))])
    code = bytes(entry) + program
    clusters = made.source.choice([4 * ["all"], ["code", "code", "data", "data"], ["a", "b", "c", "d"]])
    perms = ["rx", "rx", made.source.choice([*5 * ["rw"], "r"]), "rw"]
    data = [code[:PAGE_SIZE], code[PAGE_SIZE:], made.some_bytes(PAGE_SIZE), b""]
    return Image(BASE, entry, 4, "lab", [Page(*page) for page in zip(perms, clusters, data)])
