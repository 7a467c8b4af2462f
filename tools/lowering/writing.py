"""Writes instructions of the table. %r13 (A) has addresses, %r14 (V) and %r15 (O) values; the compiler leaves the three alone.

Narrow operands are shifted to the top of 64 bits, where an operation sets the flags as the narrow one does.
"""
from typing import FrozenSet, List, NamedTuple

from lowering.flags import NOTHING
from lowering.reading import NAMES, RSP, Immediate, Memory, Operand, Refused, Register

RAX, RCX, RDX, RBP, RSI, RDI, R12, A, V, O = 0, 1, 2, 5, 6, 7, 12, 13, 14, 15
JUMPS = ("b", "ae", "e", "ne", "l", "ge", "le", "g")
MASK = 2**64 - 1


class Address(NamedTuple):
    """Where an operand in memory is: a register and a displacement."""

    base: int
    displacement: int


def name(register: int) -> str:
    return f"%{NAMES[64][register]}"


class Writer:
    """Writes instructions. `depth` is how many bytes it has on the stack itself, `needed` which conditions a later instruction asks of
    the flags, `kept` whether V and O are to keep what sets them, and `replayed` how it does."""

    def __init__(self) -> None:
        self.out: List[str] = []
        self.labels = 0
        self.depth = 0
        self.needed: FrozenSet[str] = NOTHING
        self.kept = False
        self.replayed = ""

    # ---- Instructions of the table

    def put(self, text: str) -> None:
        self.out.append(text)

    def op(self, word: str, source: int, target: int) -> None:
        self.put(f"{word}q {name(source)}, {name(target)}")

    def move(self, source: int, target: int) -> None:
        if source != target:
            self.op("mov", source, target)

    def number(self, value: int, target: int) -> None:
        self.put(f"movabsq ${value & MASK}, {name(target)}")

    def shift(self, word: str, by: int, target: int) -> None:
        """By a number from 0 to 63. A shift by 1 has a short form that the table has not, and one by 65 is the same."""
        if by:
            self.put(f"{word}q ${65 if by == 1 else by}, {name(target)}")

    def by_number(self, word: str, value: int, target: int, scratch: int) -> None:
        self.number(value, scratch)
        self.op(word, scratch, target)

    def label(self) -> str:
        self.labels += 1
        return f".Llowered{self.labels}"

    def jump(self, condition: str, target: str) -> None:
        """Jumps where the condition holds."""
        if condition in JUMPS:
            self.put(f"{{disp32}} j{condition} {target}")
        elif condition in ("s", "ns"):
            self.jump({"s": "l", "ns": "ge"}[condition], target)
        elif condition == "be":
            self.jump("b", target)
            self.jump("e", target)
        elif condition == "a":
            over = self.label()
            self.jump("be", over)
            self.put(f"{{disp32}} jmp {target}")
            self.put(f"{over}:")
        else:
            raise Refused("no jump of the table asks for overflow or parity alone")

    def push(self, register: int) -> None:
        self.put(f"pushq {name(register)}")
        self.depth += 8

    def pop(self, register: int) -> None:
        self.put(f"popq {name(register)}")
        self.depth -= 8

    # ---- Memory

    def address(self, memory: Memory) -> Address:
        """The address, in A where no register alone has it; O may be lost, and flags too."""
        base, index, shift = memory.base, memory.index, memory.scale.bit_length() - 1
        displacement = memory.displacement + (self.depth if base == RSP else 0)
        if index is None and not memory.symbol:
            if base is None:
                self.number(displacement, A)
                return Address(A, 0)
            if base in (RSP, R12):
                self.move(base, A)
                base = A
            return Address(base, displacement)
        if index is not None:
            self.move(index, A)
            self.shift("shl", shift, A)
            if base is not None:
                self.op("add", base, A)
        if not memory.symbol:
            return Address(A, displacement)
        target = O if index is not None else A
        self.put(f"movabsq ${memory.symbol}{memory.displacement:+d}, {name(target)}")
        if index is not None:
            self.op("add", O, A)
        elif base is not None:
            self.op("add", base, A)
        return Address(A, self.depth if base == RSP else 0)

    def at(self, address: Address, more: int = 0) -> str:
        return f"{address.displacement + more}({name(address.base)})"

    def load_byte(self, address: Address, target: int, more: int = 0) -> None:
        """Into the low byte; the others stay."""
        self.put(f"{{rex}} {{disp32}} movb {self.at(address, more)}, %{NAMES[8][target]}")

    def store_byte(self, source: int, address: Address, more: int = 0) -> None:
        self.put(f"{{rex}} {{disp32}} movb %{NAMES[8][source]}, {self.at(address, more)}")

    def load(self, address: Address, width: int, target: int) -> None:
        """The low bits are those of memory; above a byte the others are 0, above 8 of them whatever they were."""
        if width == 64:
            self.put(f"{{disp32}} movq {self.at(address)}, {name(target)}")
            return
        if width > 8:
            self.number(0, target)
        for more in range(width // 8 - 1, -1, -1):
            self.load_byte(address, target, more)
            self.shift("shl", 8 if more else 0, target)

    def store(self, source: int, address: Address, width: int) -> None:
        """The low bits; the register is lost where they are 16 or 32."""
        if width == 64:
            self.put(f"{{disp32}} movq {name(source)}, {self.at(address)}")
            return
        for more in range(width // 8):
            self.shift("shr", 8 if more else 0, source)
            self.store_byte(source, address, more)

    # ---- Values

    def value(self, operand: Operand, width: int, target: int) -> None:
        """The operand's low bits; what is above them is not told. Of memory it uses A, and O before the load."""
        if isinstance(operand, Immediate):
            number = operand.number()
            self.put(f"movabsq ${operand.text if number is None else number & MASK}, {name(target)}")
        elif isinstance(operand, Memory):
            self.load(self.address(operand), width, target)
        else:
            self.move(operand.number, target)
            if operand.high:
                self.shift("shr", 8, target)

    def clear_above(self, width: int, target: int) -> None:
        self.shift("shl", 64 - width, target)
        self.shift("shr", 64 - width, target)

    def extend(self, width: int, target: int, scratch: int) -> None:
        """The sign of the low bits into those above."""
        if width < 64:
            self.clear_above(width, target)
            self.number(1 << (width - 1), scratch)
            self.op("xor", scratch, target)
            self.op("sub", scratch, target)

    def clean(self, operand: Operand, width: int, target: int) -> None:
        """The operand's value, with zeros above it."""
        number = operand.number() if isinstance(operand, Immediate) else None
        if number is not None:
            self.number(number & ((1 << width) - 1), target)
            return
        self.value(operand, width, target)
        if not (isinstance(operand, Memory) and width in (16, 32)):
            self.clear_above(width, target)

    def at_top(self, operand: Operand, width: int, target: int) -> None:
        """The operand's value, shifted to the top of 64 bits."""
        number = operand.number() if isinstance(operand, Immediate) else None
        if number is not None:
            self.number(number << (64 - width), target)
            return
        self.value(operand, width, target)
        self.shift("shl", 64 - width, target)

    def low_byte(self, source: int, target: int) -> None:
        """The low byte of a register into that of another, by way of the stack; no flag changes."""
        self.push(source)
        self.move(RSP, A)
        self.load_byte(Address(A, 0), target)
        self.pop(A)

    def write(self, source: int, target: Register) -> None:
        """A value with zeros above it into a register; V and A may be lost where it has 16 bits."""
        if target.high:
            raise Refused("nothing is written into bits 8 to 15 of a register")
        if target.width >= 32:
            self.move(source, target.number)
        elif target.width == 8:
            self.low_byte(source, target.number)
        else:
            self.shift("shr", 16, target.number)
            self.shift("shl", 16, target.number)
            self.op("or", source, target.number)

    # ---- Flags

    def replay(self, kind: str) -> None:
        """Sets the flags: of the comparison or the sum of V and O, of V alone, or of a shift of V."""
        self.replayed = kind
        if kind == "cmp":
            self.op("cmp", O, V)
        elif kind == "test":
            self.op("test", V, V)
        else:
            self.move(V, A)
            if kind == "add":
                self.op("add", O, A)
            else:
                self.shift(kind.split()[0], int(kind.split()[1]), A)

    def only(self, conditions: str) -> None:
        """Refuses where a later instruction asks for other conditions than these."""
        others = self.needed - set(conditions.split())
        if others:
            asked = ", ".join(f"`{condition}`" for condition in sorted(others))
            raise Refused(f"a later instruction asks for the condition {asked}, of which the table's form tells nothing")

    def flags_of(self, width: int) -> None:
        """The flags of the value in V, for `e` and `s`."""
        if self.needed:
            self.only("e s")
            self.shift("shl", 64 - width, V)
            self.replay("test")
