"""Sums, differences, comparisons and logic of any width, by those of 64 bits in registers."""
from typing import Callable, Optional, Tuple

from lowering.reading import Immediate, Instruction, Memory, Operand, Refused, Register
from lowering.writing import A, Address, O, V, Writer

LOGIC = ("and", "or", "xor")


def plain(operand: Operand) -> bool:
    """A register whose low bits are the operand."""
    return isinstance(operand, Register) and not operand.high


def two(item: Instruction) -> Tuple[Operand, Operand]:
    if len(item.operands) != 2:
        raise Refused(f"`{item.name}` has two operands here")
    return item.operands[0], item.operands[1]


def want_width(item: Instruction, *widths: int) -> None:
    if item.width not in widths:
        raise Refused(f"`{item.name}` of {item.width} bits is not rewritten")


def want_register(operand: Operand, what: str) -> Register:
    if not isinstance(operand, Register):
        raise Refused(f"{what} in memory is not rewritten")
    return operand


class Arithmetic(Writer):
    """Instructions whose operands are registers, numbers and memory, and what they give."""

    def finish(self, target: Operand, address: Optional[Address], width: int, flags: Callable[[], None]) -> None:
        """The value in V, with zeros above it, goes to its place; then come its flags."""
        if address is None:
            assert isinstance(target, Register)
            self.write(V, target)
        else:
            save = bool(self.needed) and width in (16, 32)
            if save:
                self.push(V)
            self.store(V, address, width)
            if save:
                self.pop(V)
        if self.needed:
            flags()

    def place(self, target: Operand) -> Optional[Address]:
        return self.address(target) if isinstance(target, Memory) else None

    def fetch(self, target: Operand, address: Optional[Address], width: int, into: int) -> None:
        """The low bits of what is at the place."""
        if address is None:
            self.value(target, width, into)
        else:
            self.load(address, width, into)

    def register_of(self, source: Operand) -> int:
        """The register that has the 64 bits of an operand: its own, or O."""
        if plain(source):
            assert isinstance(source, Register)
            return source.number
        self.value(source, 64, O)
        return O

    # ---- Sums and comparisons

    def arithmetic(self, item: Instruction) -> None:
        source, target = two(item)
        if isinstance(target, Register) and item.width >= 32:
            if source == target and item.name in ("xor", "sub"):
                self.zero(target)
            elif item.width == 64:
                self.whole(item.name, source, target)
            elif not self.needed:
                self.half(item.name, source, target)
            else:
                self.narrow(item.name, source, target, item.width)
        else:
            self.narrow(item.name, source, target, item.width)

    def zero(self, target: Register) -> None:
        self.number(0, target.number)
        if self.needed:
            self.number(0, V)
            self.replay("test")

    def whole(self, word: str, source: Operand, target: Register) -> None:
        """64 bits into a register: the table has the form, of registers."""
        if self.kept and word not in LOGIC and "s" not in self.needed:
            self.value(source, 64, O)
            self.move(target.number, V)
            self.op(word, O, target.number)
            self.replayed = "add" if word == "add" else "cmp"
            return
        self.op(word, self.register_of(source), target.number)
        if "s" in self.needed and word not in LOGIC:
            self.only("e s")
        if self.kept or ("s" in self.needed and word not in LOGIC):
            self.move(target.number, V)
            self.replay("test")

    def half(self, word: str, source: Operand, target: Register) -> None:
        """32 bits into a register, where nobody reads the flags."""
        if plain(source):
            assert isinstance(source, Register)
            self.op(word, source.number, target.number)
        else:
            self.clean(source, 32, O)
            self.op(word, O, target.number)
        if word != "and" or plain(source):
            self.clear_above(32, target.number)

    def narrow(self, word: str, source: Operand, target: Operand, width: int) -> None:
        """Any width, into a register or memory."""
        if isinstance(source, Memory):
            self.at_top(source, width, O)
        address = self.place(target)
        self.fetch(target, address, width, V)
        self.shift("shl", 64 - width, V)
        if not isinstance(source, Memory):
            self.at_top(source, width, O)
        self.op(word, O, V)
        self.shift("shr", 64 - width, V)

        def flags() -> None:
            self.shift("shl", 64 - width, V)
            if word in LOGIC or "s" in self.needed:
                if word not in LOGIC:
                    self.only("e s")
                self.replay("test")
            else:
                self.op("sub" if word == "add" else "add", O, V)
                self.replay("add" if word == "add" else "cmp")

        self.finish(target, address, width, flags)

    def both_at_top(self, source: Operand, target: Operand, width: int) -> None:
        """The operands at the top of O and V."""
        if isinstance(source, Memory):
            self.at_top(source, width, O)
            self.at_top(target, width, V)
        else:
            self.at_top(target, width, V)
            self.at_top(source, width, O)

    def compare(self, item: Instruction) -> None:
        source, target = two(item)
        if isinstance(source, Immediate) and source.number() == 0:
            self.compare_zero(target, item.width)
        elif item.width == 64 and plain(target) and not self.kept and "s" not in self.needed:
            assert isinstance(target, Register)
            self.op("cmp", self.register_of(source), target.number)
        else:
            self.both_at_top(source, target, item.width)
            if "s" in self.needed:
                self.only("e s")
                self.op("sub", O, V)
            self.replay("test" if "s" in self.needed else "cmp")

    def compare_zero(self, target: Operand, width: int) -> None:
        if width == 64 and plain(target) and not self.kept:
            assert isinstance(target, Register)
            self.op("test", target.number, target.number)
        else:
            self.at_top(target, width, V)
            self.replay("test")

    def test(self, item: Instruction) -> None:
        source, target = two(item)
        if source == target:
            self.compare_zero(target, item.width)
        elif item.width == 64 and plain(target) and not self.kept:
            assert isinstance(target, Register)
            self.op("test", self.register_of(source), target.number)
        else:
            self.both_at_top(source, target, item.width)
            self.op("and", O, V)
            self.replay("test")

    def negate(self, item: Instruction) -> None:
        (target,), width = item.operands, item.width
        address = self.place(target)
        self.fetch(target, address, width, O)
        self.shift("shl", 64 - width, O)
        self.number(0, V)
        self.op("sub", O, V)
        self.shift("shr", 64 - width, V)

        def flags() -> None:
            if "s" in self.needed:
                self.flags_of(width)
            else:
                self.number(0, V)
                self.replay("cmp")

        self.finish(target, address, width, flags)

    def invert(self, item: Instruction) -> None:
        self.arithmetic(item._replace(name="xor", operands=(Immediate("-1"), *item.operands)))

    def step(self, item: Instruction) -> None:
        """INC and DEC, which leave CF as it is."""
        self.only("e s l g")
        self.arithmetic(item._replace(name={"inc": "add", "dec": "sub"}[item.name], operands=(Immediate("1"), *item.operands)))

    def with_carry(self, item: Instruction) -> None:
        """ADC and SBB."""
        source, target = two(item)
        want_width(item, 32, 64)
        into, word, over = want_register(target, f"`{item.name}`"), {"adc": "add", "sbb": "sub"}[item.name], self.label()
        self.number(0, A)
        self.jump("ae", over)
        self.number(1 << (64 - item.width), A)
        self.put(f"{over}:")
        self.push(A)
        self.both_at_top(source, target, item.width)
        self.pop(A)
        self.op(word, O, V)
        self.number(0, O)
        for again in (True, False):
            over = self.label()
            self.jump("ae", over)
            self.number(1, O)
            self.put(f"{over}:")
            if again:
                self.op(word, A, V)
        self.shift("shr", 64 - item.width, V)
        self.write(V, into)
        if self.needed:
            self.only("b")
            self.number(0, V)
            self.replay("cmp")
