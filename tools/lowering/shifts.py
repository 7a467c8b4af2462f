"""Shifts, rotations and single bits."""
from typing import Callable

from lowering.arithmetic import Arithmetic, two, want_register, want_width
from lowering.reading import Immediate, Instruction, Memory, Operand, Refused, Register
from lowering.writing import A, O, RCX, V


class Shifts(Arithmetic):
    """By a number, and by the number in CL bit by bit."""

    def shifting(self, item: Instruction) -> None:
        count, target = item.operands if len(item.operands) == 2 else (Immediate("1"), item.operands[0])
        word = {"sal": "shl"}.get(item.name, item.name)
        if isinstance(count, Register):
            self.by_register(word, want_register(target, "a shift by CL"), item.width)
            return
        assert isinstance(count, Immediate)
        by = (count.number() or 0) % (64 if item.width == 64 else 32)
        if by == 0:
            self.only("")
        elif item.width == 64 and isinstance(target, Register) and word != "sar" and self.needed <= {"e", "b", "a"}:
            if self.kept:
                self.move(target.number, V)
            self.shift(word, by, target.number)
            self.replayed = f"{word} {by}"
        else:
            self.by_immediate(word, by, target, item.width)

    def by_immediate(self, word: str, by: int, target: Operand, width: int) -> None:
        address, above = self.place(target), 64 - width
        self.fetch(target, address, width, V)
        if word == "sar":
            self.shift("shl", above, V)
            self.arithmetic_shift(min(above + by, 63))
            self.clear_above(width, V)
        else:
            self.shift("shl", above, V)
            self.logical_shift(word, by)
            self.shift("shr", above, V)
        self.finish(target, address, width, lambda: self.flags_of(width))

    def logical_shift(self, word: str, by: int) -> None:
        if by < 64:
            self.shift(word, by, V)
        else:
            self.number(0, V)

    def arithmetic_shift(self, by: int) -> None:
        """V by a number of bits, as a number with a sign."""
        self.shift("shr", by, V)
        self.number(1 << (63 - by), O)
        self.op("xor", O, V)
        self.op("sub", O, V)

    def bits_of_count(self, width: int, each: Callable[[int], None]) -> None:
        """For each bit of the number in O, what is done where it is 1."""
        for bit in range(6 if width == 64 else 5):
            over = self.label()
            self.number(1 << bit, A)
            self.op("test", A, O)
            self.jump("e", over)
            each(1 << bit)
            self.put(f"{over}:")

    def by_register(self, word: str, target: Register, width: int) -> None:
        """By the number in CL, bit by bit."""
        self.only("")
        if word in ("shr", "sar"):
            self.clean(target, width, V)
        else:
            self.value(target, width, V)
        if word == "sar":
            self.extend(width, V, A)
            self.move(V, A)
            self.shift("shr", 63, A)
            self.number(0, O)
            self.op("sub", A, O)
            self.push(O)
            self.op("xor", O, V)
        self.move(RCX, O)
        self.bits_of_count(width, lambda by: self.shift("shl" if word == "shl" else "shr", by, V))
        if word == "sar":
            self.pop(O)
            self.op("xor", O, V)
        self.clear_above(width, V)
        self.write(V, target)

    def rotate_by(self, by: int, width: int, scratch: int) -> None:
        """V, with zeros above it, to the left."""
        if by % width:
            self.move(V, scratch)
            self.shift("shl", by % width, V)
            self.shift("shr", width - by % width, scratch)
            self.op("or", scratch, V)
            self.clear_above(width, V)

    def rotating(self, item: Instruction) -> None:
        count, target = item.operands if len(item.operands) == 2 else (Immediate("1"), item.operands[0])
        width, left = item.width, item.name == "rol"
        if isinstance(count, Register):
            want_register(target, "a rotation by CL")
            self.clean(target, width, V)
            self.move(RCX, O)
            self.bits_of_count(width, lambda by: self.rotate_by(by if left else -by, width, A))
            address = None
        else:
            assert isinstance(count, Immediate)
            by = (count.number() or 0) % (64 if width == 64 else 32)
            address = self.place(target)
            self.fetch(target, address, width, V)
            self.clear_above(width, V)
            self.rotate_by(by if left else -by, width, O)
        self.finish(target, address, width, lambda: None)

    def double_shift(self, item: Instruction) -> None:
        """SHLD and SHRD of 64 bits by a number."""
        want_width(item, 64)
        self.only("")
        if len(item.operands) != 3 or not isinstance(item.operands[0], Immediate):
            raise Refused(f"`{item.name}` by CL is not rewritten")
        count, source, target = item.operands
        into, by = want_register(target, f"`{item.name}`"), (count.number() or 0) % 64
        if by:
            word, other = ("shl", "shr") if item.name == "shld" else ("shr", "shl")
            self.value(source, 64, O)
            self.shift(other, 64 - by, O)
            self.shift(word, by, into.number)
            self.op("or", O, into.number)

    def bit(self, item: Instruction) -> None:
        """BT: CF is the bit."""
        index, target = two(item)
        if isinstance(target, Memory) and not isinstance(index, Immediate):
            raise Refused("`bt` of memory by a register is not rewritten")
        self.only("b")
        self.value(target, item.width, V)
        if isinstance(index, Immediate):
            self.shift("shr", (index.number() or 0) % item.width, V)
        else:
            self.value(index, item.width, O)
            self.bits_of_count(item.width, lambda by: self.shift("shr", by, V))
        self.by_number("and", 1, V, O)
        self.move(V, O)
        self.number(0, V)
        self.replay("cmp")

    def change_bit(self, item: Instruction) -> None:
        """BTS, BTR and BTC."""
        index, target = two(item)
        want_width(item, 32, 64)
        self.only("")
        into = want_register(target, f"`{item.name}`")
        self.number(1, V)
        if isinstance(index, Immediate):
            self.shift("shl", (index.number() or 0) % item.width, V)
        else:
            self.value(index, item.width, O)
            self.bits_of_count(item.width, lambda by: self.shift("shl", by, V))
        if item.name == "btr":
            self.by_number("xor", -1, V, O)
        self.op({"bts": "or", "btr": "and", "btc": "xor"}[item.name], V, into.number)
        self.clear_above(item.width, into.number)
