"""Products and quotients."""
from lowering.arithmetic import want_register, want_width
from lowering.reading import NAMES, Instruction, Operand, Register
from lowering.shifts import Shifts
from lowering.writing import A, O, RAX, RDX, V


class Products(Shifts):
    """Those of 64 bits are in the table but for signs and the upper half of a product."""

    def multiply(self, item: Instruction) -> None:
        self.only("")
        if len(item.operands) == 1:
            self.long_product(item)
            return
        *sources, target = item.operands
        into = want_register(target, "a product")
        want_width(item, 16, 32, 64)
        if len(sources) == 1 and item.width == 64:
            self.op("imul", self.register_of(sources[0]), into.number)
            return
        self.value(sources[-1], item.width, V)
        self.value(sources[0] if len(sources) == 2 else target, item.width, O)
        self.op("imul", O, V)
        self.clear_above(item.width, V)
        self.write(V, into)

    def long_product(self, item: Instruction) -> None:
        """MUL and IMUL of one operand: the product has twice the width."""
        (source,), width, signed = item.operands, item.width, item.name == "imul"
        if width == 64:
            self.product_of_64(source, signed)
            return
        want_width(item, *((32,) if signed else (8, 32)))
        self.clean(source, width, O)
        self.clean(Register(RAX, width), width, V)
        if signed:
            self.extend(width, O, A)
            self.extend(width, V, A)
        self.op("imul", O, V)
        if width == 8:
            self.write(V, Register(RAX, 16))
            return
        self.move(V, RAX)
        self.clear_above(32, RAX)
        self.move(V, RDX)
        self.shift("shr", 32, RDX)

    def product_of_64(self, source: Operand, signed: bool) -> None:
        """RDX and RAX get the product of RAX, by halves of 32 bits."""
        self.value(source, 64, O)
        self.push(RAX)
        self.push(O)
        self.move(RAX, V)
        self.move(O, RDX)
        self.shift("shr", 32, RAX)
        self.shift("shr", 32, RDX)
        self.clear_above(32, V)
        self.clear_above(32, O)
        self.move(V, A)
        self.op("imul", O, A)
        self.shift("shr", 32, A)
        self.op("imul", RDX, V)
        self.op("imul", RAX, O)
        self.op("imul", RAX, RDX)
        for part in (V, O):
            self.move(part, RAX)
            self.shift("shr", 32, part)
            self.op("add", part, RDX)
            self.clear_above(32, RAX)
            self.op("add", RAX, A)
        self.shift("shr", 32, A)
        self.op("add", A, RDX)
        self.pop(O)
        self.pop(RAX)
        if signed:
            self.subtract_where_negative(RAX, O)
            self.subtract_where_negative(O, RAX)
        self.op("imul", O, RAX)

    def sign(self, source: int, target: int, scratch: int) -> None:
        """All ones where the number is negative, else zero."""
        self.move(source, scratch)
        self.shift("shr", 63, scratch)
        self.number(0, target)
        self.op("sub", scratch, target)

    def subtract_where_negative(self, tested: int, amount: int) -> None:
        """Takes the amount from RDX where the other is negative."""
        self.sign(tested, A, V)
        self.op("and", amount, A)
        self.op("sub", A, RDX)

    def divide(self, item: Instruction) -> None:
        (source,), width = item.operands, item.width
        self.only("")
        want_width(item, 8, 32, 64)
        if width == 8:
            self.divide_bytes(source)
            return
        if width == 64:
            self.put(f"divq %{NAMES[64][self.register_of(source)]}")
            return
        self.clean(source, width, V)
        if width == 32:
            self.clear_above(32, RAX)
            self.shift("shl", 32, RDX)
            self.op("or", RDX, RAX)
            self.number(0, RDX)
        self.put("divq %r14")

    def divide_bytes(self, source: Operand) -> None:
        """AX by a byte: AL is the quotient, AH the remainder."""
        self.clean(source, 8, V)
        self.push(RDX)
        self.push(RAX)
        self.clear_above(16, RAX)
        self.number(0, RDX)
        self.put("divq %r14")
        self.move(RDX, V)
        self.shift("shl", 8, V)
        self.op("or", RAX, V)
        self.clear_above(16, V)
        self.pop(RAX)
        self.pop(RDX)
        self.write(V, Register(RAX, 16))

    def divide_signed(self, item: Instruction) -> None:
        """RAX by the operand, both with signs, as C divides; RDX is RAX's sign."""
        (source,), width = item.operands, item.width
        self.only("")
        want_width(item, 32, 64)
        self.clean(source, width, V)
        self.extend(width, V, O)
        self.extend(width, RAX, O)
        self.sign(RAX, RDX, A)
        self.push(RDX)
        self.op("xor", RDX, RAX)
        self.op("sub", RDX, RAX)
        self.sign(V, O, A)
        self.op("xor", O, V)
        self.op("sub", O, V)
        self.number(0, RDX)
        self.put("divq %r14")
        self.pop(A)
        self.op("xor", A, RDX)
        self.op("sub", A, RDX)
        self.op("xor", A, O)
        self.op("xor", O, RAX)
        self.op("sub", O, RAX)
        self.clear_above(width, RAX)
        self.clear_above(width, RDX)
