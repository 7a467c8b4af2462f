"""The instructions of a compiler, each by those of the table."""
from typing import Callable, Dict

from lowering.arithmetic import plain, two, want_register, want_width
from lowering.flags import OPPOSITES
from lowering.products import Products
from lowering.reading import NAMES, RSP, Immediate, Instruction, Memory, Operand, Refused, Register
from lowering.writing import A, Address, O, RAX, RBP, RCX, RDI, RDX, RSI, V


class Forms(Products):
    """One method for each form. `live` says that later instructions read flags which this one leaves alone."""

    live = False

    def rewrite(self, item: Instruction) -> None:
        stem, _, rest = item.name.partition(" ")
        if stem == "repeat":
            self.repeat(rest, item.width)
        elif stem in ("movz", "movs"):
            self.extending(stem, int(rest), item)
        elif stem in ("set", "cmov", "jump"):
            {"set": self.set_byte, "cmov": self.move_where, "jump": self.jump_where}[stem](rest, item)
        else:
            FORMS[stem](self, item)

    # ---- Moves

    def moving(self, item: Instruction) -> None:
        source, target = two(item)
        if isinstance(target, Memory):
            self.to_memory(source, target, item.width)
        elif item.width == 64:
            if isinstance(source, Memory):
                self.load(self.address(source), 64, target.number)
            else:
                self.value(source, 64, target.number)
        elif item.width == 32:
            self.to_half(source, target)
        elif item.width == 8:
            self.to_byte(source, target)
        else:
            self.clean(source, item.width, V)
            self.write(V, target)

    def to_memory(self, source: Operand, target: Memory, width: int) -> None:
        address = self.address(target)
        if plain(source) and width in (8, 64):
            assert isinstance(source, Register)
            self.store(source.number, address, width)
        else:
            self.value(source, width, V)
            self.store(V, address, width)

    def to_half(self, source: Operand, target: Register) -> None:
        if isinstance(source, Memory):
            self.load(self.address(source), 32, V)
            self.move(V, target.number)
        elif isinstance(source, Immediate) and source.number() is None:
            self.value(source, 64, target.number)
        else:
            self.clean(source, 32, target.number)

    def to_byte(self, source: Operand, target: Register) -> None:
        if target.high:
            raise Refused("nothing is written into bits 8 to 15 of a register")
        if isinstance(source, Memory):
            self.load_byte(self.address(source), target.number)
        elif plain(source):
            assert isinstance(source, Register)
            self.low_byte(source.number, target.number)
        else:
            self.value(source, 8, V)
            self.low_byte(V, target.number)

    def extending(self, stem: str, narrow: int, item: Instruction) -> None:
        """MOVZX and MOVSX."""
        source, target = two(item)
        into = want_register(target, f"`{item.name}`")
        if stem == "movz" and narrow == 8 and into.width >= 32 and self.zero_extended_byte(source, into.number):
            return
        self.clean(source, narrow, V)
        if stem == "movs":
            self.extend(narrow, V, O)
            self.clear_above(item.width, V)
        self.write(V, into)

    def zero_extended_byte(self, source: Operand, target: int) -> bool:
        """Without a change of flags, if that can be had."""
        if isinstance(source, Memory):
            address = self.address(source)
            if address.base == target:
                self.move(target, A)
                address = address._replace(base=A)
            self.number(0, target)
            self.load_byte(address, target)
        elif plain(source) and self.live:
            assert isinstance(source, Register)
            self.push(source.number)
            self.number(0, target)
            self.move(RSP, A)
            self.load_byte(Address(A, 0), target)
            self.pop(A)
        elif plain(source):
            assert isinstance(source, Register)
            self.move(source.number, target)
            self.by_number("and", 255, target, O)
        else:
            return False
        return True

    def address_of(self, item: Instruction) -> None:
        """LEA."""
        memory, target = two(item)
        into = want_register(target, "an address")
        want_width(item, 32, 64)
        assert isinstance(memory, Memory)
        if memory.index is None and memory.base is None:
            text = f"{memory.symbol}{memory.displacement:+d}" if memory.symbol else str(memory.displacement & (2**64 - 1))
            self.put(f"movabsq ${text}, {into.text()}")
        elif memory.index is None and not memory.symbol:
            self.sum_of(memory, into)
        else:
            address = self.address(memory)
            if address.displacement:
                self.by_number("add", address.displacement, A, O)
            self.move(A, into.number)
        if item.width == 32:
            self.clear_above(32, into.number)

    def sum_of(self, memory: Memory, into: Register) -> None:
        """A base and a displacement."""
        assert memory.base is not None
        displacement = memory.displacement + (self.depth if memory.base == RSP else 0)
        if not displacement:
            self.move(memory.base, into.number)
        elif memory.base == into.number:
            self.by_number("add", displacement, into.number, O)
        else:
            self.number(displacement, into.number)
            self.op("add", memory.base, into.number)

    def exchange(self, item: Instruction) -> None:
        one, other = two(item)
        want_width(item, 32, 64)
        first, second = want_register(one, "an exchange"), want_register(other, "an exchange")
        self.move(first.number, V)
        self.move(second.number, first.number)
        self.move(V, second.number)
        if item.width == 32:
            self.clear_above(32, first.number)
            self.clear_above(32, second.number)

    def repeat(self, word: str, width: int) -> None:
        """REP STOS and REP MOVS, upwards."""
        head, end = self.label(), self.label()
        self.number(width // 8, V)
        self.number(1, O)
        self.put(f"{head}:")
        self.op("test", RCX, RCX)
        self.jump("e", end)
        if word == "movs":
            self.load(Address(RSI, 0), width, A)
            self.op("add", V, RSI)
        self.store(A if word == "movs" else RAX, Address(RDI, 0), width)
        self.op("add", V, RDI)
        self.op("sub", O, RCX)
        self.put(f"{{disp32}} jmp {head}")
        self.put(f"{end}:")

    def spread(self, item: Instruction) -> None:
        """CQO and CDQ: RDX has the sign of RAX."""
        self.move(RAX, V)
        self.shift("shl", 64 - item.width, V)
        self.sign(V, RDX, V)
        self.clear_above(item.width, RDX)

    def widen(self, item: Instruction) -> None:
        """CDQE, CWDE and CBW: RAX from half its width."""
        self.value(Register(RAX, 64), 64, V)
        self.extend(item.width // 2, V, O)
        self.clear_above(item.width, V)
        self.write(V, Register(RAX, item.width))

    # ---- Conditions

    def zero_or_one(self, condition: str, target: int) -> None:
        over = self.label()
        self.number(0, target)
        self.jump(OPPOSITES[condition], over)
        self.number(1, target)
        self.put(f"{over}:")

    def set_byte(self, condition: str, item: Instruction) -> None:
        (target,) = item.operands
        if isinstance(target, Memory):
            self.zero_or_one(condition, V)
            self.store_byte(V, self.address(target))
        else:
            assert isinstance(target, Register)
            self.zero_or_one(condition, A)
            self.write(A, target)

    def move_where(self, condition: str, item: Instruction) -> None:
        """CMOV: of 32 bits it clears those above in either case."""
        source, target = two(item)
        want_width(item, 32, 64)
        into, over = want_register(target, "`cmov`"), self.label()
        if isinstance(source, Memory):
            self.zero_or_one(condition, O)
            self.push(O)
            self.value(source, item.width, V)
            self.pop(O)
            self.op("test", O, O)
            self.jump("e", over)
            self.move(V, into.number)
        else:
            assert isinstance(source, Register)
            self.jump(OPPOSITES[condition], over)
            self.move(source.number, into.number)
        self.put(f"{over}:")
        self.clear_above(item.width, into.number)

    def jump_where(self, condition: str, item: Instruction) -> None:
        self.jump(condition, item.target)

    # ---- Going on elsewhere

    def go(self, item: Instruction) -> None:
        if item.target:
            self.put(f"{{disp32}} jmp {item.target}")
            return
        self.value(item.operands[0], 64, V)
        self.put("pushq %r14")
        self.put("ret")

    def call(self, item: Instruction) -> None:
        if item.target:
            self.put(f"call {item.target}")
            return
        back = self.label()
        self.value(item.operands[0], 64, V)
        self.put(f"movabsq ${back}, %r13")
        self.put("pushq %r13")
        self.put("pushq %r14")
        self.put("ret")
        self.put(f"{back}:")

    def to_stack(self, item: Instruction) -> None:
        (source,) = item.operands
        want_width(item, 64)
        self.put(f"pushq %{NAMES[64][self.register_of(source)]}")

    def from_stack(self, item: Instruction) -> None:
        (target,) = item.operands
        want_width(item, 64)
        if plain(target):
            assert isinstance(target, Register)
            self.put(f"popq {target.text()}")
        else:
            assert isinstance(target, Memory)
            self.put("popq %r14")
            self.store(V, self.address(target), 64)

    def leave(self, _: Instruction) -> None:
        self.move(RBP, RSP)
        self.put("popq %rbp")

    def as_it_is(self, item: Instruction) -> None:
        if item.name != "nop":
            self.put(item.name)


FORMS: Dict[str, Callable[[Forms, Instruction], None]] = {
    **{word: Forms.arithmetic for word in ("add", "sub", "and", "or", "xor")},
    **{word: Forms.shifting for word in ("shl", "sal", "shr", "sar")},
    **{word: Forms.rotating for word in ("rol", "ror")},
    **{word: Forms.double_shift for word in ("shld", "shrd")},
    **{word: Forms.change_bit for word in ("bts", "btr", "btc")},
    **{word: Forms.with_carry for word in ("adc", "sbb")},
    **{word: Forms.step for word in ("inc", "dec")},
    **{word: Forms.multiply for word in ("imul", "mul")},
    **{word: Forms.as_it_is for word in ("ret", "nop", "ud2", "enclu")},
    "cmp": Forms.compare, "test": Forms.test, "neg": Forms.negate, "not": Forms.invert, "bt": Forms.bit, "div": Forms.divide,
    "idiv": Forms.divide_signed, "mov": Forms.moving, "movabs": Forms.moving, "lea": Forms.address_of, "xchg": Forms.exchange,
    "spread": Forms.spread, "extend": Forms.widen, "jmp": Forms.go, "call": Forms.call, "push": Forms.to_stack, "pop": Forms.from_stack,
    "leave": Forms.leave,
}
