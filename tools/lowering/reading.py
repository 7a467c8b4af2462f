"""Assembly as gcc writes it (AT&T syntax): lines, instructions and operands."""
import re
from typing import List, NamedTuple, Optional, Tuple, Union

WORDS = {"b": 8, "w": 16, "l": 32, "q": 64}
OLD = ("ax", "cx", "dx", "bx", "sp", "bp", "si", "di")
NAMES = {64: [f"r{name}" for name in OLD] + [f"r{n}" for n in range(8, 16)],
         32: [f"e{name}" for name in OLD] + [f"r{n}d" for n in range(8, 16)],
         16: list(OLD) + [f"r{n}w" for n in range(8, 16)],
         8: ["al", "cl", "dl", "bl", "spl", "bpl", "sil", "dil"] + [f"r{n}b" for n in range(8, 16)]}
HIGH = ("ah", "ch", "dh", "bh")
RSP = 4


class Refused(Exception):
    """Why an instruction is not rewritten."""


class Register(NamedTuple):
    """A general register; `high` is bits 8 to 15 of one of the first four."""

    number: int
    width: int
    high: bool = False

    def text(self) -> str:
        """Its whole 64 bits."""
        return f"%{NAMES[64][self.number]}"


class Immediate(NamedTuple):
    """A number, or an address that the linker fills in."""

    text: str

    def number(self) -> Optional[int]:
        return number_of(self.text)


class Memory(NamedTuple):
    """An operand in memory: a symbol or nothing, a displacement, a base and an index with its scale."""

    symbol: str
    displacement: int
    base: Optional[int]
    index: Optional[int]
    scale: int


Operand = Union[Register, Immediate, Memory]


class Instruction(NamedTuple):
    """An instruction: its number in the file, its text, its name without the letter of its width, its width and its operands. Of a
    jump and a call to a label `target` is the label."""

    line: int
    text: str
    name: str
    width: int
    operands: Tuple[Operand, ...]
    target: str = ""


class Other(NamedTuple):
    """A label, a directive, or a line that is kept as it is."""

    line: int
    text: str
    label: str = ""


Line = Union[Instruction, Other]

REGISTERS = {name: Register(number, width) for width, names in NAMES.items() for number, name in enumerate(names)}
REGISTERS.update({name: Register(number, 8, True) for number, name in enumerate(HIGH)})
CONDITIONS = {}
for spellings in ("e z", "ne nz", "b c nae", "ae nc nb", "a nbe", "be na", "l nge", "ge nl", "g nle", "le ng", "s", "ns", "o", "no", "p pe", "np po"):
    CONDITIONS.update({spelling: spellings.split()[0] for spelling in spellings.split()})
WIDE_NAMES = {
    "cltq": ("extend", 64), "cwtl": ("extend", 32), "cbtw": ("extend", 16), "cqto": ("spread", 64), "cltd": ("spread", 32),
    "ret": ("ret", 64), "leave": ("leave", 64), "nop": ("nop", 64), "ud2": ("ud2", 64), "enclu": ("enclu", 64), "endbr64": ("nop", 64),
}
SIZED = ("mov add sub and or xor cmp test imul mul div idiv neg not inc dec shl sal shr sar rol ror lea push pop xchg adc sbb bt bts btr btc"
         " shld shrd movabs nop call jmp ret").split()
EXTENDING = re.compile("mov([zs])([bwl])([wlq])")


def number_of(text: str) -> Optional[int]:
    return int(text, 0) if re.fullmatch("-?(?:0x[0-9a-fA-F]+|0|[1-9][0-9]*)", text) else None


def split_operands(text: str) -> List[str]:
    """The operands, at the commas outside parentheses."""
    return [part.strip() for part in re.split(r",(?![^(]*\))", text)] if text.strip() else []


def read_register(text: str) -> Register:
    name = text[1:]
    if not text.startswith("%") or name not in REGISTERS:
        raise Refused(f"`{text}` is no general register")
    return REGISTERS[name]


def read_address(text: str) -> Tuple[str, int]:
    """A symbol and a displacement."""
    found = re.fullmatch(r"([A-Za-z_.$][\w.$]*)?([+-]?\w+)?", text.replace(" ", ""))
    number = number_of((found[2] or "0").lstrip("+")) if found else None
    if found is None or number is None:
        raise Refused(f"the address `{text}` is no symbol and number")
    return found[1] or "", number


def read_memory(text: str) -> Memory:
    found = re.fullmatch(r"([^(]*)(?:\(([^)]*)\))?", text)
    if found is None or ":" in text:
        raise Refused(f"`{text}` is no plain operand in memory")
    symbol, displacement = read_address(found[1].strip())
    base, index, scale = [*(part.strip() for part in (found[2] or "").split(",")), "", ""][:3]
    parts = [read_register(part) for part in (base, index) if part and part != "%rip"]
    if any(part.width != 64 or part.high for part in parts):
        raise Refused(f"the address `{text}` is not of 64 bits")
    numbers = [read_register(part).number if part and part != "%rip" else None for part in (base, index)]
    return Memory(symbol, displacement, numbers[0], numbers[1], int(scale or "1", 0))


def read_operand(text: str) -> Operand:
    if text.startswith("%") and ":" not in text:
        return read_register(text)
    return Immediate(text[1:].replace(" ", "")) if text.startswith("$") else read_memory(text)


def split_name(name: str) -> Tuple[str, int]:
    """The name without the letter of its width, and the width, 0 where no letter tells it."""
    if name in WIDE_NAMES:
        return WIDE_NAMES[name]
    for stem in ("set", "cmov"):
        if name.startswith(stem):
            rest = name[len(stem) :]
            if rest in CONDITIONS:
                return f"{stem} {CONDITIONS[rest]}", 8 if stem == "set" else 0
            if rest[:-1] in CONDITIONS and rest[-1] in WORDS:
                return f"{stem} {CONDITIONS[rest[:-1]]}", WORDS[rest[-1]]
    if name.startswith("j") and name[1:] in CONDITIONS:
        return f"jump {CONDITIONS[name[1:]]}", 64
    if name in SIZED:
        return name, 0
    if name[:-1] in SIZED and name[-1] in WORDS:
        return name[:-1], WORDS[name[-1]]
    raise Refused(f"`{name}` has no form that is in the table")


def check_registers(operands: List[Operand]) -> None:
    """The registers that the rewriting takes for itself must be free."""
    for operand in operands:
        numbers = [operand.number] if isinstance(operand, Register) else [operand.base, operand.index] if isinstance(operand, Memory) else []
        for number in numbers:
            if number is not None and number >= 13:
                raise Refused(f"%{NAMES[64][number]} is taken: compile with -ffixed-r13 -ffixed-r14 -ffixed-r15")
        if isinstance(operand, Memory) and operand.base == RSP and operand.displacement < 0:
            raise Refused("it uses the bytes below RSP: compile with -mno-red-zone")


def read_repeated(line: int, text: str, words: List[str]) -> Instruction:
    """`rep stosq` and its like."""
    found = re.fullmatch("(stos|movs)([bq])", words[1]) if len(words) == 2 else None
    if found is None:
        raise Refused(f"`{text}` has no form that is in the table")
    return Instruction(line, text, f"repeat {found[1]}", WORDS[found[2]], ())


def read_jump(line: int, text: str, name: str, rest: str) -> Instruction:
    """A jump or a call: to a label, or by a register or memory."""
    if rest.startswith("*"):
        operands = [read_operand(rest[1:])]
        check_registers(operands)
        return Instruction(line, text, name, 64, tuple(operands))
    target = re.sub("@PLT$", "", rest)
    if not re.fullmatch(r"[A-Za-z_.$][\w.$]*", target):
        raise Refused(f"`{rest}` is no label with a name")
    return Instruction(line, text, name, 64, (), target)


def read_instruction(line: int, text: str) -> Instruction:
    """The instruction of a line."""
    name, _, rest = text.partition("\t") if "\t" in text else text.partition(" ")
    name, rest = name.strip(), rest.strip()
    if name in ("rep", "notrack", "bnd") and rest.split()[:1] in (["ret"], ["jmp"], ["call"]):
        return read_instruction(line, rest)
    if name == "lock":
        raise Refused("`lock` has no form that is in the table")
    if name in ("rep", "repz", "repe"):
        return read_repeated(line, text, text.split())
    extending = EXTENDING.fullmatch(name)
    if extending:
        operands = [read_operand(part) for part in split_operands(rest)]
        check_registers(operands)
        return Instruction(line, text, f"mov{extending[1]} {WORDS[extending[2]]}", WORDS[extending[3]], tuple(operands))
    stem, width = split_name(name)
    if stem in ("jmp", "call") or stem.startswith("jump "):
        return read_jump(line, text, stem, rest)
    if stem == "nop":
        return Instruction(line, text, "nop", 64, ())
    operands = [read_operand(part) for part in split_operands(rest)]
    check_registers(operands)
    if not width:
        width = next((operand.width for operand in reversed(operands) if isinstance(operand, Register)), 64)
    return Instruction(line, text, stem, width, tuple(operands))


def without_comment(text: str) -> str:
    """The line without what follows a `#` that stands in no string."""
    return re.sub(r'^((?:[^"#]|"(?:[^"\\]|\\.)*")*)#.*$', r"\1", text)


def read_lines(text: str) -> "Tuple[List[Line], List[Tuple[int, str, str]]]":
    """The lines of a file, and those that are refused: the number, the text and why."""
    lines: List[Line] = []
    refused = []
    for number, whole in enumerate(text.split("\n"), 1):
        rest = without_comment(whole).strip()
        while rest:
            label = re.match(r"([\w.$]+|\"[^\"]*\"):\s*", rest)
            if label:
                lines.append(Other(number, f"{label[1]}:", label[1]))
                rest = rest[label.end() :]
                continue
            if rest.startswith("."):
                lines.append(Other(number, f"\t{rest}"))
                break
            part, _, rest = rest.partition(";")
            rest = rest.strip()
            try:
                lines.append(read_instruction(number, part.strip()))
            except Refused as why:
                refused.append((number, part.strip(), str(why)))
    return lines, refused
