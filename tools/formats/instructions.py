"""Which machine instructions docs/INSTRUCTIONS.md has, and what to write in the place of others."""
import re
from typing import List, NamedTuple

W, W_B, N = rb"[\x48\x49\x4c\x4d]", rb"[\x48\x49]", rb"[\x40\x41\x44\x45]"
REGISTERS = rb"[\xc0-\xff]"
MEMORY = rb"[\x80-\x83\x85-\x8b\x8d-\x93\x95-\x9b\x9d-\xa3\xa5-\xab\xad-\xb3\xb5-\xbb\xbd-\xbf].{4}"
ROWS = re.compile(
    b"|".join([
        W_B + rb"[\xb8-\xbf].{8}",
        W + rb"[\x89\x8b](?:" + REGISTERS + rb"|" + MEMORY + rb")",
        N + rb"[\x88\x8a]" + MEMORY,
        W + rb"[\x01\x29\x21\x09\x31\x39\x85]" + REGISTERS,
        W + rb"\x0f\xaf" + REGISTERS,
        W_B + rb"\xc1[\xe0-\xef].",
        W_B + rb"\xf7[\xf0-\xf7]",
        rb"[\xe8\xe9].{4}",
        rb"\x0f[\x82-\x85\x8c-\x8f].{4}",
        rb"\x41?[\x50-\x5f]",
        rb"\xc3|\x90|\x0f\x0b|\x0f\x01\xd7",
    ]),
    re.DOTALL,
)

ARITHMETIC = ("add", "sub", "and", "or", "xor", "cmp", "test", "imul")
INSTEAD = {
    "lea": "mov, shl and add",
    "movzx": "a register that is 0, and {rex} {disp32} mov into its low byte",
    "leave": "mov rsp, rbp and pop rbp",
    "jmp": "{disp32} jmp to a label",
    "inc": "add of a register that has 1",
    "dec": "sub of a register that has 1",
}
LONG_JUMPS = ("jb", "jae", "je", "jne", "jl", "jge", "jle", "jg")


class Stranger(NamedTuple):
    """An instruction that the table does not have: its address, its bytes, how objdump spells it, and what to write."""

    address: int
    code: bytes
    spelled: str
    hint: str


def is_known(code: bytes) -> bool:
    """Whether these bytes are one instruction of the table."""
    return ROWS.fullmatch(code) is not None


def move_hint(operands: str) -> str:
    """What to write for a MOV."""
    memory = re.search(r"\[([^\]]*)\]", operands)
    if re.search(r",(?:0x|[0-9])", operands):
        return "the number into a register by movabs" + (", and mov from there" if memory else "")
    if memory is None:
        return "the form of 64 bits"
    if "*" in memory[1] or re.search(r"\+[re]", memory[1]):
        return "the index added to the base first"
    if re.match("rsp|r12", memory[1]):
        return "another base: RSP copied to a register"
    if memory[1].startswith("rip"):
        return "the address into a register by movabs"
    if "dword" in operands or " word" in operands:
        return "8 bytes, or one: {disp32} mov"
    return "{rex} {disp32} mov" if "byte" in operands else "{disp32} mov"


def hint_of(spelled: str) -> str:
    """What to write for an instruction, as objdump spells it."""
    name, _, operands = spelled.lower().partition(" ")
    if name in LONG_JUMPS:
        return f"{{disp32}} {name}"
    if name in INSTEAD:
        return INSTEAD[name]
    if name.startswith("j"):
        return "cmp the other way round, and another jump"
    if name.startswith(("set", "cmov")):
        return "a jump over a mov"
    if name in ("mov", "movabs"):
        return move_hint(operands)
    if name in ARITHMETIC and re.search(r",(?:0x|[0-9])", operands):
        return f"the number into a register by movabs, and {name} of it"
    if name in ARITHMETIC:
        return f"the operand into a register, and {name} of it" if "[" in operands else "the form of 64 bits"
    if name in ("shl", "shr", "sal"):
        return f"{name} by 65, which is by 1" if re.search(r"(?:,1|^\w+)$", operands.strip()) else "the form of 64 bits, by a number"
    return "none"


def strangers_of(listing: str) -> List[Stranger]:
    """The strangers of what `objdump -d -M intel --insn-width=16` lists."""
    strangers = []
    for address, code, spelled in re.findall(r"^ *([0-9a-f]+):\t((?:[0-9a-f]{2} )+) *\t(.*)$", listing, re.MULTILINE):
        data = bytes.fromhex(code)
        if not is_known(data):
            words = re.sub(r" *(?:#.*|<.*>)$", "", re.sub(" +", " ", spelled.strip()))
            strangers.append(Stranger(int(address, 16), data, words, hint_of(words)))
    return strangers
