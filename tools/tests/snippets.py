"""Random pieces of assembly with numbers for their registers, for a comparison of what a processor makes of them and what the program
makes of them after tools/lower. The numbers are the same each time."""
import random
from typing import List, NamedTuple

REGISTERS = {64: "rax rcx rdx rbx rbp rsi r8 r9 r10 r11 r12".split(), 32: "eax ecx edx ebx ebp esi r8d r9d r10d r11d r12d".split(),
             16: "ax cx dx bx bp si r8w r9w r10w r11w r12w".split(), 8: "al cl dl bl bpl sil r8b r9b r10b r11b r12b".split()}
LETTERS = {64: "q", 32: "l", 16: "w", 8: "b"}
SAVED = "rbx rbp r12".split()
STATE_BYTES, MEMORY_AT, ANSWERS_AT = 256, 128, 96
ANY = "e ne b ae a be l ge g le s ns".split()
COMPARED = "e ne b ae a be l ge g le".split()
SIGNED = "e ne s ns".split()
WIDTHS = (64, 32, 16, 8)
CORNERS = [0, 1, 2, 127, 128, 255, 256, 2**31 - 1, 2**31, 2**32 - 1, 2**32, 2**63 - 1, 2**63, 2**64 - 1]


class Form(NamedTuple):
    """An instruction as a template, its widths, and the lists of conditions that may be asked of its flags after it. In the template
    `{w}` is the letter of the width, `{s}` any source, `{r}`, `{t}` registers, `{d}` a register or memory, `{m}` memory, `{n}` a number
    with a sign, `{k}` a number of bits, `{l1}` and `{l2}` labels; `{r64}`, `{d8}` and their like are of that many bits."""

    template: str
    widths: "tuple[int, ...]" = WIDTHS
    asked: "tuple[List[str], ...]" = ()


SETTING = [
    *(Form(f"{word}{{w}} {{s}}, {{r}}", WIDTHS, (COMPARED, SIGNED)) for word in ("add", "sub", "cmp")),
    *(Form(f"{word}{{w}} {{k}}, {{d}}", WIDTHS, (COMPARED, SIGNED)) for word in ("add", "sub", "cmp")),
    *(Form(f"{word}{{w}} {{r}}, {{d}}", WIDTHS, (COMPARED, SIGNED)) for word in ("add", "sub", "cmp")),
    *(Form(f"{word}{{w}} {{s}}, {{r}}", WIDTHS, (ANY,)) for word in ("and", "or", "xor")),
    *(Form(f"{word}{{w}} {{r}}, {{d}}", WIDTHS, (ANY,)) for word in ("and", "or", "xor", "test")),
    Form("cmp{w} $0, {d}", WIDTHS, (ANY,)), Form("test{w} $127, {d}", WIDTHS, (ANY,)), Form("xor{w} {r}, {r}", WIDTHS, (ANY,)),
    Form("neg{w} {d}", WIDTHS, (COMPARED, SIGNED)), Form("inc{w} {d}", WIDTHS, (SIGNED,)), Form("dec{w} {d}", WIDTHS, (SIGNED,)),
    *(Form(f"{word}{{w}} {{k}}, {{d}}", WIDTHS, (SIGNED,)) for word in ("shl", "shr", "sar")),
    *(Form(f"{word}{{w}} {{d}}", WIDTHS, (SIGNED,)) for word in ("shl", "shr", "sar")),
    Form("shrq {k}, {r}", (64,), (["e", "b", "a"],)), Form("bt{w} {r}, {t}", (64, 32), (["b", "ae"],)), Form("bt{w} {k}, {r}", (64, 32), (["b", "ae"],)),
    *(Form(f"addq %rax, %rbx\n\t{word}{{w}} {{s}}, {{r}}", (64, 32), (["b", "ae"],)) for word in ("adc", "sbb")),
]
NEUTRAL = [
    Form("mov{w} {s}, {r}"), Form("mov{w} {r}, {d}"), Form("mov{w} {n}, {d}"), Form("movabsq $0x123456789abcdef0, {r}", (64,)),
    *(Form(f"mov{kind}{{w}} {{d{narrow}}}, {{r}}", widths) for kind, narrow, widths in (
        ("zb", 8, (64, 32, 16)), ("sb", 8, (64, 32, 16)), ("zw", 16, (64, 32)), ("sw", 16, (64, 32)), ("sl", 32, (64,)))),
    Form("movzbl %ah, %ebx", (32,)), Form("movzbl %dh, %edx", (32,)), Form("movb %ch, %al", (8,)),
    Form("lea{w} {n1}({r64},{t64},4), {r}", (64, 32)), Form("lea{w} (,{r64},8), {r}", (64, 32)), Form("lea{w} -9({r64}), {r}", (64, 32)),
    Form("lea{w} ({r64},{t64}), {t}", (64, 32)), Form("leaq cell+8(%rip), {r}\n\tmovl $1, {r32}", (64,)), Form("not{w} {d}"),
    Form("xchg{w} {r}, {t}", (64, 32)), Form("cltq", (64,)), Form("cwtl", (64,)),
    Form("cqto", (64,)), Form("cltd", (64,)), Form("movl {r}, 12(%rsp)\n\tmovzwl 12(%rsp), {t}", (32,)), Form("movw {n16}, 20(%rsp)\n\tmovl 20(%rsp), {r}", (32,)),
]
SILENT = [
    Form("rol{w} {k}, {d}"), Form("ror{w} {k}, {d}"),
    Form("imul{w} {s}, {r}", (64, 32, 16)), Form("imul{w} {n}, {d}, {r}", (64, 32)), Form("mul{w} {d}", (64, 32, 8)), Form("imul{w} {d}", (64, 32)),
    *(Form(f"{word}{{w}} %cl, {{r}}") for word in ("shl", "shr", "sar", "rol", "ror")),
    *(Form(f"{word}{{w}} {{k}}, {{r}}, {{t}}", (64,)) for word in ("shld", "shrd")),
    *(Form(f"{word}{{w}} {{r}}, {{t}}", (64, 32)) for word in ("bts", "btr", "btc")),
    *(Form(f"{word}{{w}} {{k}}, {{t}}", (64, 32)) for word in ("bts", "btr", "btc")),
    Form("movq %rax, %r8\n\torq $1, %rbx\n\txorl %edx, %edx\n\tdivq %rbx", (64,)), Form("orl $1, %ebx\n\txorl %edx, %edx\n\tdivl %ebx", (64,)),
    Form("imulq $6, %rbx, %rbx\n\taddq $3, %rbx\n\tcqto\n\tidivq %rbx", (64,)), Form("imull $6, %ebx, %ebx\n\taddl $3, %ebx\n\tcltd\n\tidivl %ebx", (64,)),
    Form("movzbl %al, %eax\n\torb $1, %bl\n\tdivb %bl", (64,)), Form("orl $1, 128(%rdi)\n\txorl %edx, %edx\n\tdivl 128(%rdi)", (64,)),
    Form("pushq {d}\n\tpopq {t}", (64,)), Form("pushq {n}\n\tpopq {m}", (64,)), Form("pushq {r}\n\tmovq (%rsp), {t}\n\taddq $8, %rsp", (64,)),
    Form("subq $40, %rsp\n\tmovl {r32}, 12(%rsp)\n\tmovq {r}, 24(%rsp)\n\tleaq 8(%rsp), {t}\n\tmovl 12(%rsp), {t32}\n\taddq 24(%rsp), {t}\n\taddq $40, %rsp", (64,)),
    Form("movl $3, %ecx\n\tpushq %rdi\n\taddq $128, %rdi\n\trep stosq\n\tpopq %rdi", (64,)),
    Form("movl $20, %ecx\n\tpushq %rdi\n\tleaq 128(%rdi), %rsi\n\taddq $160, %rdi\n\trep movsb\n\tpopq %rdi\n\tmovl $1, %esi", (64,)),
    Form("leaq {l1}(%rip), {r}\n\tjmp *{r}\n\tud2\n{l1}:\tmovl $1, {r32}", (64,)), Form("movq ${l1}, {r}\n\tcall *{r}\n\tjmp {l2}\n{l1}:\tmovl $7, {r32}\n\tret\n{l2}:", (64,)),
    Form("movl $1, %esi\n\tmovq 128(%rdi,%rsi,8), %rbx\n\tmovb %r9b, 130(%rdi,%rsi,4)\n\taddw $9, 128(%rdi,%rsi,2)", (64,)),
    Form("movl $1, %esi\n\tmovq cell(,%rsi,8), %rcx\n\tmovq cell(%rsi), %r12\n\tmovq cell(%rip), %r9\n\tmovl $1, %esi\n\tmovzbl cell(%rsi,%rsi,8), %r10d", (64,)),
    *(Form(f"cmpq {{s64}}, {{r64}}\n\tcmov{condition} {{r}}, {{t}}", (64, 32)) for condition in ("e", "ne", "b", "ae", "a", "be", "l", "ge", "g", "le")),
    *(Form(f"testq {{r64}}, {{r64}}\n\tcmov{condition} 136(%rdi), {{t}}", (64, 32)) for condition in ("s", "ns", "g")),
    Form("cmpq {r64}, {t64}\n\tseta %al\n\tmovzbl %al, %eax\n\tcmpq {t64}, {r64}\n\tsetb %bl\n\tmovzbl %bl, %ebx", (64,)),
]


class Snippets:
    """A source of pieces, and of the numbers in their registers."""

    def __init__(self, seed: int):
        self.source = random.Random(seed)
        self.labels = 0

    def register(self, width: int) -> str:
        return "%" + self.source.choice(REGISTERS[width])

    def label(self) -> str:
        self.labels += 1
        return f".Lhere{self.labels}"

    def memory(self) -> str:
        return f"{MEMORY_AT + self.source.randrange(40)}(%rdi)"

    def signed(self, width: int) -> str:
        most = min(width, 32) - 1
        return f"${self.source.choice([self.source.randrange(-2**most, 2**most), self.source.randrange(-3, 4), -2**most, 2**most - 1])}"

    def part(self, letter: str, width: int) -> str:
        choice = self.source.choice
        kinds = {"r": self.register, "t": self.register, "m": lambda _: self.memory(), "n": self.signed,
                 "k": lambda _: f"${self.source.randrange(1, min(width, 32))}", "d": choice([self.register, lambda _: self.memory()]),
                 "s": choice([self.register, self.signed, lambda _: self.memory()])}
        return kinds[letter](width)

    def filled(self, form: Form) -> str:
        """An instruction of the form; a letter names the same operand each time, register of every width."""
        width = self.source.choice(form.widths)
        chosen = {"r": self.source.randrange(11), "t": self.source.randrange(11)}
        text = form.template.replace("{w}", LETTERS[width])
        for letter, number in chosen.items():
            for bits in WIDTHS:
                text = text.replace(f"{{{letter}{bits}}}", "%" + REGISTERS[bits][number])
            text = text.replace(f"{{{letter}}}", "%" + REGISTERS[width][number])
        text = text.replace("{n1}", str(self.source.randrange(-99, 99))).replace("{l1}", self.label()).replace("{l2}", self.label())
        for letter in "dsmnk":
            for bits in WIDTHS:
                if f"{{{letter}{bits}}}" in text:
                    text = text.replace(f"{{{letter}{bits}}}", self.part(letter, bits))
            if f"{{{letter}}}" in text:
                text = text.replace(f"{{{letter}}}", self.part(letter, width))
        return text

    def asking(self, conditions: List[str]) -> List[str]:
        """Some of the conditions, told into memory; and a jump over an instruction."""
        lines = []
        for place, condition in enumerate(self.source.sample(conditions, self.source.randint(1, len(conditions)))):
            if self.source.random() < 0.3:
                over = self.label()
                lines += [f"j{condition} {over}", f"movb $5, {ANSWERS_AT + place}(%rdi)", f"{over}:"]
            else:
                lines.append(f"set{condition} {ANSWERS_AT + place}(%rdi)")
            if self.source.random() < 0.3:
                lines.append(self.filled(self.source.choice(NEUTRAL)))
        return lines

    def snippet(self, number: int) -> str:
        """A form and what asks for its flags, with instructions in between that leave them; or one that nobody asks."""
        form = (SETTING + NEUTRAL + SILENT)[number % len(SETTING + NEUTRAL + SILENT)]
        lines = [self.filled(form)]
        if form.asked and self.source.random() < 0.8:
            lines += [self.filled(self.source.choice(NEUTRAL)) for _ in range(self.source.randint(0, 2))]
            lines += self.asking(self.source.choice(form.asked))
        return "\n\t".join(lines)

    def number(self) -> int:
        return self.source.choice([*CORNERS, self.source.getrandbits(64), self.source.getrandbits(64), self.source.getrandbits(8), self.source.getrandbits(32)])

    def state(self) -> bytes:
        """Numbers for the registers, and bytes of memory."""
        return b"".join(self.number().to_bytes(8, "little") for _ in range(STATE_BYTES // 8))


def function_of(name: str, snippet: str) -> str:
    """A function that takes the registers from where RDI points, and puts them there again."""
    lines = [f"{name}:", *(f"\tpushq %{register}" for register in SAVED), "\tpushq $12345", "\tpushq $77777", "\tpushq $0"]
    lines += [f"\tmovq {8 * place}(%rdi), %{register}" for place, register in enumerate(REGISTERS[64])]
    lines += [f"\t{snippet}"]
    lines += [f"\tmovq %{register}, {8 * place}(%rdi)" for place, register in enumerate(REGISTERS[64])]
    return "\n".join([*lines, "\taddq $24, %rsp", *(f"\tpopq %{register}" for register in SAVED[::-1]), "\tret", ""])
