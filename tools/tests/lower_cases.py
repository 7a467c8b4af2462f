"""Tests of tools/lower: what it makes of C and of assembly gives what a processor gives. They want gcc and GNU binutils."""
import os
import random
import re
import subprocess
import tempfile
from typing import List

from formats.compiling import ASSEMBLY
from formats.images import PAGE_SIZE, read_image
from lowering.rewriting import rewrite
from tests.flat import FlatRun
from tests.harness import TOOLS, Tally, Told, call, written
from tests.program import Given, Program
from tests.snippets import STATE_BYTES, Snippets, function_of

PIECES, STATES, ROUNDS = 400, 3, 8
FUNCTIONS = os.path.join(TOOLS, "tests", "functions.c")
ENDING = "\tmovabsq $4, %rax\n\tmovabsq $0, %rdi\n\tmovabsq $0, %rsi\n\tenclu\n"
WRITING = """
#include <stdio.h>
extern unsigned char states[], states_end[];
extern void pieces(void);
int main(void) {
    pieces();
    fwrite(states, 1, states_end - states, stdout);
    return 0;
}
"""


def data_of(states: List[bytes]) -> str:
    rows = [f"\t.byte {','.join(map(str, state))}" for state in states]
    return "\n".join(["\t.data", "\t.globl states, states_end", "states:", *rows, "states_end:", "cell:\t.quad 1, 2, 3, 4", ""])


def pieces_text(pieces: List[str], states: List[bytes]) -> str:
    """All pieces, each on its own states, one after the other."""
    functions = [function_of(f"piece{number}", piece) for number, piece in enumerate(pieces)]
    calls = [f"\tleaq states+{STATE_BYTES * (number * STATES + turn)}(%rip), %rdi\n\tcall piece{number}" for number in range(len(pieces)) for turn in range(STATES)]
    return "\n".join(["\t.text", *functions, "\t.globl pieces", "pieces:", *calls, "\tret", data_of(states)])


def run_natively(folder: str, text: str) -> bytes:
    paths = [written(folder, "pieces.s", text), written(folder, "main.c", WRITING)]
    program = os.path.join(folder, "native")
    subprocess.run(["gcc", "-O1", "-no-pie", "-z", "noexecstack", "-o", program, *paths], check=True)
    return subprocess.run([program], check=True, capture_output=True).stdout


def run_lowered(folder: str, text: str, length: int) -> "tuple[bytes, str]":
    """The states afterwards, and what went wrong."""
    lowered, refusals = rewrite(text)
    if refusals:
        return b"", "\n".join(f"{refusal.text}: {refusal.why}" for refusal in refusals)
    start = f"\t.globl _start\n_start:\tmovabsq $stack, %rsp\n\tcall pieces\n{ENDING}\t.bss\n\t.space 4096\nstack:\n"
    paths = [written(folder, "lowered.s", lowered), written(folder, "start.s", start)]
    told = call("image", *paths, "--strict", folder=folder)
    if told.status:
        return b"", told.err
    image = read_image(told.out.encode())
    flat = FlatRun(image)
    ended = flat.run([])
    if ended.status is None:
        return b"", f"vector {ended.vector} at {flat.registers.rip:#x}"
    place = next(number for number, page in enumerate(image.pages) if page.perms == "rw") * PAGE_SIZE
    return bytes(flat.memory[place : place + length]), ""


def test_pieces(tally: Tally, seed: int = 1, count: int = PIECES) -> None:
    source = Snippets(seed)
    pieces = [source.snippet(number) for number in range(count)]
    states = [source.state() for _ in range(count * STATES)]
    text = pieces_text(pieces, states)
    with tempfile.TemporaryDirectory() as folder:
        native = run_natively(folder, text)
        lowered, why = run_lowered(folder, text, len(native))
    tally.equal("lower takes each piece of assembly", why, "")
    size = STATE_BYTES * STATES
    for number, piece in enumerate(pieces):
        part = slice(number * size, (number + 1) * size)
        name = "; ".join(piece.split("\n\t"))
        tally.equal(f"lower: {name}", lowered[part].hex(), native[part].hex())


# ---- Lines that are refused

# Assembly, its line that is refused, and why.
REFUSED = [
    ("f:\n\tmovl %eax, %r13d\n", 2, "%r13 is taken: compile with -ffixed-r13 -ffixed-r14 -ffixed-r15"),
    ("movq %rax, -8(%rsp)\n", 1, "it uses the bytes below RSP: compile with -mno-red-zone"),
    ("addsd %xmm0, %xmm1\n", 1, "`addsd` has no form that is in the table"),
    ("movq %xmm0, %rax\n", 1, "`%xmm0` is no general register"),
    ("lock addq %rax, (%rdi)\n", 1, "`lock` has no form that is in the table"),
    ("movq %fs:40, %rax\n", 1, "`%fs:40` is no plain operand in memory"),
    ("movl (%eax), %eax\n", 1, "the address `(%eax)` is not of 64 bits"),
    ("addl %eax, %ebx\njo f\n", 2, "no jump of the table asks for overflow or parity alone"),
    ("ucomisd\n", 1, "`ucomisd` has no form that is in the table"),
    ("movb %al, %bh\n", 1, "nothing is written into bits 8 to 15 of a register"),
    ("imulq %rax, %rbx\nf:\n\tje f\n", 1, "a later instruction asks for the condition `e`, of which the table's form tells nothing"),
    ("addl $1, %eax\nf:\tjs g\n\tjb f\ng:\n", 1, "a later instruction asks for the condition `b`, of which the table's form tells nothing"),
    ("shll %cl, %eax\nje f\nf:\n", 1, "a later instruction asks for the condition `e`, of which the table's form tells nothing"),
    ("rolq $3, %rax\njb f\nf:\n", 1, "a later instruction reads flags of a rotation"),
    ("call g\nje f\nf:\n", 1, "a later instruction reads flags that this one leaves"),
    ("jmp 1f\n", 1, "`1f` is no label with a name"),
    ("rep movsl\n", 1, "`rep movsl` has no form that is in the table"),
    ("idivw %cx\n", 1, "`idiv` of 16 bits is not rewritten"),
    ("shlq %cl, (%rdi)\n", 1, "a shift by CL in memory is not rewritten"),
    ("cmpq %rax, %rbx\npushw %ax\n", 2, "`push` of 16 bits is not rewritten"),
    ("cmpq %rax, %rbx\npushq 8(%rdi,%rax)\nje f\nf:\n", 2, "it moves the stack between flags and what reads them"),
    ("cmpl %eax, %ebx\nje f\nf:\ttestl %eax, %eax\ng:\taddl $1, %edx\nmovl %edx, %ecx\njb g\n", 0, ""),
]


def test_refused(tally: Tally) -> None:
    with tempfile.TemporaryDirectory() as folder:
        for text, line, why in REFUSED:
            path = written(folder, "refused.s", text)
            told = call("lower", path)
            wanted = f"{path}:{line}: {' '.join(text.splitlines()[line - 1].split(chr(9))).strip()}: {why}\n".replace(": f: ", ": ")
            tally.equal(f"lower refuses {text!r}", (told.err, told.status), (wanted, 1) if line else ("", 0))
        told = call("lower", written(folder, "float.c", "double f(double x) { return x + 1; }\n"))
        tally.equal("lower refuses what gcc refuses", ("error" in told.err, told.out, told.status), (True, "", 1))
        told = call("image", written(folder, "atomic.c", "int f(int *x) { return __sync_fetch_and_add(x, 1); }\n"))
        tally.equal("image refuses C that cannot be lowered", (told.err.rsplit(": ", 2)[1:], told.out, told.status),
                    (["lock xaddl %eax, (%rdi)", "`lock xaddl` has no form that is in the table\n"], "", 1))
        path = written(folder, "one.c", "int one(void) { return 1; }\n")
        told = call("lower", path, "-o", os.path.join(folder, "one.s"))
        with open(os.path.join(folder, "one.s"), encoding="ascii") as file:
            tally.equal("lower -o FILE", (tuple(told), file.read()), (("", "", 0), call("lower", path).out))
        told = call("lower", os.path.join(folder, "none.c"))
        tally.equal("lower of no file", tuple(told), ("", f"lower: {folder}/none.c: No such file or directory\n", 2))


# ---- Functions in C

OUTSIDE = """
#include <stdio.h>
#include "enclave.h"
uint64_t input(void) { unsigned long value = 0; return scanf("%lu", &value) == 1 ? value : 0; }
void output(uint64_t value) { printf("%lu\\n", (unsigned long)value); }
"""


def functions_inputs(rounds: int) -> List[int]:
    """How many rounds, and a number for each."""
    source = random.Random(7)
    return [rounds, *(source.choice([source.getrandbits(64), source.getrandbits(64) | 2**63, source.getrandbits(12) + 1]) for _ in range(rounds))]


def functions_names() -> List[str]:
    with open(FUNCTIONS, encoding="ascii") as file:
        (names,) = re.findall(r"functions\[\]\)\(uint64_t\) = \{([^}]*)\}", file.read())
    return [name.strip() for name in names.split(",") if name.strip()]


def outputs_natively(folder: str, inputs: List[int]) -> List[int]:
    program = os.path.join(folder, "functions")
    outside = written(folder, "outside.c", OUTSIDE)
    subprocess.run(["gcc", "-O2", "-fno-strict-aliasing", "-I", ASSEMBLY, "-o", program, FUNCTIONS, outside], check=True)
    told = subprocess.run([program], input=" ".join(map(str, inputs)), capture_output=True, text=True, check=True)
    return [int(line) for line in told.stdout.split()]


def functions_image(*words: str) -> Told:
    return call("image", os.path.join(ASSEMBLY, "start.s"), FUNCTIONS, "--strict", *words)


def test_functions(tally: Tally) -> None:
    """Each function gives in the enclave's program what it gives natively."""
    inputs = functions_inputs(ROUNDS)
    with tempfile.TemporaryDirectory() as folder:
        native = outputs_natively(folder, inputs)
    told = functions_image()
    tally.equal("lower takes the functions in C", (told.err, told.status), ("", 0))
    ended = FlatRun(read_image(told.out.encode())).run(inputs) if told.status == 0 else None
    tally.equal("the functions in C come to their end", ended and (ended.status, ended.vector), (0, None))
    names = functions_names()
    for place, name in enumerate(names):
        tally.equal(f"lower: {name}", ended and ended.outputs[place :: len(names)], native[place :: len(names)])


def test_program(tally: Tally, program: Program) -> None:
    """The program gives what the functions give natively, under a kernel that serves its asks."""
    inputs, names = functions_inputs(ROUNDS), functions_names()
    with tempfile.TemporaryDirectory() as folder:
        native = outputs_natively(folder, inputs)
        signers = os.path.join(folder, "signers.toml")
        image = functions_image("--sign", signers).out.encode()
        with open(signers, "rb") as file:
            shared = {"signers.toml": file.read(), "script": "".join(["auto 20000\n", *(f"input {value}\n" for value in inputs)]).encode()}
    told = program.calls({"functions": Given(image, ["run", "{}", "signers.toml", "script"])}, shared).get("functions", "")
    outputs = [int(value) for value in re.findall("^output ([0-9]+)$", told, re.MULTILINE)]
    for place, name in enumerate(names):
        tally.equal(f"program: {name} in C", outputs[place :: len(names)], native[place :: len(names)])
    tally.equal("program: the functions in C end without a stop", (told.split("\n")[-2:], " -> ended 0\n" in told), (["stop none", ""], True))


def test(tally: Tally) -> None:
    test_pieces(tally)
    test_refused(tally)
    test_functions(tally)
