"""Tests of tools/image and of assembly/image.sh. They want gcc, and `as`, `ld`, `objcopy` and `objdump` of GNU binutils."""
import os
import re
import subprocess
import tempfile
from typing import List

from formats.images import read_image
from formats.instructions import is_known
from tests.harness import TOP, Tally, Told, call, written

SUM = """\
        .intel_syntax noprefix
        .globl _start
_start: movabs  rbx, offset cell
        movabs  rcx, 10
        movabs  rdx, 1
again:  {disp32} mov rax, [rbx]
        add     rax, rcx
        {disp32} mov [rbx], rax
        sub     rcx, rdx
        {disp32} jne again
        {disp32} mov rsi, [rbx]
        movabs  rdi, 1
        movabs  rax, 4
        enclu
last:   movabs  rsi, 0
        movabs  rdi, 0
        movabs  rax, 4
        enclu
        .section .rodata
        .byte 1, 2
        .data
        .space 4088
cell:   .quad 256
        .bss
        .space 4097
"""
CODE = ("48bb f82f001000000000 48b90a00000000000000 48ba0100000000000000 488b8300000000 4801c8 48898300000000 4829d1 0f85e6ffffff"
        " 488bb300000000 48bf0100000000000000 48b80400000000000000 0f01d7 48be0000000000000000 48bf0000000000000000"
        " 48b80400000000000000 0f01d7").replace(" ", "")
PAGES = [("rx", "text", CODE), ("r", "rodata", "0102"), ("rw", "data", 4089 * "00" + "01"), ("rw", "bss", ""), ("rw", "bss", "")]

# The words by which each linker links for an enclave at 0x400000.
LINKERS = {
    "ld": ["--defsym=enclave_base=0x400000"],
    "gcc": ["-nostdlib", "-static", "-no-pie", "-Wl,--build-id=none,--defsym=enclave_base=0x400000"],
}

# A kind of linked program, the words of ld, and why it is refused.
LINKED = [
    ("a section to write and execute", ["-N", "-Ttext=0x10000000"], "the section `.text` is to be written and to be executed, and no page is both"),
    ("sections in one page", ["-Ttext=0x10000000", "--section-start=.rodata=0x10000100"],
     "the sections `.text` and `.rodata` lie in one page, and differ in what they allow"),
    ("a program that can be moved", ["-pie", "--no-dynamic-linker"], "no linked program at fixed addresses: link it, with -static and -no-pie"),
]

# A source that assembly/image.sh refuses, and why.
UNLINKED = [
    ("call nowhere", ["the symbol `nowhere` is undefined"]),
    ("movabs rbx, offset first\nmovabs rcx, offset second", ["the symbol `first` is undefined", "the symbol `second` is undefined"]),
    ("movabs rbx, offset table\n.data\ntable: .quad 1", ["the section `.data` has bytes, and only those of .text come into the image: use tools/image"]),
    ("nop\n.section .rodata\n.byte 1\n.bss\n.space 8",
     [f"the section `{name}` has bytes, and only those of .text come into the image: use tools/image" for name in (".bss", ".rodata")]),
    ("movabs rbx, offset table\ntable: .quad 1", ["at 0x2 of .text a linker has to fill in `.text+0x000000000000000a`: use tools/image"]),
    ("call f\n.globl f\nf: ret", ["at 0x1 of .text a linker has to fill in `f-0x0000000000000004`: use tools/image"]),
]

# An instruction, its bytes, how it is spelled, and what to write instead.
STRANGERS = [
    ("f: mov rax, 5", "48 c7 c0 05 00 00 00: mov rax,0x5", "the number into a register by movabs"),
    ("add rax, 3", "48 83 c0 03: add rax,0x3", "the number into a register by movabs, and add of it"),
    ("jne f", "75 f3: jne 10000000", "{disp32} jne"),
    ("jmp f", "eb f1: jmp 10000000", "{disp32} jmp to a label"),
    ("mov al, [rbx]", "8a 03: mov al,BYTE PTR [rbx]", "{rex} {disp32} mov"),
    ("mov [rbx+8], rcx", "48 89 4b 08: mov QWORD PTR [rbx+0x8],rcx", "{disp32} mov"),
    ("mov ecx, [rbx]", "8b 0b: mov ecx,DWORD PTR [rbx]", "8 bytes, or one: {disp32} mov"),
    ("mov rcx, [rsp+8]", "48 8b 4c 24 08: mov rcx,QWORD PTR [rsp+0x8]", "another base: RSP copied to a register"),
    ("mov rcx, [rsi+rax*8]", "48 8b 0c c6: mov rcx,QWORD PTR [rsi+rax*8]", "the index added to the base first"),
    ("lea rax, [rbx+8]", "48 8d 43 08: lea rax,[rbx+0x8]", "mov, shl and add"),
    ("shl rax, 1", "48 d1 e0: shl rax,1", "shl by 65, which is by 1"),
    ("sete al", "0f 94 c0: sete al", "a jump over a mov"),
    ("mov eax, ebx", "89 d8: mov eax,ebx", "the form of 64 bits"),
    ("add rax, [rdx]", "48 03 02: add rax,QWORD PTR [rdx]", "the operand into a register, and add of it"),
    ("mov qword ptr [rax], 1", "48 c7 00 01 00 00 00: mov QWORD PTR [rax],0x1", "the number into a register by movabs, and mov from there"),
    ("movzx eax, al", "0f b6 c0: movzx eax,al", "a register that is 0, and {rex} {disp32} mov into its low byte"),
    ("paddd xmm0, xmm1", "66 0f fe c1: paddd xmm0,xmm1", "none"),
]

# The sources of assembly/ that are to be linked, and what their pages allow.
VICTIMS = {"lookup": ["rx", "r", "r", "rw"], "power": ["rx", "rx", "rw", "rw"], "hash": ["rx", "r"]}

# Bytes that are an instruction of the table, and bytes that are none.
KNOWN = """48b80000000000000000 49bf0000000000000000 4889c0 4c8bff 48898000000000 4d8bbf00000000 408a8000000000 44889700000000 4801c0 4829c0 4821c0
4809c0 4831c0 4839c0 4885c0 480fafc0 48c1e007 49c1ef07 48f7f1 49f7f1 e900000000 e800000000 0f8200000000 0f8500000000 0f8c00000000 0f8f00000000 50 4157 58
c3 90 0f0b 0f01d7"""
UNKNOWN = """06 4cb80000000000000000 b800000000 48c7c000000000 89c0 488900 48894008 48898424000000 48898c2400000000 8a8000000000 488a8000000000 4803c0 01c0 4883c001
4811c0 0fafc0 4cc1e007 48c1f807 48d1e0 48f7e1 4cf7f1 eb00 7500 0f8600000000 0f8700000000 0f8000000000 4050 4850 f4 0f05 0f01d0 f390 480f94c0 6690"""


def image_text(pages: List["tuple[str, str, str]"], budget: int, entry: int = 0) -> str:
    head = f'version = 1\nbase = 268435456\nentry = {entry}\nbudget = {budget}\nsigner = "lab"\n'
    return head + "".join(f'\n[[page]]\nperms = "{perms}"\ncluster = "{cluster}"\nbytes = "{digits}"\n' for perms, cluster, digits in pages)


def refusal(text: str, *words: str) -> Told:
    """What the tool tells of a source that it refuses."""
    with tempfile.TemporaryDirectory() as folder:
        return call("image", written(folder, "a.s", text), *words)


def test_written(tally: Tally, folder: str) -> None:
    source = written(folder, "sum.s", SUM)
    tally.equal("image of a source", tuple(call("image", source)), (image_text(PAGES, 5), "", 0))
    one = [(perms, "program", digits) for perms, _, digits in PAGES]
    tally.equal("image of one cluster", call("image", source, "--clusters", "one").out, image_text(one, 5))
    each = [(perms, f"page{i}", digits) for i, (perms, _, digits) in enumerate(PAGES)]
    tally.equal("image of a cluster for each page", call("image", source, "--clusters", "page", "--entry", "last").out, image_text(each, 4, 86))
    tally.equal("image with a budget", call("image", source, "--budget", "7").out, image_text(PAGES, 7))
    told = call("image", source, "--base", "0x20000000", "--signer", "a \"b\"", "-o", os.path.join(folder, "b.toml"))
    with open(os.path.join(folder, "b.toml"), "rb") as file:
        image = read_image(file.read())
    tally.equal("image at another base, of another signer", (tuple(told), image.base, image.signer, image.pages[0].data[2:10].hex()),
                (("", "", 0), 0x2000_0000, 'a "b"', "f82f002000000000"))


def test_linked(tally: Tally, folder: str) -> None:
    """Objects and a linked program give what their source gives."""
    source, one = os.path.join(folder, "sum.s"), call("image", os.path.join(folder, "sum.s")).out
    subprocess.run(["as", "-o", "sum.o", source], cwd=folder, check=True)
    tally.equal("image of an object", call("image", os.path.join(folder, "sum.o")).out, one)
    moved = call("image", source, "--base", "0x400000").out
    for linker, words in LINKERS.items():
        path = os.path.join(folder, f"by_{linker}")
        subprocess.run([linker, *words, "-T", os.path.join(TOP, "assembly", "enclave.ld"), "-o", path, "sum.o"], cwd=folder, check=True)
        tally.equal(f"image of what {linker} links by assembly/enclave.ld", tuple(call("image", path)), (moved, "", 0))
    for kind, words, why in LINKED:
        subprocess.run(["ld", "-static", *words, "-o", "linked", "sum.o"], cwd=folder, check=True, capture_output=True)
        told = call("image", os.path.join(folder, "linked"))
        tally.equal(f"image of {kind}", (told.err, told.status), (f"image: {why}\n", 1))
    told = call("image", os.path.join(folder, "sum.o"), os.path.join(folder, "linked"))
    tally.equal("image of several files", (told.err, told.status), ("image: several files, and not all of them are .c, .s or .o\n", 1))


def test_defined(tally: Tally, folder: str) -> None:
    """A defined name has its number in assembly and in C."""
    lookup = os.path.join(TOP, "assembly", "lookup.s")
    for secret, digits in ((0, ""), (1, "01"), (258, "0201")):
        told = call("image", lookup, "--define", f"SECRET={secret}")
        tally.equal(f"image with SECRET={secret}", re.findall(r'^bytes = "(\w*)"$', told.out, re.MULTILINE)[-1:], [digits])
    tally.equal("image by default", call("image", lookup).out, call("image", lookup, "--define", "SECRET=0x1").out)
    source = written(folder, "defined.c", "const unsigned long cells[] = {FIRST, SECOND};\n")
    told = call("image", source, "--define", "FIRST=1", "--define", "SECOND=0x203")
    tally.equal("image of C with numbers", (re.findall(r'^bytes = "(\w*)"$', told.out, re.MULTILINE), told.status), (["01000000000000000302"], 0))
    for word, why in (("SECRET", "'SECRET' is no NAME=N"), ("1=1", "'1=1' is no NAME=N"), ("A=x", "'x' is no number")):
        told = call("image", lookup, "--define", word)
        tally.equal(f"image with --define {word}", (told.out, told.err.splitlines()[-1], told.status), ("", f"image: error: argument --define: {why}", 2))


def test_refused(tally: Tally, folder: str) -> None:
    told = refusal(".intel_syntax noprefix\ncall nowhere\n")
    tally.equal("image with an undefined symbol", ("undefined reference to `nowhere'" in told.err, told.out, told.status), (True, "", 1))
    cases = [
        ("nop", ["--entry", "main"], "image: no symbol `main` to enter at"),
        ("nop", ["--base", "0x10001000"], "image: the program begins at 0x10001000, and must begin at a multiple of 0x8000, the size of its enclave"),
        (".space 2100000", [], "image: the section `.text` has 513 pages, where an image has 512 at most"),
        ("", [], "image: the program has no bytes"),
        ("mov rax, rbx\n", ["--strict"], "image: it has instructions that docs/INSTRUCTIONS.md does not have"),
        ("nop", ["--budget", "0"], "  1 is the number of pages of all clusters: `text` 1"),
    ]
    for text, words, why in cases:
        source = f".intel_syntax noprefix\n{text}\n".replace("mov rax, rbx", "mov eax, ebx")
        told = refusal(source, *words)
        tally.equal(f"image refused: {why}", (told.out, told.err.splitlines()[-1:], told.status), ("", [why], 1))
    told = call("image", written(folder, "text", "no program"))
    tally.equal("image of no program", tuple(told), ("", "image: no ELF file of 64 bits, little-endian\n", 1))
    for name in ("none", "none.c", "none.s", "none.o"):
        told = call("image", os.path.join(folder, name))
        tally.equal(f"image of {name}, which is no file", tuple(told), ("", f"image: {folder}/{name}: No such file or directory\n", 2))


def test_strangers(tally: Tally) -> None:
    told = refusal(".intel_syntax noprefix\n" + "".join(f"{source}\n" for source, _, _ in STRANGERS))
    lines = told.err.splitlines()
    tally.equal("image with strangers is written", told.status, 0)
    tally.equal("image tells each stranger", len(lines), len(STRANGERS))
    for line, (_, spelled, hint) in zip(lines, STRANGERS):
        tally.equal(f"image tells {spelled}", line.split(">: ", 1)[-1], f"{spelled}; instead: {hint}")
    told = refusal("f: .balign 64\n nop\n .balign 64\n")
    tally.equal("image tells equal strangers once", [line.split("; ")[0] for line in told.err.splitlines()][:1],
                ["0x10000001 <f+0x1>: 66 66 2e 0f 1f 84 00 00 00 00 00: data16 cs nop WORD PTR [rax+rax*1+0x0], and 4 more of it"])
    tally.equal("image tells the place of a stranger", lines[1].split(": ")[0], "0x10000007 <f+0x7>")
    for digits, known in [(word, True) for word in KNOWN.split()] + [(word, False) for word in UNKNOWN.split()]:
        tally.equal(f"the table has {digits}: {known}", is_known(bytes.fromhex(digits)), known)


def test_signing(tally: Tally, folder: str) -> None:
    source, signers, image = (os.path.join(folder, name) for name in ("sum.s", "signers.toml", "sum.toml"))
    written(folder, "signers.toml", f"# Ours.\nother = []\n\"lab\" = [ # one\n '{64 * '0'}',\n]")
    for turn in ("once", "twice"):
        told = call("image", source, "--sign", signers, "-o", image)
        digest = call("check", "image", image).out.split(" ")[-1].strip()
        with open(signers, encoding="utf-8") as file:
            tally.equal(f"image signs {turn}", (told.status, file.read()),
                        (0, f"# Ours.\nother = []\n\"lab\" = [\"{digest}\",  # one\n '{64 * '0'}',\n]"))
    call("image", source, "--sign", signers, "--signer", "new one", "-o", image)
    with open(signers, encoding="utf-8") as file:
        tally.equal("image signs under a new name", file.read().splitlines()[-1], f'"new one" = ["{digest}"]')
    calls = os.path.join(TOP, "crates", "examples", "data", "auto.script")
    tally.equal("the image is signed", call("check", "run", image, signers, calls).status, 0)
    told = call("image", source, "--sign", written(folder, "bad", "lab = 1"), "-o", image)
    tally.equal("image with bad signers", (told.err.splitlines()[0], told.status), ("signers refused: 2 badkey", 1))


def told_by_script(source: str) -> Told:
    """What assembly/image.sh tells of a source."""
    done = subprocess.run([os.path.join(TOP, "assembly", "image.sh"), source], capture_output=True, text=True, check=False)
    return Told(done.stdout, done.stderr, done.returncode)


def test_unlinked(tally: Tally, folder: str) -> None:
    """assembly/image.sh makes images of code that wants no linker, and refuses any other."""
    pages = [("rx", "code", CODE.replace("f82f0010", "00100010")), ("rw", "data", "")]
    tally.equal("image.sh of assembly/sum.s", tuple(told_by_script(os.path.join(TOP, "assembly", "sum.s"))), (image_text(pages, 2), "", 0))
    local = written(folder, "local.s", "nop\nf: call f\n.ident \"none\"\n.section .note.GNU-stack,\"\"\n")
    tally.equal("image.sh of a call of a label", tuple(told_by_script(local)), (image_text([("rx", "code", "90e8fbffffff"), pages[1]], 2), "", 0))
    for text, lines in UNLINKED:
        told = told_by_script(written(folder, "unlinked.s", f".intel_syntax noprefix\n{text}\n"))
        tally.equal(f"image.sh refuses: {text!r}", (told.out, sorted(told.err.splitlines()), told.status), ("", [f"image.sh: {line}" for line in lines], 1))
    told = told_by_script(os.path.join(folder, "none.s"))
    tally.equal("image.sh of no file", (told.out, told.status), ("", 1))


def test_victims(tally: Tally) -> None:
    """The sources of assembly/ that are to be linked have known instructions alone."""
    for name, pages in VICTIMS.items():
        told = call("image", os.path.join(TOP, "assembly", f"{name}.s"), "--strict")
        perms = re.findall(r'^perms = "(\w+)"$', told.out, re.MULTILINE)
        tally.equal(f"image of assembly/{name}.s", (told.err, told.status, perms), ("", 0, pages))
    told = call("image", os.path.join(TOP, "assembly", "lookup.s"))
    tally.equal("image of a section of two pages", re.findall(r'^bytes = "(\w*)"$', told.out, re.MULTILINE)[1:3], ["0b", "16"])


def test(tally: Tally) -> None:
    test_victims(tally)
    with tempfile.TemporaryDirectory() as folder:
        test_written(tally, folder)
        test_linked(tally, folder)
        test_defined(tally, folder)
        test_refused(tally, folder)
        test_signing(tally, folder)
        test_unlinked(tally, folder)
    test_strangers(tally)
