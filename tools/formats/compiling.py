"""C through gcc, with the options under which its assembly can be lowered."""
import os
import subprocess
from typing import Sequence

ASSEMBLY = os.path.join(os.path.dirname(os.path.dirname(os.path.dirname(os.path.abspath(__file__)))), "assembly")
OPTIONS = ("-O1 -ffreestanding -fno-pic -mno-red-zone -mgeneral-regs-only -fcf-protection=none -fno-stack-protector"
           " -fno-asynchronous-unwind-tables -ffixed-r13 -ffixed-r14 -ffixed-r15").split()


class CompileFault(Exception):
    """What gcc complains of."""


def compiled(path: str, apart: bool = False, defines: Sequence[str] = ()) -> str:
    """The assembly of a C file, which may include the headers of assembly/; each function and object has a section of its own or not.
    The defines, `NAME=N`, are its macros."""
    more = ["-ffunction-sections", "-fdata-sections"] if apart else []
    more += [f"-D{define}" for define in defines]
    try:
        told = subprocess.run(["gcc", "-S", *OPTIONS, *more, "-I", ASSEMBLY, "-o", "-", path], capture_output=True, text=True, check=False)
    except FileNotFoundError:
        raise CompileFault("no `gcc`: install it, or give assembly that it wrote") from None
    if told.returncode:
        raise CompileFault(told.stderr.strip())
    return told.stdout


def assembly_of(path: str) -> str:
    """The assembly of a file, C or assembly."""
    if path.endswith(".c"):
        with open(path, "rb"):
            pass
        return compiled(path)
    with open(path, encoding="utf-8") as file:
        return file.read()
