"""Counts what passed and failed, and calls the tools."""
import os
import subprocess
import sys
from typing import List, NamedTuple, Tuple

TOOLS = os.path.dirname(os.path.dirname(os.path.abspath(__file__)))
TOP = os.path.dirname(TOOLS)
DATA = os.path.join(TOP, "crates", "examples", "data")


class Told(NamedTuple):
    """What a call wrote, and its status."""

    out: str
    err: str
    status: int


class Tally:
    """Prints each case, and counts."""

    def __init__(self) -> None:
        self.passed = 0
        self.failed = 0

    def equal(self, name: str, got: object, wanted: object) -> None:
        if got == wanted:
            self.passed += 1
            print(f"ok    {name}")
        else:
            self.failed += 1
            print(f"FAIL  {name}\n      got    {got!r}\n      wanted {wanted!r}")

    def holds(self, name: str, fact: bool) -> None:
        self.equal(name, bool(fact), True)


def call(tool: str, *words: str, folder: str = DATA) -> Told:
    """Calls a tool in a folder."""
    done = subprocess.run([sys.executable, os.path.join(TOOLS, tool), *words], cwd=folder, capture_output=True, text=True, check=False)
    return Told(done.stdout, done.stderr, done.returncode)


def written(folder: str, name: str, data: "str | bytes") -> str:
    """The path of a new file."""
    path = os.path.join(folder, name)
    with open(path, "wb") as file:
        file.write(data if isinstance(data, bytes) else data.encode("utf-8"))
    return path


def examples() -> "List[Tuple[List[str], str, int]]":
    """The calls of the examples: their words, what the program wrote, and its status."""
    with open(os.path.join(TOP, "crates", "examples", "stdout"), encoding="ascii") as file:
        blocks = file.read().strip("\n").split("\n\n")
    calls = []
    for block in blocks:
        first, *text, last = block.split("\n")
        calls.append((first.split(" ")[2:], "".join(line + "\n" for line in text), int(last.split(" ")[1])))
    return calls
