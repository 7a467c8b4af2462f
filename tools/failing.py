#!/usr/bin/env python3
"""Runs the program while memory, files or its output fail, and counts how it ends.

usage: failing.py PROGRAM, with the program that `rt run` leaves in crates/autarky/out. It wants gcc, which makes tools/failing.c into
a library that is loaded before the C library and refuses one call of the program: its Nth allocation, open, read or write; then also
each from the Nth on. N goes from 1 to as many calls as the run makes; past 2,000 it is the first 200 and then each 97th, unless
`--all` is given. Afterwards come the failures that need no such library: a missing file, a folder, a file without an end, a full disk, a
closed pipe, and less and less memory for the whole process.

Each run must end with a status of the README and that status's line, and with its output as it should be: whole at 0 and 10, a front
of it that is not whole at 6, and nothing else. It prints a row for each kind of failure. The status is 1 if any run ended otherwise, and
2 at a faulty use.
"""
import argparse
import os
import resource
import signal
import subprocess
import sys
import tempfile
from collections import Counter
from typing import Callable, Dict, Iterator, List, NamedTuple, Optional

sys.dont_write_bytecode = True
TOOLS = os.path.dirname(os.path.abspath(__file__))
DATA = os.path.join(os.path.dirname(TOOLS), "crates", "examples", "data")
KINDS = ("alloc", "open", "read", "write")
NAMES = {"alloc": "allocation", "open": "open", "read": "read", "write": "write"}
MANY, FIRST, STEP, MOST_SECONDS = 2_000, 200, 97, 60
MOST_KIBIBYTES, KIBIBYTES = 20 * 1024, 64
RUNS = {
    "run calls.toml": ["run", *(os.path.join(DATA, name) for name in ("calls.toml", "signers.toml", "auto.script"))],
    "measure calls.toml": ["measure", os.path.join(DATA, "calls.toml")],
    "demo 1": ["demo", "1"],
}
LINES = {0: "", 10: "", 6: "write failed\n", 7: "out of memory\n", 9: ""}
ENDS = {  # how each kind of refused call may end, beside the run's own status
    "alloc": {7, 9},
    "open": {5},
    "read": {5},
    "write": {6},
}


class Told(NamedTuple):
    """How a run ended."""

    status: int
    out: bytes
    err: str


class Plain(NamedTuple):
    """A run while nothing fails, with how many calls of each kind it makes."""

    told: Told
    counts: Dict[str, int]


def told_by(words: List[str], outside: Optional[Dict[str, str]] = None, before: Optional[Callable[[], None]] = None, out: int = subprocess.PIPE) -> Told:
    done = subprocess.run(words, stdin=subprocess.DEVNULL, stdout=out, stderr=subprocess.PIPE, env={**os.environ, **(outside or {})},
                          preexec_fn=before, timeout=MOST_SECONDS, check=False)
    return Told(done.returncode, done.stdout or b"", done.stderr.decode("latin-1"))


def lines_of(status: int, names: List[str]) -> "set[str]":
    """The lines that may go with a status."""
    named = {5: "read failed", 8: "file too long"}.get(status)
    return {f"{named}: {name}\n" for name in names} if named else {LINES[status]}


def wrong_of(told: Told, whole: Told, ends: "set[int]", names: List[str], has_line: bool = True) -> Optional[str]:
    """What is wrong with an end, if anything. Where no write goes through there is no line."""
    if told.status not in {whole.status} | ends:
        return f"status {told.status}"
    if told.err not in (lines_of(told.status, names) if has_line else {""}):
        return f"status {told.status} with the line {told.err!r}"
    is_front = whole.out.startswith(told.out) and told.out != whole.out
    if told.status == whole.status:
        right = told.out == whole.out
    else:
        right = is_front if told.status == 6 else told.out == b""
    return None if right else f"status {told.status} with {len(told.out)} bytes of output"


class Table:
    """Rows of how the runs ended."""

    def __init__(self) -> None:
        self.is_right = True
        print("| run | what fails | runs | statuses | otherwise |\n|---|---|---|---|---|")

    def row(self, run: str, what: str, tolds: List[Told], wrongs: List[str]) -> None:
        statuses = Counter(told.status for told in tolds)
        counts = ", ".join(f"{status}: {count}" for status, count in sorted(statuses.items()))
        print(f"| `{run}` | {what} | {len(tolds)} | {counts} | {wrongs[0] if wrongs else 'none'}{f', {len(wrongs)} in all' if wrongs[1:] else ''} |", flush=True)
        self.is_right &= not wrongs


def library(folder: str) -> str:
    made = os.path.join(folder, "failing.so")
    subprocess.run(["gcc", "-std=c11", "-O2", "-shared", "-fPIC", "-o", made, os.path.join(TOOLS, "failing.c"), "-ldl"], check=True)
    return made


def plain(program: str, words: List[str], made: str, folder: str) -> Plain:
    """The run while nothing fails."""
    path = os.path.join(folder, "counts")
    told = told_by([program, *words], {"LD_PRELOAD": made, "FAIL_COUNTS": path})
    with open(path, encoding="ascii") as file:
        counts = dict(zip(KINDS, map(int, file.read().split())))
    return Plain(told, counts)


def numbers(count: int, is_all: bool) -> List[int]:
    """Which calls are refused."""
    every = range(1, count + 1)
    return [n for n in every if is_all or count <= MANY or n <= FIRST or (n - FIRST) % STEP == 0]


def refuse(table: Table, program: str, run: str, whole: Plain, made: str, is_all: bool) -> None:
    """Each call of a kind in turn, and each from there on."""
    names = RUNS[run][1:]
    for kind in KINDS:
        chosen = numbers(whole.counts[kind], is_all)
        sample = "" if len(chosen) == whole.counts[kind] else f", of {whole.counts[kind]}"
        for and_on, how in (("", "one"), ("+", "from one on each")):
            tolds = [told_by([program, *RUNS[run]], {"LD_PRELOAD": made, "FAIL": f"{kind}:{n}{and_on}"}) for n in chosen]
            wrongs = [f"{kind} {n}: {wrong}" for n, told in zip(chosen, tolds) for wrong in [wrong_of(told, whole.told, ENDS[kind], names, kind + and_on != "write+")] if wrong]
            if tolds:
                table.row(run, f"{how} {NAMES[kind]}{sample}", tolds, wrongs)


# ---- What the system itself refuses


def at_most(what: int, most: int) -> Callable[[], None]:
    return lambda: resource.setrlimit(what, (most, most))


def files_that_fail(folder: str) -> Iterator["tuple[str, str, int]"]:
    """Files that cannot be read, with the status of that."""
    yield "a missing file", os.path.join(folder, "missing"), 5
    yield "a folder", folder, 5
    yield "a file without an end", "/dev/zero", 8


def test_files(table: Table, program: str, whole: Told, folder: str) -> None:
    """Each file of the run in turn."""
    words = RUNS["run calls.toml"]
    for what, name, status in files_that_fail(folder):
        tolds = [told_by([program, *words[:place], name, *words[place + 1 :]]) for place in (1, 2, 3)]
        wrongs = [wrong or f"status {told.status}" for told in tolds for wrong in [wrong_of(told, whole, {status}, [name])] if wrong or told.status != status]
        table.row("run calls.toml", what, tolds, wrongs)


def test_output(table: Table, program: str, run: str) -> None:
    """A full disk, and a pipe that is closed, whether its signal is left out or not."""
    for what in ("a full disk", "a closed pipe", "a closed pipe, its signal left out"):
        if what == "a full disk":
            out = os.open("/dev/full", os.O_WRONLY)
        else:
            read_end, out = os.pipe()
            os.close(read_end)
        before = None if what == "a full disk" else lambda: signal.signal(signal.SIGPIPE, signal.SIG_IGN if "signal" in what else signal.SIG_DFL) and None
        told = told_by([program, *RUNS[run]], before=before, out=out)
        os.close(out)
        fine = told.status == 6 and told.err == LINES[6] or what == "a closed pipe" and told.status == -signal.SIGPIPE
        table.row(run, what, [told], [] if fine else [f"status {told.status} with the line {told.err!r}"])


def test_memory(table: Table, program: str, run: str, whole: Told) -> None:
    """The whole process gets less memory each time, by 64 KiB, until the system cannot start it."""
    tolds, most = [], MOST_KIBIBYTES
    while most > 0:
        told = told_by([program, *RUNS[run]], before=at_most(resource.RLIMIT_AS, most * 1024))
        if told.status in (127, -signal.SIGSEGV, -signal.SIGKILL) or "error while loading" in told.err:
            break
        tolds.append(told)
        most -= KIBIBYTES
    wrongs = [wrong for told in tolds for wrong in [wrong_of(told, whole, {7, 9}, [])] if wrong]
    table.row(run, f"memory, from {MOST_KIBIBYTES // 1024} MiB to {(most + KIBIBYTES) / 1024:.1f} MiB", tolds, wrongs)


def main() -> int:
    words = argparse.ArgumentParser(description=__doc__, formatter_class=argparse.RawDescriptionHelpFormatter)
    words.add_argument("program", metavar="PROGRAM")
    words.add_argument("--all", action="store_true", help="refuse each call, however many there are")
    given = words.parse_args()
    program = os.path.abspath(given.program)
    if not (os.path.isfile(program) and os.access(program, os.X_OK)):
        words.error(f"{given.program} is no program")
    table = Table()
    with tempfile.TemporaryDirectory() as folder:
        made = library(folder)
        for run, of_run in RUNS.items():
            whole = plain(program, of_run, made, folder)
            refuse(table, program, run, whole, made, given.all)
            test_output(table, program, run)
            test_memory(table, program, run, whole.told)
            if run == "run calls.toml":
                test_files(table, program, whole.told, folder)
    return 0 if table.is_right else 1


if __name__ == "__main__":
    sys.exit(main())
