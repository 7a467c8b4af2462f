#!/usr/bin/env python3
"""Times write-outs and loads by the proved leaves: a page is blocked, tracked, written out and loaded back, in all frames by turns.

It makes a program of leaves.rattle in a copy of the repository, proves it, and calls it as LLVM builds it. It wants `rt` and `git` on
the path, and is no part of the gate. For each kind of call it prints the processor's seconds beside those of a call that only adds
the pages (the least of five calls each), the nanoseconds of a round, and the most memory that a call held.
"""
import os
import shutil
import subprocess
import sys
import tempfile

HERE = os.path.dirname(os.path.abspath(__file__))
ROOT = os.path.dirname(HERE)
NAME = "leaves_bench"
CALLS = [
    (8192, 20_000, "keep"),
    (8192, 20_000, "drop"),
    (64, 20_000, "keep"),
    (1024, 20_000, "keep"),
    (8192, 5_000, "keep"),
    (8192, 80_000, "keep"),
    (8192, 1_000_000, "drop"),
]


def call(words):
    """Calls the program from a small process of its own, since a child's memory counts from its parent's."""
    told = subprocess.run([sys.executable, __file__, "--call", *words], capture_output=True, text=True, check=True).stdout.split()
    return float(told[0]), int(told[1])


def called(words):
    child = subprocess.Popen(words, stdout=subprocess.DEVNULL)
    _, status, usage = os.wait4(child.pid, 0)
    print(usage.ru_utime + usage.ru_stime, usage.ru_maxrss // 1024)
    sys.exit(os.waitstatus_to_exitcode(status))


def build(copy):
    """The program, proved in a copy of the repository."""
    files = subprocess.run(["git", "-C", ROOT, "ls-files", "-z", "crates", "crates.txt", "HANDLES"], capture_output=True, text=True, check=True)
    for name in filter(None, files.stdout.split("\0")):
        os.makedirs(os.path.dirname(os.path.join(copy, name)), exist_ok=True)
        shutil.copy(os.path.join(ROOT, name), os.path.join(copy, name))
    crate = os.path.join(copy, "crates", NAME)
    os.makedirs(os.path.join(crate, "src"))
    shutil.copy(os.path.join(HERE, "leaves.rattle"), os.path.join(crate, "src", "main.rt"))
    with open(os.path.join(copy, "crates.txt"), "a", encoding="ascii") as crates:
        crates.write(f"{NAME}: ak_core ak_model ak_epcm ak_encls anyhow\n")
    subprocess.run(["rt", "run", "--", "64", "1", "drop"], cwd=crate, check=True)
    return os.path.join(crate, "out", NAME)


def show(program, frames, rounds, what):
    def least(count):
        calls = [call([program, str(frames), str(count), what]) for _ in range(5)]
        return min(c[0] for c in calls), max(c[1] for c in calls)

    whole, memory = least(rounds)
    without, _ = least(0)
    each = (whole - without) / rounds * 1e9
    print(f"{frames:5} frames {rounds:8} rounds, {what}: {whole:6.3f} s, {without:6.3f} s without; {each:6.0f} ns a round; {memory:5} MiB", flush=True)


def main():
    if sys.argv[1:2] == ["--call"]:
        called(sys.argv[2:])
    with tempfile.TemporaryDirectory() as copy:
        program = build(copy)
        for frames, rounds, what in CALLS:
            show(program, frames, rounds, what)


if __name__ == "__main__":
    main()
