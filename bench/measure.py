#!/usr/bin/env python3
"""Times the program against what is wanted of it. It is no part of the gate.

usage: measure.py PROGRAM [NAME ..], with the program that `rt run` leaves in crates/autarky/out. Without a NAME it makes all of them:
  loop     19 moves of 1,000,000 turns each of loop.toml, beside the twin, which `rustc` builds of twin.rs: at most 2.0 times its seconds
  steps    20,000 moves: a turn, an interrupt, an entry, a resume, again and again: below 0.3 s
  walk     a random walk over 512 pages in 64 clusters with room for 128, under a script of 20,000 moves: below 1.0 s and 60 MiB
  auto     the same under `auto 20000`: below 0.5 s
  growth   the same for fewer pages, and for larger and smaller clusters
  stops    a stop after 20,000 moves: at most 2 times the seconds of the same script without one
  demo     `demo 1`: below 0.1 s and 20 MiB
  deep     an image of 8 MB of dotted keys, the deepest that there may be: as it is, and in less and less memory, where it ends with 7
Seconds are those of the processor, of user and system, the least of `--calls` calls, and MiB the most memory of one. With
`--instructions` it has callgrind count instructions instead, of one call. The status is 1 where something is not as it is wanted.
"""
import argparse
import os
import re
import resource
import subprocess
import sys
import tempfile
from typing import Callable, Dict, List, NamedTuple, Optional

sys.dont_write_bytecode = True
import moves
import readers

HERE = os.path.dirname(os.path.abspath(__file__))
SIZES = [(64, 8, 128), (128, 8, 128), (256, 8, 128), (512, 8, 128), (512, 1, 128), (512, 2, 128), (512, 4, 128), (512, 16, 128), (512, 32, 128), (512, 8, 32), (512, 8, 512)]
TURNS, LOOP = 19_000_000, ("loop.toml", "signers.toml", "loop.script")
ROOMS = (2048, 1024, 512, 256, 64)


class Cost(NamedTuple):
    """What a call took. `taken` is its seconds, or the instructions that callgrind counted."""

    status: int
    taken: float
    memory: int


class Bench:
    """The program, where its files lie, and what was told so far."""

    def __init__(self, given: argparse.Namespace, folder: str):
        self.program, self.folder = os.path.abspath(given.program), folder
        self.calls, self.counts_instructions = given.calls, given.instructions
        self.is_right = True

    def made(self, texts: Dict[str, str]) -> List[str]:
        moves.write_all(self.folder, texts)
        return [os.path.join(self.folder, name) for name in texts]

    def cost(self, words: List[str], calls: Optional[int] = None) -> Cost:
        if self.counts_instructions:
            return counted(words)
        costs = [Cost(*readers.call(words)) for _ in range(calls or self.calls)]
        return Cost(costs[0].status, min(cost.taken for cost in costs), max(cost.memory for cost in costs))

    def told(self, cost: Cost) -> str:
        return f"{cost.taken / 1e6:.1f} M instructions" if self.counts_instructions else f"{cost.taken:.3f} s, {cost.memory} MiB"

    def row(self, name: str, cost: Cost, wanted: str = "", is_right: bool = True, more: str = "") -> None:
        verdict = f"wanted: {wanted}{'' if is_right else ': MISSED'}" if wanted else ""
        print(f"{name:44} status {cost.status:2}  {self.told(cost):24} {more:20} {verdict}".rstrip(), flush=True)
        self.is_right &= is_right

    def bounded(self, name: str, words: List[str], seconds: float, memory: Optional[int] = None) -> None:
        cost = self.cost([self.program, *words])
        wanted = f"below {seconds} s" + (f" and {memory} MiB" if memory else "")
        is_right = self.counts_instructions or (cost.taken < seconds and (not memory or cost.memory < memory))
        self.row(name, cost, wanted, is_right and cost.status in (0, 10))


def counted(words: List[str]) -> Cost:
    """The instructions that callgrind counts."""
    tool = ["valgrind", "--tool=callgrind", "--callgrind-out-file=/dev/null", *words]
    done = subprocess.run(tool, stdout=subprocess.DEVNULL, stderr=subprocess.PIPE, text=True, check=False)
    return Cost(done.returncode, float(re.findall(r"Collected : (\d+)", done.stderr)[-1]), 0)


def loop(bench: Bench) -> None:
    twin = os.path.join(bench.folder, "twin")
    subprocess.run(["rustc", "--edition", "2021", "-O", "-o", twin, os.path.join(HERE, "twin.rs")], check=True)
    words = [bench.program, "run", *(os.path.join(HERE, name) for name in LOOP)]
    own, other = bench.cost(words), bench.cost([twin, str(TURNS)])
    times = own.taken / other.taken
    bench.row("loop: the twin", other)
    bench.row("loop", own, "at most 2.0 times the twin", times <= 2.0 and own.status == 0, f"{times:.2f} times")


def over_loop(bench: Bench, script: str) -> List[str]:
    return ["run", *(os.path.join(HERE, name) for name in LOOP[:2]), os.path.join(bench.folder, script)]


def steps(bench: Bench) -> None:
    bench.made(moves.loop_texts())
    bench.bounded("steps", over_loop(bench, "steps.script"), 0.3)


def of_report(program: str, files: List[str]) -> str:
    """The moves of a run, as a script."""
    done = subprocess.run([program, "run", *files], stdout=subprocess.PIPE, check=True)
    return "".join(f"{move}\n" for move in re.findall(r"^\d+ (.*) -> ", done.stdout.decode(), re.MULTILINE))


def walk_files(bench: Bench, pages: int = 512, in_cluster: int = 8, budget: int = 128) -> List[str]:
    image, script, signers = bench.made(moves.walk_texts(pages, in_cluster, budget))
    return [image, signers, script]


def walk(bench: Bench) -> None:
    image, signers, script = walk_files(bench)
    scripted = bench.made({"scripted.script": of_report(bench.program, [image, signers, script])})
    bench.bounded("walk, by a script", ["run", image, signers, *scripted], 1.0, 60)


def auto(bench: Bench) -> None:
    bench.bounded("walk, by `auto 20000`", ["run", *walk_files(bench)], 0.5)


def growth(bench: Bench) -> None:
    for pages, in_cluster, budget in SIZES:
        cost = bench.cost([bench.program, "run", *walk_files(bench, pages, in_cluster, budget)])
        bench.row(f"walk: {pages} pages, {in_cluster} in a cluster, room for {budget}", cost)


def stops(bench: Bench) -> None:
    bench.made(moves.loop_texts())
    go, stop, losses = (bench.cost([bench.program, *over_loop(bench, f"{name}.script")]) for name in ("go", "stop", "losses"))
    bench.row("stops: none", go)
    for name, cost in (("stops: at the end", stop), ("stops: after 9,988 losses", losses)):
        times = cost.taken / go.taken
        bench.row(name, cost, "at most 2 times", times <= 2 and cost.status == 10, f"{times:.2f} times")


def demo(bench: Bench) -> None:
    bench.bounded("demo 1", ["demo", "1"], 0.1, 20)


def deep_image(depth: int = 80) -> str:
    """As many dotted keys as fit, each with tables down to the deepest."""
    return readers.filled("", lambda n: f"k{n}{'.a' * (depth - 1)}=1\n")


def within(program: str, memory: int, words: List[str]) -> int:
    """The status of a call whose process may have so many MiB."""
    limit: Callable[[], None] = lambda: resource.setrlimit(resource.RLIMIT_AS, (memory << 20, memory << 20))
    return subprocess.run([program, *words], stdout=subprocess.DEVNULL, stderr=subprocess.DEVNULL, preexec_fn=limit, check=False).returncode


def deep(bench: Bench) -> None:
    image, = bench.made({"deep.toml": deep_image()})
    bench.row("deep: dotted keys, 80 deep", bench.cost([bench.program, "measure", image], 1))
    for memory in ROOMS:
        status = within(bench.program, memory, ["measure", image])
        print(f"deep: in {memory} MiB: status {status}{'' if status in (3, 7) else ': MISSED'}", flush=True)
        bench.is_right &= status in (3, 7)


BENCHES: Dict[str, Callable[[Bench], None]] = {bench.__name__: bench for bench in (loop, steps, walk, auto, growth, stops, demo, deep)}


def main() -> int:
    words = argparse.ArgumentParser(description=__doc__, formatter_class=argparse.RawDescriptionHelpFormatter)
    words.add_argument("program", metavar="PROGRAM")
    words.add_argument("names", metavar="NAME", nargs="*", help=f"one of {', '.join(BENCHES)}")
    words.add_argument("--calls", type=int, default=5, metavar="N", help="how many calls of each (default: 5)")
    words.add_argument("--instructions", action="store_true", help="count instructions by callgrind, which wants valgrind")
    given = words.parse_args()
    if set(given.names) - set(BENCHES):
        words.error(f"no such name: {' '.join(set(given.names) - set(BENCHES))}")
    with tempfile.TemporaryDirectory() as folder:
        bench = Bench(given, folder)
        for name in given.names or BENCHES:
            BENCHES[name](bench)
    return 0 if bench.is_right else 1


if __name__ == "__main__":
    sys.exit(main())
