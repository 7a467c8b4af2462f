"""Reports for the tests: those of the examples, and longer ones."""
from typing import Dict, List

from tests.harness import examples

PF = "pf 268435456 4"


def report(moves: List[str], rest: List[str], stop: str = "none") -> str:
    """The text of a report, of moves with their answers, outputs, events and the stop."""
    lines = [f"{number} {move}" for number, move in enumerate(moves, 1)]
    return "\n".join(["autarky 1", *lines, *rest, f"stop {stop}", ""])


def example_reports() -> Dict[str, str]:
    """The reports of the examples, by the names of image and script."""
    return {" ".join([words[1], *words[3:]]): text for words, text, _ in examples() if text.startswith("autarky 1\n")}


def stepped(turns: int) -> str:
    return report(["eenter 0 0 -> ok", *turns * ["run 0 1 -> in"]], [])


def unmapping() -> str:
    """Pages are unmapped and mapped in turn, and at last one stays unmapped."""
    moves = ["eenter 0 0 -> ok"]
    for step in range(200):
        page = step % 3 + 1
        moves += [f"setpte {page} {8 + page} - -> ok", "run 0 1 -> in", f"setpte {page} {8 + page} pwad -> ok"]
    moves += ["setpte 0 8 pad -> ok", f"run 0 10 -> {PF}", "readpte 0 -> pte 8 pad", "eenter 0 0 -> ok", "run 0 10 -> stopped"]
    return report(moves, ["event break 199"], "unmapped 0 exec blame 602")


def calling() -> str:
    """A hundred calls with outputs, and a trap."""
    moves, outputs, events = [], [], []
    for i in range(100):
        moves += [f"eenter 0 {i} -> ok", "run 0 2 -> in", f"run 0 1000 -> call 1 {i * i}"]
        outputs.append(f"output {i * i}")
        events.append(f"event call {5 * i + 4} 1 {i * i}")
    moves += ["eenter 0 7 -> ok", "eenter 0 7 -> inside", "eenter 1 7 -> nolp", "run 0 9999 -> vector 13"]
    return report(moves, [*outputs, *events, "event trap 600 13"])


def wide() -> str:
    """Moves of which no two are alike, with long numbers; a break in the first strip, and the stop in the last."""
    moves = ["setpte 1 4294967295 pwxad -> ok", "eenter 0 18446744073709551615 -> ok", f"run 0 1000000 -> {PF}"]
    for i in range(60):
        moves += [f"readpte {i} -> pte {4294967295 - i} pwxad", f"eenter 3 {2**64 - 1 - i} -> nolp", f"run 0 {i + 1} -> outside", f"setpte {i + 5} {i} -" + " -> nopage"]
    return report([*moves, "eenter 0 0 -> ok", "run 0 1 -> stopped"], ["event break 18446744073709551615"], "unmapped 1 write blame 1")


def paging() -> str:
    """A runtime that pages, on two processors, for a program that misses again and again."""
    moves, events = ["eenter 0 0 -> ok"], []
    for i in range(40):
        moves += [f"run 0 100 -> {PF}", "eenter 1 0 -> ok", f"run 1 100 -> ask {int(i > 3)} {i % 7}"]
        if i > 3:
            moves += [f"setpte {i % 9} 0 - -> ok", "eblock 9 -> ok", "etrack -> ok", f"ewb 9 1 {i} -> handle {i + 44}"]
        moves += [f"eldu 9 {i} 3 1 1 -> ok", "setpte 3 9 pwad -> ok", "eenter 0 0 -> ok", "run 0 100 -> ready", "eresume 0 -> ok"]
        events.append(f"event miss {5 * i} {i % 7}")
    return report([*moves, "interrupt 0 -> ok", "eresume 0 -> ok", "run 0 100 -> ended 0"], [*events, "event call 200 0 0"])


def long_reports() -> Dict[str, str]:
    return {"20000 steps": stepped(19_999), "unmapping": unmapping(), "calling": calling(), "wide": wide(), "paging": paging(), "nothing": report([], []),
            "a call before its leave": report(["eenter 0 0 -> ok", "run 0 4 -> in"], ["event call 2 1 7"]),
            "no paces": report(["run 0 9 -> in"], [])}
