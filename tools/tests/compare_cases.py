"""Tests of tools/compare."""
import tempfile

from tests.harness import Tally, call, written
from tests.reports import PF, report

CALL = report(["eenter 0 0 -> ok", "run 0 9 -> call 1 7"], ["output 7", "event call 3 1 7"])
LATER = report(["eenter 0 0 -> ok", "run 0 9 -> call 1 7"], ["output 7", "event call 4 1 7"])
OTHER = report(["eenter 0 0 -> ok", "run 0 9 -> call 1 8"], ["output 8", "event call 3 1 8"])
LONGER = report(["eenter 0 0 -> ok", "run 0 8 -> in"], [])
BROKEN = report(["eenter 0 0 -> ok", f"run 0 9 -> {PF}"], ["event break 3"])
SHORT = report(["eenter 0 0 -> ok"], [])

# Two reports, the status, and what is told.
PAIRS = [
    ("itself", CALL, CALL, 0, ["seen by the kernel: equal, 2 moves", "not seen: equal, 1 output and 1 event"]),
    ("another count", CALL, LATER, 0, ["seen by the kernel: equal, 2 moves", "not seen: differs", "  a:5: event call 3 1 7", "  b:5: event call 4 1 7"]),
    ("another value", CALL, OTHER, 1, [
        "seen by the kernel: differs at move 2, the answers differ", "  a:3: 2 run 0 9 -> call 1 7", "  b:3: 2 run 0 9 -> call 1 8",
        "not seen: differs", "  a:4: output 7", "  b:4: output 8"]),
    ("a break", BROKEN, CALL, 1, [
        "seen by the kernel: differs at move 2, the answers differ", f"  a:3: 2 run 0 9 -> {PF}", "  b:3: 2 run 0 9 -> call 1 7",
        "not seen: differs", "  a:4: event break 3", "  b:4: output 7"]),
    ("other moves", CALL, LONGER, 1, [
        "seen by the kernel: differs at move 2, the kernel's own moves differ", "  a:3: 2 run 0 9 -> call 1 7", "  b:3: 2 run 0 8 -> in",
        "not seen: differs", "  a:4: output 7", "  b:4: stop none"]),
    ("other moves of equal answers", LONGER, LONGER.replace("run 0 8", "run 0 7"), 1, [
        "seen by the kernel: differs at move 2, the kernel's own moves differ", "  a:3: 2 run 0 8 -> in", "  b:3: 2 run 0 7 -> in",
        "not seen: equal, 0 outputs and 0 events"]),
    ("a shorter one", SHORT, LONGER, 1, [
        "seen by the kernel: differs at move 2, one report has no more moves", "  a: no more", "  b:3: 2 run 0 8 -> in",
        "not seen: equal, 0 outputs and 0 events"]),
]

# A text that is no report, and why.
FAULTY = [
    ("autarky 1\n", "line 1: no stop: autarky 1"),
    ("autarky 1\nstop\n", "line 2: no stop: stop"),
    ("autarky 1\nstop none\nstop none\n", "line 2: no line of the move 1"),
    (report(["etrack -> ok"], [], "blame 1"), "line 3: no stop: stop blame 1"),
    (report(["etrack -> ok"], [], "resumed"), "line 3: no stop: stop resumed"),
    (report(["etrack -> ok"], [], "unmapped 0 fetch blame 1"), "line 3: no stop: stop unmapped 0 fetch blame 1"),
    (report(["etrack -> ok"], [], "resumed blame 2"), "line 3: no move to blame: stop resumed blame 2"),
    ("", "line 1: a report begins with the line `autarky 1`"),
    ("autarky 2\n", "line 1: a report begins with the line `autarky 1`"),
    ("autarky 1\n1 eenter 0 0 -> ok", "line 2: the last line does not end"),
    (report(["eenter 0 -> ok"], []), "line 2: no move: eenter 0"),
    (report(["eenter 0 00 -> ok"], []), "line 2: no move: eenter 0 00"),
    (report(["setpte 0 8 wp -> ok"], []), "line 2: no move: setpte 0 8 wp"),
    (report(["setpte 0 8  -> ok"], []), "line 2: no move: setpte 0 8 "),
    (report(["auto -> ok"], []), "line 2: no move: auto"),
    (report(["eenter 0 0 -> okay"], []), "line 2: no answer: okay"),
    (report(["eenter 0 0 -> call 1"], []), "line 2: no answer: call 1"),
    ("autarky 1\n2 eenter 0 0 -> ok\nstop none\n", "line 2: no line of the move 1"),
    ("autarky 1\n1 eenter 0 0\nstop none\n", "line 2: no line of the move 1"),
    (report([], ["output x"]), "line 2: no output: output x"),
    (report([], ["event miss 1"]), "line 2: no event: event miss 1"),
    (report([], ["event break 1", "output 1"]), "line 3: no output or event, or one that comes too late"),
    (report([], ["event break 1", "1 eenter 0 0 -> ok"]), "line 3: no output or event, or one that comes too late"),
]


def test(tally: Tally) -> None:
    with tempfile.TemporaryDirectory() as folder:
        for name, a, b, status, lines in PAIRS:
            written(folder, "a", a)
            written(folder, "b", b)
            tally.equal(f"compare with {name}", tuple(call("compare", "a", "b", folder=folder)), ("\n".join(lines) + "\n", "", status))
        for text, why in FAULTY:
            written(folder, "a", text)
            for words in (("a", "b"), ("b", "a")):
                tally.equal(f"compare {' '.join(words)}, {why}", tuple(call("compare", *words, folder=folder)), ("", f"compare: a: {why}\n", 2))
        told = call("compare", "a", "none", folder=folder)
        tally.equal("compare with no file", (told.out, told.status), ("", 2))
        tally.equal("compare of one report", call("compare", "a", folder=folder).status, 2)
