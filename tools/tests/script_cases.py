"""Tests of tools/scripts."""
import re
import tempfile
from typing import List

from tests.harness import Tally, call, written

# Images that end, and how many moves the honest kernel makes until then.
ENDING = {"calls.toml": 12, "straddling_data.toml": 40, "lookup_3.toml": 46, "split_200.toml": 60, "five_pages.toml": 46, "division.toml": 20}

ENTERED = ["eenter 0 0", *2 * ["run 0 1"], "eenter 0 0", "run 0 1", "eldu 8 0 0 1 0", "setpte 0 8 pxad", "eenter 0 0", *3 * ["run 0 1"], "eresume 0"]

# Words, and the lines that are written; `s` is the script of a row. The images are those of the examples.
CALLS = [
    (["single-step", "calls.toml", "auto.script"], None, [*ENTERED, *5 * ["run 0 1"], "eenter 0 0", *6 * ["run 0 1"]]),
    (["single-step", "calls.toml", "s"], "auto 8;eenter 0 3;eresume 1;run 0 9;run 0 2;input 1", [*ENTERED[:-1], "eenter 0 3", "eresume 1", "run 0 1", "run 0 2"]),
    (["single-step", "calls.toml", "s", "--processors", "2"], "eenter 1 0;run 1 2;run 0 3;interrupt 1", ["eenter 1 0", "run 1 1", "run 1 1", "run 0 3", "interrupt 1"]),
    (["unmap", "calls.toml", "auto.script"], None, [
        *ENTERED[:8], *3 * ["setpte 0 8 -", "run 0 1", "setpte 0 8 pxad"], "eresume 0", *5 * ["setpte 0 8 -", "run 0 1", "setpte 0 8 pxad"],
        "eenter 0 0", *6 * ["setpte 0 8 -", "run 0 1", "setpte 0 8 pxad"]]),
    (["unmap", "two_page_loop.toml", "s"], "auto 11;run 0 3", [
        "eenter 0 0", *2 * ["run 0 1"], "eenter 0 0", "run 0 1", "eldu 8 0 0 1 0", "eldu 9 1 1 1 1", "setpte 0 8 pxad", "setpte 1 9 pwad", "eenter 0 0",
        "setpte 0 8 -", "run 0 1", "setpte 0 8 pxad", "setpte 1 9 -", "run 0 1", "setpte 1 9 pwad", "setpte 0 8 -", "run 0 1", "setpte 0 8 pxad",
        "setpte 1 9 -", "run 0 1", "setpte 1 9 pwad", "eresume 0",
        "setpte 0 8 -", "run 0 1", "setpte 0 8 pxad", "setpte 1 9 -", "run 0 1", "setpte 1 9 pwad", "setpte 0 8 -", "run 0 1", "setpte 0 8 pxad"]),
    (["unmap", "two_page_loop.toml", "s", "--page", "1"], "auto 11;run 0 2", [
        "eenter 0 0", *2 * ["run 0 1"], "eenter 0 0", "run 0 1", "eldu 8 0 0 1 0", "eldu 9 1 1 1 1", "setpte 0 8 pxad", "setpte 1 9 pwad", "eenter 0 0",
        *4 * ["setpte 1 9 -", "run 0 1", "setpte 1 9 pwad"], "eresume 0", *2 * ["setpte 1 9 -", "run 0 1", "setpte 1 9 pwad"]]),
]


def swapped(lp: int, page: int, old: int, new: int, slot: int, handle: int, flags: str, between: "tuple[str, ...]" = ()) -> List[str]:
    """The moves that write a page out of its old frame and load it into the new one."""
    return [f"setpte {page} 0 -", f"eblock {old}", "etrack", f"ewb {old} 1 {slot}", f"interrupt {lp}", f"ewb {old} 1 {slot}", *between,
            f"eldu {new} {handle} {page} 1 {slot}", f"setpte {page} {new} {flags}", f"eresume {lp}"]


def replayed(frame: int, page: int, handle: int, slot: int, empty: int) -> "tuple[str, ...]":
    """The moves that offer an old version."""
    return tuple(f"eldu {frame} {handle} {page} 1 {each}" for each in (slot, empty))


CALLS += [
    (["swap", "two_page_loop.toml", "s", "--every", "6"], "auto 11;run 0 2", [
        *ENTERED[:6], "eldu 9 1 1 1 1", "setpte 0 8 pxad", "setpte 1 9 pwad", "eenter 0 0", "run 0 1", "run 0 1",
        *swapped(0, 0, 8, 8, 0, 2, "pxad"), "run 0 1", "run 0 1", "eresume 0", "run 0 1", "run 0 1"]),
    (["swap", "calls.toml", "s", "--frames", "11"], "auto 7;run 0 2", [
        *ENTERED[:8], *swapped(0, 0, 8, 9, 0, 1, "pxad"), "run 0 1", *swapped(0, 0, 9, 8, 0, 2, "pxad"), "run 0 1"]),
    (["replay", "calls.toml", "s", "--page", "0"], "auto 7;run 0 2", [
        *ENTERED[:8], *swapped(0, 0, 8, 8, 0, 1, "pxad", replayed(8, 0, 0, 0, 1)), "run 0 1",
        *swapped(0, 0, 8, 8, 0, 2, "pxad", replayed(8, 0, 1, 0, 1)), "run 0 1"]),
]

# Words that are refused, and the last line that tells why.
REFUSED = [
    (["single-step", "calls.toml"], "scripts single-step: error: the following arguments are required: SCRIPT"),
    (["single-step", "loop.toml", "auto.script"], "scripts: too many moves: a script may have 20000"),
    (["single-step", "calls.toml", "bad.script"], "  line 2, column 7: N is `0` and must be 1 to 1000000"),
    (["unmap", "calls.toml", "auto.script", "--page", "1"], "scripts: no page 1: the image has 1"),
    (["unmap", "calls.toml", "auto.script", "--frames", "8"], "scripts unmap: error: argument --frames: '8' is no number from 9 to 8192"),
    (["unmap", "small_budget.toml", "auto.script"], "  4 is the number of pages of all clusters: `a` 1, `b` 1, `c` 1, `d` 1"),
    (["unmap", "none", "auto.script"], "  No such file or directory"),
    (["again"], "scripts: error: argument KIND: invalid choice: 'again' (choose from 'single-step', 'unmap', 'swap', 'replay')"),
    (["swap", "calls.toml", "auto.script", "--every", "0"], "scripts swap: error: argument --every: '0' is no number from 1 to 20000"),
]


def unseen(report: str) -> List[str]:
    """The outputs, the events and the stop."""
    return re.findall("^(?:output|event|stop) .*$", report, re.MULTILINE)


def test_whole(tally: Tally, folder: str) -> None:
    """What is written out and loaded again is not missed: the outputs and the events are those of the whole run, and there is no stop."""
    for image, moves in ENDING.items():
        whole = call("predict", image, "signers.toml", written(folder, "whole", f"auto {moves}")).out
        for kind in ("single-step", "swap", "replay"):
            script = call("scripts", kind, image, written(folder, "whole", f"auto {moves}")).out
            told = call("predict", image, "signers.toml", written(folder, "steps", script))
            tally.equal(f"scripts {kind} {image}: outputs, events and stop", (unseen(told.out), told.status), (unseen(whole), 0))
            answers = {"eldu": {"ok"}, "ewb": {"nottracked", "handle"}, "interrupt": {"ok"}, "eresume": {"ok"}}
            if kind == "replay":
                answers["eldu"] = {"ok", "macfail", "slotempty"}
            found = {word: set(re.findall(rf"^\d+ {word} .* -> (\w+)", told.out, re.MULTILINE)) for word in answers}
            tally.holds(f"scripts {kind} {image}: answers", all(found[word] <= answers[word] for word in answers))
            tally.equal(f"scripts {kind} {image}: old versions that are refused", "macfail" in found["eldu"], kind == "replay")


def test(tally: Tally) -> None:
    with tempfile.TemporaryDirectory() as folder:
        for words, script, lines in CALLS:
            path = written(folder, "s", (script or "").replace(";", "\n"))
            told = call("scripts", *(path if word == "s" else word for word in words))
            tally.equal(f"scripts {' '.join(words)}", tuple(told), ("\n".join(lines) + "\n", "", 0))
        test_whole(tally, folder)
    for words, why in REFUSED:
        told = call("scripts", *words)
        tally.equal(f"scripts {' '.join(words)}", (told.out, told.err.split("\n")[-2], told.status), ("", why, 2))
