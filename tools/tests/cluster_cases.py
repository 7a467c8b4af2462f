"""Tests of the clusters that tools/image makes, of C too. They want gcc and GNU binutils."""
import os
import re
import tempfile
from typing import List

from tests.harness import TOP, Tally, Told, call, written

STACK = 4 * ["stack"]
# The words of a call, and the clusters of its pages.
CLUSTERS = [
    ([], ["text", "data", *6 * ["bss"]]),
    (["--clusters", "one"], 8 * ["program"]),
    (["--clusters", "page"], [f"page{page}" for page in range(8)]),
    (["--clusters", "symbol"], ["_start", "secret", *STACK, "table", "table"]),
    (["--apart"], ["text", "text", "data", *6 * ["bss"]]),
    (["--apart", "--clusters", "symbol"], ["_start", "main", "secret", *STACK, "table", "table"]),
]
# A map file, the other words of the call, and the clusters of the pages.
MAPS = [
    ("# All data.\ndata: secret table 3-6 # and the stack\n", ["--apart"], ["text", "text", *7 * ["data"]]),
    ("code: .text\nhot: main\n", ["--apart", "--clusters", "symbol"], ["code", "hot", "secret", *STACK, "table", "table"]),
    ("hot: main\nhot: 0 secret\ncode: .text .bss", ["--apart"], ["hot", "hot", "hot", *6 * ["code"]]),
    ("", ["--clusters", "one"], 8 * ["program"]),
]
# A map file, and why it is refused.
REFUSED = [
    ("code main", "line 1: a line is `CLUSTER: NAME NAME ..`"),
    ("\n: main", "line 2: a line is `CLUSTER: NAME NAME ..`"),
    ("code:", "line 1: a line is `CLUSTER: NAME NAME ..`"),
    ("a: main\nb: nowhere", "line 2: no symbol `nowhere`"),
    ("a: .tdata", "line 1: no section `.tdata`"),
    ("a: 7-8", "line 1: no pages `7-8`: the program has 8, from 0 on"),
    ("a: 3-2", "line 1: no pages `3-2`: the program has 8, from 0 on"),
    ("a: table\nb: 7", "line 2: page 7 has `7`, and is in the cluster `a` for `table`"),
    ("a: .text\nb: .text", "line 2: page 0 has `.text`, and is in the cluster `a` for `.text`"),
    ("a: main\nb: _start", "line 2: page 0 has `_start`, and is in the cluster `a` for `main`"),
]


def image(*words: str) -> Told:
    sources = [os.path.join(TOP, "assembly", name) for name in ("start.s", "table.c")]
    return call("image", *sources, "--strict", *words)


def clusters_of(told: Told) -> List[str]:
    return re.findall(r'^cluster = "(.*)"$', told.out, re.MULTILINE)


def test(tally: Tally) -> None:
    for words, wanted in CLUSTERS:
        told = image(*words)
        tally.equal(f"image of C {' '.join(words)}: clusters", (clusters_of(told), told.err, told.status), (wanted, "", 0))
    with tempfile.TemporaryDirectory() as folder:
        for text, words, wanted in MAPS:
            told = image("--map", written(folder, "map", text), *words)
            tally.equal(f"image by the map {text!r}: clusters", (clusters_of(told), told.err, told.status), (wanted, "", 0))
        for text, why in REFUSED:
            told = image("--map", written(folder, "map", text))
            tally.equal(f"image by the map {text!r}: refused", (told.out, told.err, told.status), ("", f"image: {folder}/map: {why}\n", 1))
        told = image("--map", os.path.join(folder, "none"))
        tally.equal("image by no map", (told.out, told.err, told.status), ("", f"read failed: {folder}/none\n  No such file or directory\n", 2))
