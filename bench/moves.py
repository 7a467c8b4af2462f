#!/usr/bin/env python3
"""Writes runs of many moves, for timing the program.

It writes into a folder
  steps.script   20,000 moves over loop.toml: a turn, an interrupt, an entry that has nothing to handle, and a resume, again and again
  go.script      20,000 such moves, and at the end the page of code is mapped as it was
  stop.script    the same, but the page is unmapped there: the enclave stops
  losses.script  as stop.script, but the page is unmapped and mapped again 9,988 times before
  walk.toml      a program that makes many loads, each at a place that the last one gave: by default over 512 pages in 64 clusters of 8,
                 with room for 128
  walk.script    up to 20,000 moves of the honest kernel for it
  signers.toml   that signs walk.toml
`bench/measure.py` times the program over them.
"""
import argparse
import os
import sys
from typing import Dict, List

sys.dont_write_bytecode = True
sys.path.insert(0, os.path.join(os.path.dirname(os.path.dirname(os.path.abspath(__file__))), "tools"))
from formats.images import PAGE_SIZE, Image, Page, measurement
from formats.writing import image_text

BASE = 0x40000000
LOADS = 2_000
MOST_MOVES = 20_000
SERVED = 17
CODE = (
    "48bb0010004000000000"  # RBX: page 1
    "48b90000000000000000"  # RCX: 0
    f"48ba{LOADS.to_bytes(8, 'little').hex()}"  # RDX: how many loads
    "49b80100000000000000"  # R8: 1
    "4889ce 48c1e603 4801de"  # RSI: RBX + 8 RCX
    "488b8e00000000"  # RCX: the 8 bytes there
    "4c29c2 0f85e6ffffff"  # RDX: one less; again, if it is not 0
    "48b80400000000000000 48bf0100000000000000 4889ce 0f01d7"  # an output of RCX
    "48b80400000000000000 48bf0000000000000000 48be0000000000000000 0f01d7"  # the end
)


def places(pages: int):
    """Numbers of 8 bytes of the pages from 1 on, without an end."""
    x = 1
    while True:
        x = (6364136223846793005 * x + 1442695040888963407) % 2**64
        yield (x >> 20) % ((pages - 1) * PAGE_SIZE // 8)


def walk(count: int, in_cluster: int, budget: int) -> Image:
    source = places(count)
    data = [b"".join(next(source).to_bytes(8, "little") for _ in range(PAGE_SIZE // 8)) for _ in range(count - 1)]
    pages = [Page("rx", "0", bytes.fromhex(CODE))] + [Page("r", str(p // in_cluster), page) for p, page in enumerate(data, 1)]
    return Image(BASE, 0, budget, "bench", pages)


AROUND = ["run 0 1", "interrupt 0", "eenter 0 0", "run 0 1", "eresume 0"]
LOSSES = ["setpte 0 8 -", "setpte 0 8 pxad"]


def steps() -> str:
    return "\n".join([f"auto {SERVED}", *(AROUND[i % len(AROUND)] for i in range(MOST_MOVES - SERVED))]) + "\n"


def ending(around: List[str], flags: str) -> str:
    """These moves again and again, from one at which the processor is inside. Then it leaves, page 0 is mapped so, and it runs on."""
    last = ["run 0 1", "interrupt 0", f"setpte 0 8 {flags}", "eresume 0", "run 0 9", "eenter 0 0", "run 0 9"]
    rounds, rest = divmod(MOST_MOVES - SERVED - len(last), len(around))
    return "\n".join([f"auto {SERVED}", *["run 0 1"] * rest, *around * rounds, *last]) + "\n"


def walk_texts(pages: int, in_cluster: int, budget: int) -> Dict[str, str]:
    """The image, the script and the signers of a random walk."""
    image = walk(pages, in_cluster, budget)
    return {"walk.toml": image_text(image), "walk.script": f"auto {MOST_MOVES}\n", "signers.toml": f'bench = ["{measurement(image)}"]\n'}


def loop_texts() -> Dict[str, str]:
    """The scripts over loop.toml."""
    return {"steps.script": steps(), "go.script": ending(AROUND, "pxad"), "stop.script": ending(AROUND, "-"), "losses.script": ending(LOSSES, "-")}


def write_all(folder: str, texts: Dict[str, str]) -> None:
    for name, text in texts.items():
        with open(os.path.join(folder, name), "w", encoding="ascii") as file:
            file.write(text)


def main() -> int:
    words = argparse.ArgumentParser(description=__doc__, formatter_class=argparse.RawDescriptionHelpFormatter)
    words.add_argument("folder", metavar="FOLDER")
    words.add_argument("--pages", type=int, default=512, help="the program's pages (default: 512)")
    words.add_argument("--in-cluster", type=int, default=8, help="the pages of a cluster (default: 8)")
    words.add_argument("--budget", type=int, default=128, help="the pages that may be in (default: 128)")
    given = words.parse_args()
    write_all(given.folder, {**loop_texts(), **walk_texts(given.pages, given.in_cluster, given.budget)})
    return 0


if __name__ == "__main__":
    sys.exit(main())
