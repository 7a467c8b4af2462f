"""The run that a number asks for: the image that it gives, its moves under the honest kernel, and their summary (docs/FORMATS.md)."""
from typing import Iterator

from formats.images import PAGE_SIZE, Image, Page
from yardstick.machine import Run

BASE = 0x40000000
PAGES, CLUSTER_SIZE, BUDGET = 512, 8, 128
WORD = 8
WORDS = (PAGES - 1) * (PAGE_SIZE // WORD)
MULTIPLIER, INCREMENT = 6364136223846793005, 1442695040888963407
FRAMES, MOST_MOVES = 136, 20000
# RBX := the address of page 1, RCX := 0, RDX := 300, R8 := 1; at 40: RSI := RBX + 8 RCX, RCX := the word at RSI, RDX := RDX - 1, to
# 40 where RDX is not 0; an output of RCX; the end.
PROGRAM = bytes.fromhex(
    "48bb0010004000000000 48b90000000000000000 48ba2c01000000000000 49b80100000000000000"
    "4889ce 48c1e603 4801de 488b8e00000000 4c29c2 0f85e6ffffff"
    "48b80400000000000000 48bf0100000000000000 4889ce 0f01d7"
    "48b80400000000000000 48bf0000000000000000 48be0000000000000000 0f01d7"
)


def words(number: int) -> Iterator[int]:
    """The words that a number begins, each the place of a word."""
    for _ in range(WORDS):
        number = (MULTIPLIER * number + INCREMENT) % 2**64
        yield (number >> 20) % WORDS


def generated(number: int) -> Image:
    """The image of a number: the program in page 0, and the words in the others."""
    data = b"".join(word.to_bytes(WORD, "little") for word in words(number))
    pages = [Page("rx", "0", PROGRAM)]
    pages += [Page("r", str(page // CLUSTER_SIZE), data[PAGE_SIZE * (page - 1) : PAGE_SIZE * page]) for page in range(1, PAGES)]
    return Image(BASE, 0, BUDGET, "demo", pages)


def last_word(number: int) -> int:
    """The output of the program, by the words alone: from the first on 300 times to the word whose place the last one names."""
    all_words, place = list(words(number)), 0
    for _ in range(300):
        place = all_words[place]
    return place


def end_of(run: Run) -> str:
    if run.stop is not None:
        return "stopped"
    return next((answer for _, answer in run.moves if answer.split(" ")[0] in ("ended", "trapped")), "unfinished")


def summary(number: int) -> str:
    """The text that `demo NUMBER` writes."""
    run = Run(generated(number), FRAMES, 1)
    run.auto(MOST_MOVES, [])
    misses = sum(event.startswith("miss ") for event in run.events)
    lines = [f"demo {number}", f"pages {PAGES} clusters {len(run.layout.pages_of)} budget {BUDGET}", f"moves {len(run.moves)}", f"misses {misses}"]
    lines += [f"output {value}" for value in run.outputs]
    return "\n".join([*lines, f"end {end_of(run)}"]) + "\n"
