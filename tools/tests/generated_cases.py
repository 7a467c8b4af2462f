"""Tests of the images of numbers, and of the table of their summaries in crates/cases."""
import os
import re
from collections import Counter

from formats.images import PAGE_SIZE
from tests.harness import TOP, Tally
from yardstick.generated import PROGRAM, generated, last_word

TABLE = os.path.join(TOP, "crates", "cases", "data", "demo.txt")
SUMMARY = re.compile(
    r"^> demo (\d+)\npages 512 clusters 64 budget 128\nmoves (\d+)\nmisses (\d+)\noutput (\d+)\n(?:end ended 0\n! = 0|! write failed\n= 6)$", re.MULTILINE
)
# By hand: 1 is followed by 6364136223846793005 + 1442695040888963407 = 7806831264735756412, and 7806831264735756412 / 2^20 is
# 7445174469695, which is 30783 modulo 511 * 512. 2^64 - 1 is followed by 1442695040888963407 - 6364136223846793005 + 2^64.
FIRST_WORDS = {
    0: [2422, 57419, 193255],
    1: [30783, 136292, 120329],
    2**64 - 1: [105133, 109618, 4548],
}
BEGINNING_OF_1 = "3f78000000000000 6414020000000000 09d6010000000000"


def test_image(tally: Tally) -> None:
    for number, wanted in FIRST_WORDS.items():
        page = generated(number).pages[1].data
        tally.equal(f"the first words of {number}", [int.from_bytes(page[8 * k : 8 * k + 8], "little") for k in range(3)], wanted)
    image = generated(1)
    tally.equal("the first bytes of 1", image.pages[1].data[:24], bytes.fromhex(BEGINNING_OF_1))
    tally.equal("the numbers of an image", (image.base, image.entry, image.budget, image.signer), (0x40000000, 0, 128, "demo"))
    tally.equal("the permissions of its pages", [page.perms for page in image.pages], ["rx"] + 511 * ["r"])
    tally.equal("the clusters of its pages", [int(page.cluster) for page in image.pages], [page // 8 for page in range(512)])
    tally.equal("the lengths of its pages", Counter(len(page.data) for page in image.pages), {PAGE_SIZE: 511, 125: 1})
    tally.equal("its first page", image.pages[0].data, PROGRAM)


def test_table(tally: Tally) -> None:
    """Each summary of the table has the output that the words alone give; the same number has the same lines."""
    with open(TABLE, encoding="utf-8") as file:
        found = SUMMARY.findall(file.read())
    tally.holds("demo.txt: the summaries are read", len(found) >= 3)
    tally.equal("demo.txt: the outputs", [int(told) for *_, told in found], [last_word(int(number)) for number, *_ in found])
    tally.equal("demo.txt: a number has one summary", len(set(found)), len({number for number, *_ in found}))


def test(tally: Tally) -> None:
    test_image(tally)
    test_table(tally)
