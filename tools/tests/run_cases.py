"""Tests of tools/predict: the examples, and the tables of calls in crates/cases."""
import os
import re
from typing import Dict, Iterator, List, NamedTuple, Optional

from formats.images import PAGE_SIZE, Image, Page, measurement
from formats.refusals import Refusal
from formats.scripts import read_script
from tests.harness import TOP, Tally, call, examples
from yardstick.areas import Watch
from yardstick.machine import Run

TABLES = os.path.join(TOP, "crates", "cases", "data")
CONTEXTS, LEFT = "contexts.txt", "left.txt"
LONG = ["auto 20000"]  # Twenty million turns, which take the yardstick two minutes: left to the program.
OTHERS = ("files.txt", "images.txt", "demo.txt", LEFT, CONTEXTS)
BASE = 0x10000000
FEWEST_CASES = 150


class Case(NamedTuple):
    """A run of a table: the name of the image, the options, the script, and the report with the status."""

    image: str
    options: List[str]
    script: str
    outcome: str


def table(file: str) -> str:
    """The text of a table."""
    with open(os.path.join(TABLES, file), encoding="utf-8") as opened:
        return opened.read()


def pages_of(word: str) -> List[Page]:
    """The pages of a word of the table of images."""
    count, asterisk, page = word.rpartition("*")
    perms, cluster, data = page.split(":")
    zeros, _, digits = data.rpartition(".")
    return (int(count) if asterisk else 1) * [Page(perms, cluster, bytes(int(zeros or 0)) + bytes.fromhex(digits))]


def images() -> Dict[str, Image]:
    found = {}
    for line in table("images.txt").split("\n"):
        if line and line[0] != "#":
            name, budget, entry, *words = line.split(" ")
            found[name] = Image(BASE, int(entry), int(budget), "lab", [page for word in words for page in pages_of(word)])
    return found


def case_of(text: str) -> Optional[Case]:
    """The run of a case; none, where it is no run that gives a report, or one in which a fault of the outside comes."""
    given, _, outcome = text.partition("\n> ")
    lines = [line.split(" ", 1) for line in given.split("\n")]
    words = next((rest[0].split(" ") for mark, *rest in lines if mark == "$"), [])
    marks = {mark for mark, *_ in lines}
    if not outcome.startswith("autarky 1\n") or marks - {"$", "#", "|"} or words[0] != "run" or "--" in words:
        return None
    script = [rest[0] for mark, *rest in lines if mark == "|"]
    if script == [".."]:
        script = re.findall(r"^\d+ (.*) -> ", outcome, re.MULTILINE)
    options = re.findall(r"--\w+[ =]\d+", " ".join(words[1:]))
    return Case(re.sub(r"--\w+[ =]\d+ ", "", " ".join(words[1:]) + " ").split(" ")[0], options, "\n".join(script) + "\n", outcome)


def cases() -> Iterator["tuple[str, Case]"]:
    for file in sorted(os.listdir(TABLES)):
        if file not in OTHERS:
            for number, text in enumerate(table(file).rstrip("\n").split("\n\n")[1:], 1):
                case = case_of(text)
                if case is not None:
                    yield f"{file} {number}", case


def predicted(image: Image, case: Case) -> str:
    """What comes of a case, as the table tells it."""
    options = {re.split("[ =]", option)[0][2:]: int(re.split("[ =]", option)[1]) for option in case.options}
    run = Run(image, **options)
    run.play(read_script(case.script.encode()))
    return f"{run.report()}! = {0 if run.stop is None else 10}"


def test_tables(tally: Tally) -> None:
    found, count = images(), 0
    for name, case in cases():
        tally.equal(f"predict {name}", predicted(found[case.image], case), case.outcome)
        count += 1
    tally.holds("predict: the tables have many cases", count >= FEWEST_CASES)
    signed = table("files.txt").lower()
    for name, image in found.items():
        tally.holds(f"measurement of {name}", measurement(image) in signed or name == "B3")


def changed(image: Image, moves: List[str]) -> str:
    """What each move changes in the pages of contexts, as the table tells it."""
    run, lines = Watch(image, 16, 2), []
    for number, move in enumerate(moves, 1):
        run.play(read_script(f"{move}\n".encode()))
        lines += [f"{number} {page} {place} {word}" for page, place, word in run.changes()]
    return "\n".join(lines)


def test_contexts(tally: Tally) -> None:
    found = images()
    for text in table(CONTEXTS).rstrip("\n").split("\n\n")[1:]:
        given, _, outcome = text.partition("\n> ")
        lines = given.split("\n")
        moves = [line[2:] for line in lines if line.startswith("| ")]
        tally.equal(f"contexts: {lines[1][2:]}", changed(found[lines[0][2:]], moves), outcome)


def page_lines(run: Run, page: int) -> List[str]:
    """A page that is left, as the table tells it: its frame, and each word of eight bytes that is not zero."""
    frame = run.enclave.frame_of(page)
    if frame is None:
        return [f"page {page} in no frame"]
    data = run.memory[PAGE_SIZE * page : PAGE_SIZE * (page + 1)]
    words = [(place, data[place : place + 8]) for place in range(0, PAGE_SIZE, 8)]
    return [f"page {page} in frame {frame}"] + [f"{place} {word.hex()}" for place, word in words if any(word)]


def leavings(image: Image, script: List[str], pages: List[int]) -> str:
    """What a run leaves, as the table tells it."""
    run = Run(image)
    run.play(read_script("".join(f"{line}\n" for line in script).encode()))
    is_told = run.enclave.frame_of(run.layout.tcs) is not None
    lines = [f"the run, {len(run.runtime.stack)} saved" if is_told else "the run, its TCS in no frame"]
    lines += [line for page in pages for line in page_lines(run, page)]
    return "\n".join([*lines, f"= {0 if run.stop is None else 10}"])


def test_left(tally: Tally) -> None:
    """A call leaves its run at 0 and 10, and nothing after a measurement and at another status."""
    found, runs = images(), 0
    for text in table(LEFT).rstrip("\n").split("\n\n")[1:]:
        given, _, outcome = text.partition("\n> ")
        lines = given.split("\n")
        name, status = lines[0].split(" ")[2], int(outcome.rpartition("= ")[2])
        script = [line[2:] for line in lines if line.startswith("| ")]
        if script == LONG:
            continue
        if lines[0].startswith("$ run ") and status in (0, 10):
            pages = [int(line[5:]) for line in lines if line.startswith("page ")]
            tally.equal(f"left: {name} {len(script)} {status}", leavings(found[name], script, pages), outcome)
            runs += 1
        else:
            tally.equal(f"left: {name} {status}", outcome, f"nothing\n= {status}")
    tally.holds("left: runs are left", runs >= 4)


def test_lines(tally: Tally) -> None:
    """The lines of the table that are refused, and those that are taken."""
    for text in table("script_lines.txt").rstrip("\n").split("\n\n")[1:]:
        given, _, outcome = text.partition("\n> ")
        script = [line[2:] for line in given.split("\n") if line.startswith("|")]
        told = ""
        try:
            read_script("".join(f"{line}\n" for line in script).encode())
        except Refusal as why:
            told = why.line
        wanted = outcome[2:].partition("\n")[0] if outcome.startswith("! ") else ""
        tally.equal(f"script line {script[-1]}", told, wanted)


def test_examples(tally: Tally) -> None:
    for words, text, status in examples():
        if words[0] == "run" and status not in (2, 3, 4):
            told = call("predict", *words[1:])
            tally.equal(f"predict as the program: {' '.join(words)}", (told.out, told.status), (text, status))


def test(tally: Tally) -> None:
    test_tables(tally)
    test_contexts(tally)
    test_left(tally)
    test_lines(tally)
    test_examples(tally)
