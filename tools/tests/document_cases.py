"""Tests of the pages that tell of the tools: the pictures are up to date, and the commands give what stands below them."""
import os
import re
import subprocess
import sys
import tempfile
from typing import Dict, List, NamedTuple

from tests.harness import TOOLS, TOP, Tally, call, written
from tests.program import Given, Program
from tests.reports import example_reports
from tests.run_cases import table
from tests.stand_in import Kept, kept

PAGE, README = os.path.join(TOP, "docs", "TOOLS.md"), os.path.join(TOP, "README.md")
COMMAND = re.compile(r"tools/|assembly/|data=|as |printf |cat |tail |sed |for |\(cd |autarky (run|measure) ")
DEFINITION = re.compile(r"^(?:data=|autarky\(\)).*\n", re.MULTILINE)
CALL = re.compile(r"cd crates/autarky && rt (try|run) --")
PICTURES = {
    "calls": "calls.toml auto.script",
    "unmapped": "calls.toml unmapped.script",
    "echo": "echo.toml input.script",
    "denied_store": "denied_store.toml auto.script",
    "straddling_data": "straddling_data.toml auto.script",
    "early_resume": "two_page_loop.toml early_resume.script",
    "stuck": "calls.toml stuck.script",
}
# Pictures of cases in the tables of crates/cases, by the table and the comment of the case.
PICTURES_OF_CASES = {
    "four_processors": ("entries.txt", "Each turn on another processor."),
    "fetch": ("blame.txt", "And after it: the move that took it."),
    "runtime": ("runtime_pages.txt", "STATE is unmapped while a call returns."),
}


class Block(NamedTuple):
    """Indented lines of a page: commands, or what they give."""

    is_command: bool
    text: str


def page_text(path: str) -> str:
    with open(path, encoding="utf-8") as file:
        return file.read()


def blocks_of(text: str) -> List[Block]:
    found = re.findall(r"(?:^    .*\n)+", text, re.MULTILINE)
    blocks = [re.sub(r"^    ", "", lines, flags=re.MULTILINE) for lines in found]
    return [Block(bool(COMMAND.match(block)), block) for block in blocks]


def lookup_report(folder: str) -> str:
    """The report of assembly/lookup.s, each page a cluster, as docs/TOOLS.md has it."""
    signers, image = os.path.join(folder, "signers.toml"), os.path.join(folder, "lookup.toml")
    call("image", os.path.join(TOP, "assembly", "lookup.s"), "--strict", "--define", "SECRET=1", "--clusters", "page", "--sign", signers, "-o", image)
    return call("predict", image, signers, "auto.script").out


def report_of_case(file: str, comment: str) -> str:
    """The report of the case with this comment in a table of crates/cases."""
    (case,) = [text for text in table(file).split("\n\n") if f"\n# {comment}\n" in text]
    lines = case.partition("\n> ")[2].split("\n")
    return "".join(f"{line}\n" for line in lines if line and not line.startswith("!"))


def drawn_reports(folder: str) -> Dict[str, str]:
    """The reports of the pictures."""
    reports = example_reports()
    of_examples = {name: reports[example] for name, example in PICTURES.items()}
    of_cases = {name: report_of_case(*case) for name, case in PICTURES_OF_CASES.items()}
    return {**of_examples, **of_cases, "lookup": lookup_report(folder)}


def test_pictures(tally: Tally) -> None:
    with tempfile.TemporaryDirectory() as folder:
        reports = drawn_reports(folder)
        for name, report in reports.items():
            drawn = call("draw", written(folder, "r", report)).out
            tally.holds(f"docs/pictures/{name}.svg is up to date", page_text(os.path.join(TOP, "docs", "pictures", f"{name}.svg")) == drawn)
    shown = set(re.findall(r"pictures/(\w+)\.svg", page_text(PAGE)))
    tally.equal("the pictures of the page", shown, set(reports))
    tally.equal("the pictures that are there", {name[:-4] for name in os.listdir(os.path.join(TOP, "docs", "pictures"))}, set(reports))


def test_architecture(tally: Tally) -> None:
    """The picture of the crates is up to date, and tools/architecture.py sees where one is not."""
    tally.equal("docs/architecture.svg is up to date", tuple(call("architecture.py", "--check")), ("", "", 0))
    with tempfile.TemporaryDirectory() as folder:
        picture, old = os.path.join(folder, "picture.svg"), written(folder, "old.txt", "below:\nabove: below\n")
        drawn = call("architecture.py", "--crates", old, "--out", picture)
        shown = re.findall(r">(\w+)</text>", page_text(picture))
        tally.equal("architecture.py draws two crates", (tuple(drawn), shown), (("", "", 0), ["above", "below"]))
        tally.equal("architecture.py --check of what it drew", call("architecture.py", "--check", "--crates", old, "--out", picture).status, 0)
        new = written(folder, "new.txt", "below:\nabove: below\nother: below\n")
        tally.equal("architecture.py --check of another list", call("architecture.py", "--check", "--crates", new, "--out", picture).status, 1)


def test_names(tally: Tally) -> None:
    """Each tool that the page names is there, and each that is there is named."""
    tools = {name for name in os.listdir(os.path.join(TOP, "tools")) if "." not in name and os.path.isfile(os.path.join(TOP, "tools", name))}
    named = set(re.findall(r"`tools/(\w+)`", page_text(PAGE)))
    tally.equal("the tools of the page", named - {"formats", "syntax", "tests", "yardstick"}, tools)
    for tool in sorted(tools):
        told = call(tool, "--help")
        tally.equal(f"{tool} --help", (told.out.startswith(f"usage: {tool} "), told.err, told.status), (True, "", 0))
    readme = page_text(README)
    tally.holds("the README names the test and the page", "`tools/test`" in readme and "docs/TOOLS.md" in readme)


# ---- The commands


class Shell:
    """Runs the commands of a page one after the other, with the stand-in for the program."""

    def __init__(self, home: str, calls: str):
        self.home = home
        self.program = f"{sys.executable} {os.path.join(TOOLS, 'tests', 'stand_in.py')} {calls}"
        self.definitions = ""
        self.told = ""

    def run(self, text: str) -> str:
        """What a block of commands tells."""
        text = CALL.sub(self.program, text)
        self.definitions += "".join(DEFINITION.findall(text))
        words, outside = ["sh", "-c", self.definitions + text], {**os.environ, "HOME": self.home}
        done = subprocess.run(words, cwd=TOP, env=outside, capture_output=True, text=True, check=False)
        self.told = done.stdout + done.stderr
        return self.told


def test_page(tally: Tally, path: str) -> List[Kept]:
    """The commands of a page give what stands below them. What they called the program with is given back."""
    name = os.path.basename(path)
    with tempfile.TemporaryDirectory() as home, tempfile.TemporaryDirectory() as calls:
        shell = Shell(home, calls)
        for block in blocks_of(page_text(path)):
            first = block.text.splitlines()[0]
            if block.is_command:
                told = shell.run(block.text)
                tally.holds(f"{name}: runs: {first}", "not found" not in told and "Traceback" not in told)
            else:
                missing = [line for line in block.text.splitlines() if line not in shell.told.splitlines()]
                tally.equal(f"{name}: is given: {first}", missing, [])
        return kept(calls)


def test(tally: Tally) -> None:
    test_pictures(tally)
    test_architecture(tally)
    test_names(tally)
    for path in (README, PAGE):
        test_page(tally, path)


def test_program(tally: Tally, program: Program) -> None:
    """The program writes what its stand-in writes in the commands."""
    calls: Dict[str, Kept] = {}
    for path in (README, PAGE):
        calls.update({f"{os.path.basename(path)[:-3]}_{number}": each for number, each in enumerate(test_page(Tally(), path))})
    shared: Dict[str, bytes] = {}
    cases: Dict[str, Given] = {}
    for name, each in calls.items():
        shared.update({f"{name}_{file}": data for file, data in each.files.items()})
        cases[name] = Given(b"", [f"{name}_{word}" if word in each.files else word for word in each.words])
    told = program.calls(cases, shared)
    for name, each in calls.items():
        tally.equal(f"program: call {name} of the pages", told.get(name, ""), each.answer)
