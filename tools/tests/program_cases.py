"""Tests of the tools against the program."""
import os
import random
import tempfile
from typing import Dict, Iterator, List, NamedTuple

from formats.images import measurement, read_image
from formats.refusals import Refusal
from formats.reports import read_report
from formats.scripts import read_script
from formats.signers import check_signed, read_signers
from formats.writing import image_text
from tests.harness import DATA, TOP, Tally, call
from tests.program import Given, Program
from tests.random_programs import random_program
from tests.random_runs import random_run
from tests.reports import example_reports
from tests.run_cases import images
from tests.tables import Case, all_cases
from yardstick.machine import Run as Emulated

RANDOM_CASES = 300
RANDOM_RUNS = 400
RANDOM_PROGRAMS = 200
PIECES = ["'", '"', "[", "]", "{", "}", ",", "\n", "\r\n", "\r", "\t", " ", "#", "=", ".", "-", "+", "_", "0", "1", "9", "f", "x", "é", "Ã©", "\\", "\\u0061",
          "\0", "\x7f", "'''", '"""', "[[page]]", "[page]", "true", "1e3", "0x10", "2024-02-30", "signer", "a.b = 1\n", "99999999999999999999"]
REPORT = "autarky 1"
NOTHING = "autarky 1\nstop none\n"


class Run(NamedTuple):
    """A run of the program: the file in question, the names of the three files, of which `{}` is that one, and options."""

    kind: str
    data: bytes
    names: "tuple[str, str, str]"
    options: "tuple[str, ...]" = ()

    def files(self) -> List[bytes]:
        return [self.data if name == "{}" else example(name) for name in self.names]


def example(name: str) -> bytes:
    with open(os.path.join(DATA, name), "rb") as file:
        return file.read()


def run_of(kind: str, data: bytes) -> Run:
    """A run with this file, the others being good."""
    names = {"image": "calls.toml", "signers": "signers.toml", "script": "nothing.script"}
    return Run(kind, data, tuple({**names, kind: "{}"}.values()))


def changed(data: bytes, source: random.Random) -> bytes:
    """The file with a few changes, each a piece put in, left out or exchanged."""
    text = data.decode("latin-1")
    for _ in range(source.randint(1, 3)):
        place = source.randrange(len(text) + 1)
        length = source.choice([0, 0, 1, 1, 2, 9])
        text = text[:place] + source.choice(["", *PIECES]) + text[place + length :]
    return text.encode("latin-1")


def random_cases() -> Iterator[Case]:
    """Files that are changed at random, the same ones each time."""
    source = random.Random(1)
    accepted = [case for case in all_cases() if case.line is None and len(case.data) < 2000]
    for number in range(RANDOM_CASES):
        case = source.choice(accepted)
        data = changed(case.data, source)
        yield Case(case.kind, f"changed, {number}: {data[:40]!r}", data, None)


def line_by_tool(run: Run) -> str:
    """The first line that the program is to tell."""
    try:
        image_file, signers_file, script_file = run.files()
        image, signers = read_image(image_file), read_signers(signers_file)
        read_script(script_file)
        check_signed(image, signers)
    except Refusal as why:
        return why.line
    return REPORT


def told_by_program(program: Program, runs: Dict[str, Run], ours: Dict[str, bytes]) -> Dict[str, str]:
    """What the program writes of each run, by name. The files that the runs name are these, or of the examples."""
    shared = sorted({name for run in runs.values() for name in run.names if name != "{}"})
    files = {name: ours[name] if name in ours else example(name) for name in shared}
    return program.calls({name: Given(run.data, ["run", *run.names, *run.options]) for name, run in runs.items()}, files)


def victims() -> "tuple[Dict[str, Run], Dict[str, bytes]]":
    """The sources of assembly/ that are linked, each with its run; and the signers that sign them."""
    runs = {}
    with tempfile.TemporaryDirectory() as folder:
        signers = os.path.join(folder, "victims.toml")
        for name in VICTIMS:
            image = call("image", os.path.join(TOP, "assembly", f"{name}.s"), "--sign", signers).out
            runs[f"victim_{name}"] = Run("image", image.encode(), ("{}", "victims.toml", "long.script"))
        with open(signers, "rb") as file:
            return runs, {"victims.toml": file.read(), "long.script": b"auto 2000\n"}


def fnv1a(text: bytes) -> int:
    value = 0xCBF29CE484222325
    for byte in text:
        value = (value ^ byte) * 0x100000001B3 % 2**64
    return value


# What the sources of assembly/ put out.
VICTIMS = {"lookup": [], "power": [pow(3, 0xB00D, 1_000_003)], "hash": [fnv1a(b"at dawn!")]}


def stepping_runs() -> Dict[str, Run]:
    """Examples that run to their end, with scripts that step through them and unmap pages around each step."""
    runs = {}
    for name, text in example_reports().items():
        image, script, *options = name.split(" ")
        if "ended" not in text or options:
            continue
        for kind in ("single-step", "unmap"):
            steps = call("scripts", kind, image, script).out
            runs[f"{kind}_{image}_{script}"] = Run(kind, steps.encode(), (image, "signers.toml", "{}"))
    return runs


def random_runs() -> "tuple[Dict[str, Run], Dict[str, str], Dict[str, bytes]]":
    """Runs at random of the images of the program's own tables, with their reports by the emulation; and the files that they name."""
    found = {name: image for name, image in images().items() if name != "B3"}
    files = {f"table_{name}.toml": image_text(image).encode() for name, image in found.items()}
    digests = ", ".join(f'"{measurement(image)}"' for image in found.values())
    runs, reports = {}, {}
    for seed in range(RANDOM_RUNS):
        image = list(found)[seed % len(found)]
        made = random_run(found[image], seed)
        runs[f"random_{seed}"] = Run("run", made.script.encode(), (f"table_{image}.toml", "tables.toml", "{}"), tuple(made.options))
        reports[f"random_{seed}"] = made.report
    return runs, reports, {**files, "tables.toml": f"lab = [{digests}]\n".encode()}


def random_programs() -> "tuple[Dict[str, Run], Dict[str, str], Dict[str, bytes]]":
    """Programs at random under the honest kernel, likewise."""
    runs, reports, digests = {}, {}, {}
    script = b"auto 200\n"
    for seed in range(RANDOM_PROGRAMS):
        image, name = random_program(seed), f"program_{seed}"
        runs[name] = Run("image", image_text(image).encode(), ("{}", "programs.toml", "programs.script"))
        emulated = Emulated(image)
        emulated.play(read_script(script))
        reports[name] = emulated.report()
        digests[measurement(image)] = name
    listed = ", ".join(f'"{digest}"' for digest in digests)
    return runs, reports, {"programs.toml": f"lab = [{listed}]\n".encode(), "programs.script": script}


def seen_of(text: str) -> "list[object]":
    """The outputs and the events of a report."""
    report = read_report(text)
    return [value for value, _ in report.outputs] + [event.text() for event in report.events]


def test_stepping(tally: Tally, runs: Dict[str, Run], told: Dict[str, str]) -> None:
    """Stepped runs have the outputs and the events of the whole run, and no step is refused; both are what the emulation says."""
    whole = {name.replace(" ", "_"): text for name, text in example_reports().items()}
    for name, run in runs.items():
        text = told.get(name, NOTHING)
        if run.kind == "single-step":
            tally.equal(f"program: {name} has the outputs and events of the whole run", seen_of(text), seen_of(whole[name.split("_", 1)[1]]))
            tally.equal(f"program: {name}, steps that are refused", text.count(" -> outside"), 0)
        emulated = Emulated(read_image(example(run.names[0])))
        emulated.play(read_script(run.data))
        tally.equal(f"program: {name} as emulated", text, emulated.report())


def test_victims(tally: Tally, told: Dict[str, str]) -> None:
    for name, outputs in VICTIMS.items():
        report = read_report(told.get(f"victim_{name}", NOTHING))
        tally.equal(f"program: assembly/{name}.s puts out", [value for value, _ in report.outputs], outputs)
        tally.equal(f"program: assembly/{name}.s ends", report.events[-1].rest if report.events else None, (0, 0))


def test_program(tally: Tally, program: Program) -> None:
    cases = [*all_cases(), *random_cases()]
    runs = {f"case_{number}": run_of(case.kind, case.data) for number, case in enumerate(cases)}
    stepping = stepping_runs()
    linked, signers = victims()
    hostile, reports, files = random_runs()
    others, more_reports, more_files = random_programs()
    told = told_by_program(program, {**runs, **stepping, **linked, **hostile, **others}, {**signers, **files, **more_files})
    for (name, run), case in zip(runs.items(), cases):
        tally.equal(f"program: {case.kind}: {case.name[:80]}", told.get(name, "nothing\n").split("\n")[0], line_by_tool(run))
    for name, report in {**reports, **more_reports}.items():
        tally.equal(f"program: {name} as emulated", told.get(name, "nothing\n"), report)
    test_stepping(tally, stepping, told)
    test_victims(tally, told)
