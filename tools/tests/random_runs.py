"""Scripts at random: moves of the honest kernel, with others between that a hostile one might make. The same seed gives the same script."""
import random
from typing import List, NamedTuple, Optional

from formats.images import Image
from yardstick.machine import Run, Words, line_of

INPUTS = [5, 6]
MOST_PROCESSORS = 4
FLAGS = ["-", "pad", "pwad", "pxad", "pwxad", "pxa", "pxd", "xad", "pd"]
HOSTILE = (
    4 * ["setpte"] + 3 * ["eenter"] + 3 * ["run"] + 3 * ["interrupt"] + 2 * ["eresume"] + 2 * ["eldu"]
    + ["readpte", "eblock", "etrack", "ewb", "eldb", "eremove", "epa", "drop"]
)


class Random(NamedTuple):
    """A script, and the options of its run."""

    options: List[str]
    script: str
    report: str
    status: int


class Hostile:
    """Chooses moves that are apt to be answered otherwise than by the first refusal."""

    def __init__(self, source: random.Random, emulated: Run):
        self.source = source
        self.emulated = emulated
        self.repairs: List[Words] = []

    def one_of(self, likely: list, other: int) -> int:
        """Mostly one that may do, else any below a bound."""
        return self.source.choice(likely) if likely and self.source.random() < 0.8 else self.source.randrange(other)

    def page(self) -> int:
        layout = self.emulated.layout
        return self.source.choice([self.source.randrange(layout.pages), layout.pages + self.source.randrange(7)])

    def frame(self) -> int:
        return self.one_of(list(self.emulated.enclave.frames), self.emulated.layout.frames + 1)

    def processor(self) -> int:
        """Now and then one that is not there; a script may name four."""
        inside, more = self.emulated.enclave.inside, self.source.random() < 0.1
        return self.one_of([] if inside is None else [inside], min(MOST_PROCESSORS, self.emulated.layout.processors + more))

    def move(self) -> Words:
        word = self.source.choice(HOSTILE)
        return (word, *getattr(self, word)())

    def setpte(self) -> Words:
        page = self.page()
        held = self.emulated.enclave.frame_of(page)
        if page < self.emulated.layout.end and held is not None:
            entry = self.emulated.enclave.table[page]
            self.repairs.append(("setpte", page, entry.frame, entry.flags))
        frame = self.frame() if held is None or self.source.random() < 0.2 else held
        return page, frame, self.source.choice(FLAGS)

    def readpte(self) -> Words:
        return (self.page(),)

    def eblock(self) -> Words:
        return (self.frame(),)

    def eremove(self) -> Words:
        return (self.source.choice([0, 1, self.frame()]),)

    def epa(self) -> Words:
        return (self.one_of([f for f in range(self.emulated.layout.frames) if f not in self.emulated.enclave.frames], self.emulated.layout.frames),)

    def etrack(self) -> Words:
        return ()

    def ewb(self) -> Words:
        blocked = [f for f, frame in self.emulated.enclave.frames.items() if frame.blocked is not None]
        vas = list(self.emulated.enclave.slots)
        return self.one_of(blocked, self.emulated.layout.frames), self.one_of(vas, self.emulated.layout.frames), self.source.randrange(self.emulated.layout.end + 3)

    def eldu(self) -> Words:
        enclave, handle = self.emulated.enclave, self.source.randrange(len(self.emulated.enclave.sheets) + 1)
        (free,) = self.epa()
        if handle == len(enclave.sheets) or self.source.random() < 0.2:
            return free, handle, self.page(), 1, self.source.randrange(self.emulated.layout.end)
        sheet = enclave.sheets[handle]
        return free, handle, sheet.page, sheet.va, sheet.slot

    eldb = eldu

    def drop(self) -> Words:
        return (self.source.randrange(4 * len(self.emulated.enclave.sheets)),)

    def eenter(self) -> Words:
        return self.source.randrange(self.emulated.layout.processors), self.source.randrange(5)

    def eresume(self) -> Words:
        return (self.source.randrange(self.emulated.layout.processors),)

    def interrupt(self) -> Words:
        return (self.processor(),)

    def run(self) -> Words:
        return self.processor(), self.source.choice([1, 1, 1, 2, 3, 5, 50])


def next_move(source: random.Random, run: Run, hostile: Hostile, evil: float) -> Optional[Words]:
    """A move of the honest kernel, often with fewer turns, or another; or an entry is set as it was."""
    if hostile.repairs and source.random() < 0.2:
        return hostile.repairs.pop()
    if source.random() < evil:
        return hostile.move()
    move = run.kernel.next(INPUTS)
    if move is not None and move[0] == "run" and source.random() < 0.5:
        return ("run", move[1], source.randint(1, 4))
    return move


def random_run(image: Image, seed: int) -> Random:
    """A run of this image at random."""
    source = random.Random(seed)
    frames = source.choice([None, None, 8 + image.budget + 3, 10, 8 + len(image.pages)])
    processors = source.choice([None, 2, 4])
    options = [word for name, value in (("frames", frames), ("processors", processors)) if value for word in (f"--{name}", str(value))]
    run = Run(image, frames, processors or 1)
    hostile, evil = Hostile(source, run), source.choice([0.03, 0.1, 0.3, 0.7])
    lines = [f"input {value}" for value in INPUTS]
    for _ in range(source.randint(5, 80)):
        move = next_move(source, run, hostile, evil)
        if move is not None:
            lines.append(line_of(move))
            run.apply(move)
    if source.random() < 0.3:
        lines.append("auto 30")
        run.auto(30, INPUTS)
    return Random(options, "\n".join(lines) + "\n", run.report(), 0 if run.stop is None else 10)
