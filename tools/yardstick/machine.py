"""A run: the moves of a script with their answers, outputs, events, and the stop with the move that is to blame."""
from typing import Dict, List, Optional, Tuple

from formats.images import PAGE_SIZE, Image
from formats.scripts import Script
from yardstick.enclave import Enclave, Layout
from yardstick.kernel import Kernel, Words
from yardstick.runtime import Access, Runtime

KINDS = ("read", "write", "exec")
CHANGE_WALKS = ("setpte", "eblock", "ewb", "eldu", "eldb", "eremove")


def line_of(move: Words) -> str:
    """A move as scripts and reports have it."""
    return " ".join(map(str, move))


class Losses:
    """The last move that took each access away, and the moves that enter and resume."""

    def __init__(self, enclave: Enclave):
        self.enclave = enclave
        self.accesses = [Access(page, kind) for page in range(enclave.layout.end) for kind in KINDS]
        self.found = self.walkable()
        self.lost: Dict[Access, int] = {}
        self.returned = 0
        self.resumed = 0
        self.at_fault: Tuple[int, int] = (0, 0)

    def walkable(self) -> "set[Access]":
        return {access for access in self.accesses if self.enclave.is_walkable(*access)}

    def note(self, place: int, move: Words, answer: str, cssa: int) -> None:
        if move[0] in CHANGE_WALKS:
            found = self.walkable()
            self.lost.update((access, place) for access in self.found - found)
            self.found = found
        if move[0] == "eenter" and answer == "ok" and cssa == 1:
            self.returned = place
        if move[0] == "eresume" and answer == "ok":
            self.resumed = place

    def note_fault(self, access: Access) -> None:
        """At a fault: when the access was lost, and when the kernel last returned from an ask."""
        self.at_fault = (self.lost.get(access, 0), self.returned)

    def blame(self, cause: str) -> int:
        lost, returned = self.at_fault
        if cause == "resumed":
            return self.resumed
        return max(lost, returned) if cause == "fetch" else lost


class Run:
    """A machine just built, and what its moves make."""

    def __init__(self, image: Image, frames: Optional[int] = None, processors: int = 1):
        self.layout = Layout(image, frames, processors)
        self.enclave = Enclave(self.layout)
        self.memory = bytearray(b"".join(page.data.ljust(PAGE_SIZE, b"\0") for page in image.pages))
        self.runtime = Runtime(self.enclave, self.memory)
        self.kernel = Kernel(self.layout, self.enclave)
        self.losses = Losses(self.enclave)
        self.moves: List[Tuple[Words, str]] = []
        self.outputs: List[str] = []
        self.events: List[str] = []
        self.stop: Optional[str] = None

    def answer(self, move: Words) -> str:
        word, *operands = move
        if word == "run":
            return self.run(*operands)
        if word in ("eenter", "eresume", "interrupt"):
            return getattr(self.runtime, word)(*operands)
        return getattr(self.enclave, word)(*operands)

    def run(self, lp: int, turns: int) -> str:
        if lp >= self.layout.processors:
            return "nolp"
        if self.enclave.inside != lp:
            return "outside"
        for _ in range(turns):
            turned = self.runtime.turn(lp)
            if turned.event is not None:
                self.events.append(turned.event)
            if turned.fault is not None:
                self.losses.note_fault(turned.fault)
            if turned.exit is not None:
                return turned.exit
        return "in"

    def apply(self, move: Words) -> None:
        cssa = len(self.runtime.stack)
        answer = self.answer(move)
        self.moves.append((move, answer))
        if answer.startswith("call 1 "):
            self.outputs.append(answer[7:])
        if self.stop is None and self.runtime.cause is not None:
            self.stop = self.stop_line()
        self.losses.note(len(self.moves), move, answer, cssa)
        self.kernel.note(move, answer)

    def stop_line(self) -> str:
        name, access = self.runtime.cause
        words = [name, *map(str, access or ()), "blame", str(self.losses.blame(name))]
        return " ".join(words)

    def auto(self, moves: int, inputs: List[int]) -> None:
        for _ in range(moves):
            move = self.kernel.next(inputs)
            if move is None:
                return
            self.apply(move)

    def play(self, script: Script) -> None:
        """Applies the moves of a script."""
        for word, *operands in script.items:
            if word == "auto":
                self.auto(operands[0], script.inputs)
            else:
                self.apply((word, *operands))

    def report(self) -> str:
        lines = ["autarky 1"]
        lines += [f"{place} {line_of(move)} -> {answer}" for place, (move, answer) in enumerate(self.moves, 1)]
        lines += [f"output {value}" for value in self.outputs] + [f"event {event}" for event in self.events]
        return "\n".join([*lines, f"stop {self.stop or 'none'}"]) + "\n"
