"""An image's program over one array of memory that is never paged, by the emulation's instructions: what it puts out, for tests of what
the tools make of programs."""
from typing import List, NamedTuple, Optional

from formats.images import PAGE_SIZE, Image
from yardstick.instructions import RAX, Processor, Registers, Trap

END, OUTPUT, INPUT = 0, 1, 2


class Ended(NamedTuple):
    """How a program ended: its outputs, its status, or the vector of its trap; and how many instructions completed."""

    outputs: List[int]
    status: Optional[int]
    vector: Optional[int]
    count: int


class FlatRun:
    """A run of an image's program: its processor, the bytes of its pages, and how many instructions completed."""

    def __init__(self, image: Image):
        self.memory = bytearray(b"".join(page.data.ljust(PAGE_SIZE, b"\0") for page in image.pages))
        self.registers = Registers(rip=image.base + image.entry)
        self.processor = Processor(image.base, self.memory, self.registers, lambda page, kind: None)
        self.count = 0

    def run(self, inputs: List[int], most: int = 10_000_000) -> Ended:
        """Runs to the end, to a trap, or for so many instructions. A call for an input takes the next one, any other is answered by 0."""
        outputs: List[int] = []
        left = iter(inputs)
        while self.count < most:
            try:
                called = self.processor.step()
            except Trap as trap:
                return Ended(outputs, None, trap.vector, self.count)
            self.count += 1
            if called is None:
                continue
            if called.number == END:
                return Ended(outputs, called.argument, None, self.count)
            if called.number == OUTPUT:
                outputs.append(called.argument)
            self.registers.gpr[RAX] = next(left, 0) if called.number == INPUT else 0
        return Ended(outputs, None, None, self.count)
