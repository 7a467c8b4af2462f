"""The bytes of the TCS, of the saved-state areas and of STATE (docs/FORMATS.md, "Saved frames" and "The runtime")."""
import struct
from typing import Dict, Iterator, Optional, Tuple

from yardstick.enclave import MOST_CSSA, Enclave
from yardstick.instructions import RAX, RCX, RDI, Registers
from yardstick.machine import Run
from yardstick.runtime import PAGE_FAULT, Access, Context, Runtime, Saved

PAGE_SIZE = 4096
WORD = 8
# The TCS: CSSA and the pending flag.
CSSA_PLACE, PENDING_PLACE = 24, 72
# A saved-state area, and what stands in its frame.
AREA_PLACE, FRAME_SIZE = 3896, 200
FLAGS, RIP, EXIT_INFO, MODE = 144, 152, 176, 180
ERROR_CODE = {"read": 4, "write": 6, "exec": 20}
EXCEPTION, VALID = 3 << 8, 1 << 31
# STATE: the phase with its numbers, the queue, and the frame of the program.
ASKED_PLACE, STATUS_PLACE, QUEUE_LENGTH, QUEUE_PLACE, KEPT_PLACE = 8, 16, 24, 1024, 2048
PHASES = ("new", "running", "calling", "asked", "ended", "trapped", "dead")
# The steps of the runtime, by their places in CODE.
STEPS = {"entry": 0, "guard": 16, "leave": 32, "probe": 48, "finish": 48}


def flags_of(registers: Registers) -> int:
    return 2 | registers.cf | registers.zf << 6 | registers.sf << 7 | registers.of << 11


def frame_of(registers: Registers, mode: int, saved: Saved, address: int) -> bytearray:
    """The frame that a leaving saves, at the address of the page that faulted."""
    frame = bytearray(FRAME_SIZE)
    for number, value in enumerate(registers.gpr):
        struct.pack_into("<Q", frame, 16 + 8 * number, value)
    struct.pack_into("<QQ", frame, FLAGS, flags_of(registers), registers.rip)
    frame[MODE] = mode
    if saved.access is not None:
        struct.pack_into("<QI", frame, 0, address, ERROR_CODE[saved.access.kind])
        struct.pack_into("<I", frame, EXIT_INFO, PAGE_FAULT | EXCEPTION | VALID)
    elif saved.reason == "vector":
        struct.pack_into("<I", frame, EXIT_INFO, saved.number | EXCEPTION | VALID)
    return frame


def cleared(frame: bytearray) -> bytearray:
    """The frame without the cause of its leaving."""
    frame = bytearray(frame)
    frame[0:16] = bytes(16)
    frame[EXIT_INFO : EXIT_INFO + 4] = bytes(4)
    return frame


class Areas(Runtime):
    """A runtime that keeps the bytes of these pages."""

    def __init__(self, enclave: Enclave, memory: bytearray):
        super().__init__(enclave, memory)
        n = self.layout.pages
        self.pages: Dict[str, bytearray] = {name: bytearray(PAGE_SIZE) for name in ("tcs", "ssa0", "ssa1", "ssa2", "state")}
        struct.pack_into("<QIIQ", self.pages["tcs"], 16, PAGE_SIZE * (n + 1), 0, MOST_CSSA, PAGE_SIZE * (n + 5))
        self.entered = (0, 0)

    # ---- the registers of a context

    def address(self, page: int) -> int:
        return self.layout.base + PAGE_SIZE * page

    def registers_of(self, context: Context) -> Registers:
        """The registers: the program's, or those of a step, which begins with what the entry left in RAX and RDI."""
        if context.name == "program":
            return self.registers
        gpr = list(self.registers.gpr) if context.name == "leave" else 16 * [0]
        if context.name == "entry":
            gpr[RAX], gpr[RDI] = context.operands
        elif context.name in ("probe", "finish"):
            gpr[RAX], gpr[RDI] = self.entered
            asked = self.layout.pages_of[self.number]
            gpr[RCX] = context.operands[0] if context.name == "probe" else len(asked)
        rip = self.address(self.layout.code) + STEPS[context.name]
        if context.name != "leave":
            return Registers(gpr, rip)
        of = self.registers
        return Registers(gpr, rip, of.cf, of.zf, of.sf, of.of)

    def guard_frame(self) -> bytearray:
        return frame_of(self.registers_of(Context("guard")), 1, Saved(Context("guard"), "cleared"), 0)

    # ---- what is written

    def area(self, number: int) -> bytearray:
        return self.pages[f"ssa{number}"][AREA_PLACE:]

    def set_area(self, number: int, frame: bytearray) -> None:
        self.pages[f"ssa{number}"][AREA_PLACE:] = frame

    def set_tcs(self) -> None:
        struct.pack_into("<I", self.pages["tcs"], CSSA_PLACE, len(self.stack))
        self.pages["tcs"][PENDING_PLACE] = self.pending

    def save_last(self) -> None:
        """The frame of the context that was saved last."""
        last = self.stack[-1]
        mode = 0 if last.context.name == "program" else 1
        address = 0 if last.access is None else self.address(last.access.page)
        self.set_area(len(self.stack) - 1, frame_of(self.registers_of(last.context), mode, last, address))

    def kept(self) -> bytearray:
        return self.pages["state"][KEPT_PLACE : KEPT_PLACE + FRAME_SIZE]

    def keep(self, frame: bytearray) -> None:
        self.pages["state"][KEPT_PLACE : KEPT_PLACE + FRAME_SIZE] = frame

    def set_state(self) -> None:
        """The phase and the queue. A cluster that was asked and a number of an end stay where the phase has none."""
        state = self.pages["state"]
        struct.pack_into("<Q", state, 0, PHASES.index(self.phase))
        struct.pack_into("<Q", state, QUEUE_LENGTH, len(self.queue))
        if self.phase == "asked":
            struct.pack_into("<Q", state, ASKED_PLACE, self.number)
        elif self.phase in ("ended", "trapped"):
            struct.pack_into("<Q", state, STATUS_PLACE, self.number)
        for number, cluster in enumerate(self.queue):
            struct.pack_into("<H", state, QUEUE_PLACE + 2 * number, cluster)

    # ---- the moves

    def eenter(self, lp: int, value: int) -> str:
        answer = super().eenter(lp, value)
        if answer == "ok":
            self.entered = (len(self.stack), value)
        self.set_tcs()
        return answer

    def eresume(self, lp: int) -> str:
        answer = super().eresume(lp)
        self.set_tcs()
        return answer

    def interrupt(self, lp: int) -> str:
        answer = super().interrupt(lp)
        if answer == "ok":
            self.save_last()
            self.set_tcs()
        return answer

    def turn(self, lp: int):
        turned = super().turn(lp)
        self.set_state()
        return turned

    # ---- the turns that write

    def save(self, reason: str, number: int = 0, access: Optional[Access] = None) -> None:
        super().save(reason, number, access)
        self.save_last()
        self.set_tcs()

    def handles(self, last: Saved) -> str:
        for number in range(len(self.stack)):
            if last.reason == "missed":
                self.keep(self.area(number))
            self.set_area(number, self.guard_frame())
        return super().handles(last)

    def finish_step(self) -> str:
        self.set_area(0, cleared(self.kept()))
        return super().finish_step()

    def leave_step(self, number: int, argument: int) -> str:
        goes_on = self.registers
        rip = goes_on.gpr[RCX]
        self.keep(frame_of(Registers(goes_on.gpr, rip, goes_on.cf, goes_on.zf, goes_on.sf, goes_on.of), 0, Saved(Context("program"), "cleared"), 0))
        return super().leave_step(number, argument)


class Watch(Run):
    """A run that tells what each move changes in these pages."""

    def __init__(self, *image_and_options):
        super().__init__(*image_and_options)
        self.runtime = Areas(self.enclave, self.memory)
        self.before = self.bytes_now()

    def bytes_now(self) -> Dict[str, bytes]:
        return {name: bytes(page) for name, page in self.runtime.pages.items()}

    def changes(self) -> Iterator[Tuple[str, int, str]]:
        """Each word of eight bytes that the last move changed, of the pages in a frame: the page, the place and the bytes."""
        now = self.bytes_now()
        for number, (name, page) in enumerate(now.items()):
            if self.enclave.frame_of(self.layout.tcs + number) is None:
                now[name] = self.before[name]
                continue
            for place in range(0, PAGE_SIZE, WORD):
                word = page[place : place + WORD]
                if word != self.before[name][place : place + WORD]:
                    yield name, place, word.hex()
        self.before = now
