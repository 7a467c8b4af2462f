"""The runtime inside the enclave, and the turns of a processor that is inside."""
from dataclasses import dataclass
from typing import List, NamedTuple, Optional, Tuple

from yardstick.enclave import MOST_CSSA, Enclave
from yardstick.instructions import Call, Processor, Registers, Trap

TRANSLATIONS = 64
PAGE_FAULT = 14


class Access(NamedTuple):
    page: int
    kind: str


class Fault(Exception):
    """An access that no walk finds."""

    def __init__(self, access: Access):
        super().__init__(access)
        self.access = access


class Context(NamedTuple):
    """What a processor is about to do: `program`, `entry` with CSSA and value, `probe` with its number, `finish`, `guard`, or
    `leave` with a call's number and argument."""

    name: str
    operands: Tuple[int, ...] = ()


class Saved(NamedTuple):
    """A saved context, and why it was left: `interrupted`, `cleared`, `vector`, `denied`, `missed`, `broke` or `fault`."""

    context: Context
    reason: str
    number: int = 0
    access: Optional[Access] = None


GUARD = Saved(Context("guard"), "cleared")


class Cause(NamedTuple):
    """Why an enclave has stopped, and the access that it names."""

    name: str
    access: Optional[Access] = None


@dataclass
class Turned:
    """What came of a turn: the exit, where it leaves; an event with its operands; the access that faulted."""

    exit: Optional[str] = None
    event: Optional[str] = None
    fault: Optional[Access] = None


class Runtime:
    """One enclave with its program, turn by turn."""

    def __init__(self, enclave: Enclave, memory: bytearray):
        self.enclave = enclave
        self.layout = enclave.layout
        self.memory = memory
        self.registers = Registers(rip=self.layout.base + self.layout.entry)
        self.phase, self.number = "new", 0
        self.queue: List[int] = []
        self.stack: List[Saved] = []
        self.now: Optional[Context] = None
        self.pending = False
        self.count = 0
        self.cause: Optional[Cause] = None
        self.cached: List[Access] = []
        self.shown = f"pf {self.layout.base} 4"

    # ---- entering and leaving (SDM volume 3D, EENTER, ERESUME, AEX)

    def entering_refused(self, lp: int) -> Optional[str]:
        if lp >= self.layout.processors:
            return "nolp"
        if self.enclave.inside == lp:
            return "inside"
        if not self.enclave.is_tcs_walkable():
            return "tcsfault"
        return "busy" if self.enclave.inside is not None else None

    def is_area_walkable(self, number: int) -> bool:
        return self.enclave.is_walkable(self.layout.save_area(number), "write")

    def eenter(self, lp: int, value: int) -> str:
        cssa = len(self.stack)
        why = self.entering_refused(lp)
        if why is None and cssa == MOST_CSSA:
            why = "gp"
        if why is None and not self.is_area_walkable(cssa):
            why = "ssafault"
        if why is None:
            self.enter(lp, Context("entry", (cssa, value)))
            self.pending = False
        return why or "ok"

    def eresume(self, lp: int) -> str:
        why = self.entering_refused(lp)
        if why is None and not self.stack:
            why = "gp"
        if why is None and self.pending:
            why = "pending"
        if why is None and not self.is_area_walkable(len(self.stack) - 1):
            why = "ssafault"
        if why is None:
            self.enter(lp, self.stack.pop().context)
        return why or "ok"

    def enter(self, lp: int, context: Context) -> None:
        self.now, self.enclave.inside, self.cached = context, lp, []

    def leave(self, lp: int) -> None:
        self.now, self.cached = None, []
        self.enclave.leave(lp)

    def interrupt(self, lp: int) -> str:
        if lp >= self.layout.processors:
            return "nolp"
        if self.enclave.inside != lp:
            return "outside"
        self.stack.append(Saved(self.now, "interrupted"))
        self.leave(lp)
        return "ok"

    # ---- a turn

    def turn(self, lp: int) -> Turned:
        turned = self.program_turn() if self.now.name == "program" else self.runtime_turn()
        if turned.exit is not None:
            self.leave(lp)
        return turned

    def save(self, reason: str, number: int = 0, access: Optional[Access] = None) -> None:
        """Leaves with a vector or a page fault."""
        self.stack.append(Saved(self.now, reason, number, access))
        self.pending = True

    # ---- the program

    def touch(self, page: int, kind: str) -> None:
        """An access of the program: a cached translation, or a walk that is cached."""
        access = Access(page, kind)
        if access in self.cached:
            return
        if not self.enclave.is_walkable(page, kind):
            raise Fault(access)
        self.cached = (self.cached + [access])[-TRANSLATIONS:]

    def program_turn(self) -> Turned:
        count = self.count
        try:
            called = Processor(self.layout.base, self.memory, self.registers, self.touch).step()
        except Trap as trap:
            self.save("vector", trap.vector)
            return Turned(f"vector {trap.vector}", f"trap {count} {trap.vector}")
        except Fault as fault:
            reason, event = self.faulted(fault.access)
            self.save(reason, PAGE_FAULT, fault.access)
            return Turned(self.shown, event, fault.access)
        self.count += 1
        if isinstance(called, Call):
            self.now = Context("leave", tuple(called))
            return Turned(event=f"call {count} {called.number} {called.argument}")
        return Turned()

    def faulted(self, access: Access) -> Tuple[str, str]:
        """The reason and the event of a page fault of the program."""
        if not allows(self.layout.perms[access.page], access.kind):
            return "denied", f"trap {self.count} {PAGE_FAULT}"
        cluster = self.layout.cluster_of[access.page]
        if cluster in self.queue:
            return "broke", f"break {self.count}"
        return "missed", f"miss {self.count} {cluster}"

    # ---- the runtime's steps

    def touches(self) -> List[Access]:
        """The accesses of the step, in order."""
        layout, now = self.layout, self.now
        touches = [Access(layout.code, "exec"), Access(layout.state, "write")]
        if now.name == "entry":
            touches += [Access(layout.save_area(i), "write") for i in range(now.operands[0])]
        elif now.name == "probe":
            page = layout.pages_of[self.number][now.operands[0]]
            touches.append(Access(page, layout.strong(page)))
        elif now.name == "finish":
            touches.append(Access(layout.save_area(0), "write"))
        return touches

    def runtime_turn(self) -> Turned:
        for access in self.touches():
            if not self.enclave.is_walkable(*access):
                self.save("fault", access=access)
                if len(self.stack) == MOST_CSSA:
                    self.stop("stuck", access)
                return Turned(self.shown, fault=access)
        return Turned(getattr(self, f"{self.now.name}_step")(*self.now.operands))

    def stop(self, name: str, access: Optional[Access] = None) -> str:
        """The first cause stays."""
        if self.cause is None:
            self.cause = Cause(name, access)
        return "stopped"

    def ended(self) -> Optional[str]:
        """What a runtime that has come to an end tells at each entry."""
        return {"ended": f"ended {self.number}", "trapped": f"trapped {self.number}", "dead": "stopped"}.get(self.phase)

    def dies(self, name: str, access: Optional[Access] = None) -> str:
        self.phase = "dead"
        return self.stop(name, access)

    def entry_step(self, cssa: int, value: int) -> Optional[str]:
        ended = self.ended()
        if ended is not None:
            return ended
        if cssa == 0:
            if self.phase == "calling":
                self.registers.gpr[0] = value
            self.phase, self.now = "running", Context("program")
            return None
        if cssa == 1 and self.phase == "asked":
            self.now = Context("probe", (0,))
            return None
        last = self.stack[-1]
        if last.reason in ("interrupted", "cleared"):
            return "nothing"
        self.stack = len(self.stack) * [GUARD]
        return self.handles(last)

    def handles(self, last: Saved) -> str:
        """The fault that was saved last, while a guard stands in its place."""
        if last.reason == "fault":
            asked = last.context.name == "probe" and last.access.page < self.layout.pages
            return self.dies("fetch" if asked else "runtime", last.access)
        if last.reason in ("vector", "denied"):
            self.phase, self.number = "trapped", last.number
            return f"trapped {last.number}"
        if last.reason == "broke":
            return self.dies("unmapped", last.access)
        return self.asks(self.layout.cluster_of[last.access.page])

    def asks(self, cluster: int) -> str:
        """Clusters leave the queue's front until the rest and the wanted one fit the budget."""
        sizes = [len(pages) for pages in self.layout.pages_of]
        dropped = 0
        while sum(sizes[c] for c in self.queue[dropped:]) + sizes[cluster] > self.layout.budget:
            dropped += 1
        self.queue = self.queue[dropped:]
        self.phase, self.number = "asked", cluster
        return f"ask {dropped} {cluster}"

    def probe_step(self, number: int) -> None:
        last = number + 1 == len(self.layout.pages_of[self.number])
        self.now = Context("finish") if last else Context("probe", (number + 1,))

    def finish_step(self) -> str:
        self.stack = [Saved(Context("program"), "cleared")]
        self.queue.append(self.number)
        self.phase = "running"
        return "ready"

    def guard_step(self) -> Optional[str]:
        if self.phase == "asked":
            return self.dies("resumed")
        return self.ended()

    def leave_step(self, number: int, argument: int) -> str:
        if number == 0:
            self.phase, self.number = "ended", argument
            return f"ended {argument}"
        self.phase = "calling"
        return f"call {number} {argument}"


def allows(perms: str, kind: str) -> bool:
    return kind == "read" or {"write": "w", "exec": "x"}[kind] in perms
