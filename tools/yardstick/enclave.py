"""The page cache, the kernel's page table and the processors of one enclave (SDM volume 3D, the paging leaves; Autarky, the walk)."""
from dataclasses import dataclass
from typing import Dict, List, NamedTuple, Optional, Set

from formats.images import Image

SLOTS = 512
MOST_CSSA = 3
FIRST_FRAME = 8
STRONG = {"r": "read", "rw": "write", "rx": "exec"}
ALLOWED = {"r": ("read",), "rw": ("read", "write"), "rx": ("read", "exec")}
MAPPED = {"r": "pad", "rw": "pwad", "rx": "pxad"}


class Layout:
    """What the kernel knows of an enclave. Pages from `tcs` on are the runtime's."""

    def __init__(self, image: Image, frames: Optional[int] = None, processors: int = 1):
        numbers = image.cluster_numbers()
        self.base, self.entry, self.budget = image.base, image.entry, image.budget
        self.pages = len(image.pages)
        self.tcs, self.state, self.code = self.pages, self.pages + 4, self.pages + 5
        self.end = self.pages + 6
        self.perms = [page.perms for page in image.pages] + ["", "rw", "rw", "rw", "rw", "rx"]
        self.cluster_of = [numbers[page.cluster] for page in image.pages]
        self.pages_of = [[p for p in range(self.pages) if self.cluster_of[p] == c] for c in range(len(numbers))]
        self.frames = FIRST_FRAME + image.budget if frames is None else frames
        self.processors = processors

    def save_area(self, number: int) -> int:
        return self.tcs + 1 + number

    def strong(self, page: int) -> str:
        return STRONG[self.perms[page]]


@dataclass
class Frame:
    """What a frame holds: `secs`, `va`, `tcs` or `reg`, with its page. A blocked one has the number of cycles at its blocking."""

    kind: str
    page: int = -1
    blocked: Optional[int] = None

    def is_of_enclave(self) -> bool:
        return self.kind in ("tcs", "reg")


class Entry(NamedTuple):
    """An entry of the kernel's page table."""

    frame: int
    flags: str


class Sheet(NamedTuple):
    """A page that was written out, and where its version went."""

    page: int
    va: int
    slot: int


class Enclave:
    """The enclave as the build leaves it: the program's pages written out, the runtime's in frames 2 to 7."""

    def __init__(self, layout: Layout):
        n = layout.pages
        self.layout = layout
        self.frames: Dict[int, Frame] = {0: Frame("secs"), 1: Frame("va"), 2: Frame("tcs", n)}
        self.frames.update({3 + i: Frame("reg", n + 1 + i) for i in range(5)})
        self.slots: Dict[int, Dict[int, int]] = {1: {p: p for p in range(n)}}
        self.sheets: List[Sheet] = [Sheet(p, 1, p) for p in range(n)]
        self.dropped: Set[int] = set()
        flags = ["pad"] + 4 * ["pwad"] + ["pxad"]
        self.table = n * [Entry(0, "-")] + [Entry(2 + i, flags[i]) for i in range(6)]
        self.inside: Optional[int] = None
        # Of each cycle, the processors that have not left since it began.
        self.cycles: List[Set[int]] = []

    # ---- walks

    def frame_of(self, page: int) -> Optional[int]:
        return next((f for f, frame in self.frames.items() if frame.page == page), None)

    def is_walkable(self, page: int, kind: str) -> bool:
        frame = self.mapped(page)
        need = {"read": "", "write": "w", "exec": "x"}[kind]
        return frame is not None and frame.kind == "reg" and need in self.table[page].flags and kind in ALLOWED[self.layout.perms[page]]

    def is_tcs_walkable(self) -> bool:
        frame = self.mapped(self.layout.tcs)
        return frame is not None and frame.kind == "tcs"

    def mapped(self, page: int) -> Optional[Frame]:
        """The unblocked frame of this page that its entry names, where the entry has the bits of each walk."""
        entry = self.table[page]
        frame = self.frames.get(entry.frame)
        if frame is None or frame.page != page or frame.blocked is not None or any(bit not in entry.flags for bit in "pad"):
            return None
        return frame

    # ---- processors

    def leave(self, lp: int) -> None:
        self.inside = None
        for waits in self.cycles:
            waits.discard(lp)

    def is_tracked(self, frame: Frame) -> bool:
        return any(not waits for waits in self.cycles[frame.blocked or 0 :])

    # ---- moves

    def setpte(self, page: int, frame: int, flags: str) -> str:
        if page >= self.layout.end:
            return "nopage"
        self.table[page] = Entry(frame, flags)
        return "ok"

    def readpte(self, page: int) -> str:
        if page >= self.layout.end:
            return "nopage"
        entry = self.table[page]
        return f"pte {entry.frame} {entry.flags}"

    def refused(self, f: int) -> Optional[str]:
        """Why no leaf works on this frame."""
        if f >= self.layout.frames:
            return "notepc"
        return "issecs" if f == 0 else None

    def refused_page(self, f: int) -> Optional[str]:
        """Why the frame holds no page that could be written out."""
        why = self.refused(f)
        if why is None and f not in self.frames:
            return "free"
        if why is None and self.frames[f].kind == "va":
            return "wrongtype"
        return why

    def eblock(self, f: int) -> str:
        why = self.refused_page(f)
        if why is None and self.frames[f].blocked is not None:
            return "blocked"
        if why is None:
            self.frames[f].blocked = len(self.cycles)
        return why or "ok"

    def etrack(self) -> str:
        if self.cycles and self.cycles[-1]:
            return "previncomplete"
        self.cycles.append(set() if self.inside is None else {self.inside})
        return "ok"

    def ewb(self, f: int, va: int, slot: int) -> str:
        why = self.refused_page(f)
        if why is not None:
            return why
        frame = self.frames[f]
        if frame.blocked is None:
            return "notblocked"
        if not self.is_tracked(frame):
            return "nottracked"
        if va not in self.slots or slot >= SLOTS:
            return "badva"
        if slot in self.slots[va]:
            return "slotoccupied"
        del self.frames[f]
        self.slots[va][slot] = len(self.sheets)
        self.sheets.append(Sheet(frame.page, va, slot))
        return f"handle {len(self.sheets) - 1}"

    def load(self, f: int, handle: int, page: int, va: int, slot: int, blocked: Optional[int]) -> str:
        why = self.refused(f)
        if why is not None:
            return why
        if f in self.frames:
            return "inuse"
        if va not in self.slots or slot >= SLOTS:
            return "badva"
        if handle >= len(self.sheets) or handle in self.dropped:
            return "nohandle"
        if slot not in self.slots[va]:
            return "slotempty"
        if self.slots[va][slot] != handle or self.sheets[handle].page != page:
            return "macfail"
        del self.slots[va][slot]
        self.frames[f] = Frame("tcs" if page == self.layout.tcs else "reg", page, blocked)
        return "ok"

    def eldu(self, f: int, handle: int, page: int, va: int, slot: int) -> str:
        return self.load(f, handle, page, va, slot, None)

    def eldb(self, f: int, handle: int, page: int, va: int, slot: int) -> str:
        return self.load(f, handle, page, va, slot, len(self.cycles))

    def eremove(self, f: int) -> str:
        why = self.refused(f)
        if why is not None:
            return why
        if f not in self.frames:
            return "free"
        if self.frames[f].is_of_enclave() and self.inside is not None:
            return "enclaveactive"
        del self.frames[f]
        self.slots.pop(f, None)
        return "ok"

    def epa(self, f: int) -> str:
        why = self.refused(f) or ("inuse" if f in self.frames else None)
        if why is None:
            self.frames[f] = Frame("va")
            self.slots[f] = {}
        return why or "ok"

    def drop(self, handle: int) -> str:
        if handle >= len(self.sheets) or handle in self.dropped:
            return "nohandle"
        self.dropped.add(handle)
        return "ok"
