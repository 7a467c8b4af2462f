"""The honest kernel: it reads its own moves and their answers alone."""
from typing import List, Optional, Tuple

from yardstick.enclave import MAPPED, MOST_CSSA, Enclave, Layout

RUN_TURNS = 1000
Words = Tuple[object, ...]


class Kernel:
    """What the moves and answers so far tell. Of the enclave it looks at the page table, the frames and the cycles, which are its own."""

    def __init__(self, layout: Layout, enclave: Enclave):
        self.layout = layout
        self.enclave = enclave
        self.ended = False
        self.cssa = 0
        self.pending = False
        self.asked: Optional[int] = None
        self.evicted: List[int] = []
        self.queue: List[int] = []
        self.last_exit: List[str] = []
        self.inputs_taken = 0
        self.last: Optional[Words] = None
        self.refused = False

    def note(self, move: Words, answer: str) -> None:
        words = answer.split(" ")
        exits = move[0] == "run" and words[0] not in ("nolp", "outside")
        self.last = move
        self.refused = not exits and words[0] not in ("ok", "handle")
        if move[0] == "eenter" and words[0] == "ok":
            self.pending = False
        elif move[0] == "eresume" and words[0] == "ok":
            self.cssa -= 1
        elif move[0] == "interrupt" and words[0] == "ok":
            self.cssa += 1
        elif exits:
            self.note_exit(words)

    def note_exit(self, words: List[str]) -> None:
        if words[0] != "in":
            self.last_exit = words
        if words[0] in ("ended", "trapped", "stopped"):
            self.ended = True
        elif words[0] in ("pf", "vector"):
            self.cssa, self.pending = self.cssa + 1, True
        elif words[:2] == ["call", "2"]:
            self.inputs_taken += 1
        elif words[0] == "ask":
            dropped, self.asked = map(int, words[1:])
            self.evicted = [page for c in self.queue[:dropped] for page in self.layout.pages_of[c]]
            self.queue = self.queue[dropped:]
        elif words[0] == "ready":
            self.queue.append(self.asked)
            self.asked = None

    def next(self, inputs: List[int]) -> Optional[Words]:
        """The next move; none where it is done, or would repeat a move that was refused."""
        move = self.wanted(inputs)
        return None if move == self.last and self.refused else move

    def wanted(self, inputs: List[int]) -> Optional[Words]:
        if self.ended:
            return None
        if self.enclave.inside is not None:
            return ("run", self.enclave.inside, RUN_TURNS)
        if self.pending:
            return None if self.cssa == MOST_CSSA else ("eenter", 0, 0)
        if self.cssa == 0:
            return ("eenter", 0, self.value(inputs))
        if self.asked is not None and self.cssa == 1:
            return self.evicting() or self.fetching(self.layout.pages_of[self.asked])
        return ("eresume", 0)

    def value(self, inputs: List[int]) -> int:
        if self.last_exit[:2] != ["call", "2"] or self.inputs_taken > len(inputs):
            return 0
        return inputs[self.inputs_taken - 1]

    def evicting(self) -> Optional[Words]:
        enclave = self.enclave
        for page in self.evicted:
            if "p" in enclave.table[page].flags:
                return ("setpte", page, 0, "-")
        held = [(page, enclave.frame_of(page)) for page in self.evicted if enclave.frame_of(page) is not None]
        for _, f in held:
            if enclave.frames[f].blocked is None:
                return ("eblock", f)
        if any(not enclave.is_tracked(enclave.frames[f]) for _, f in held):
            return ("etrack",)
        return ("ewb", held[0][1], 1, held[0][0]) if held else None

    def fetching(self, pages: List[int]) -> Optional[Words]:
        enclave = self.enclave
        for page in pages:
            if enclave.frame_of(page) is None:
                free = next((f for f in range(self.layout.frames) if f not in enclave.frames), None)
                handle = max(h for h, sheet in enumerate(enclave.sheets) if sheet.page == page)
                sheet = enclave.sheets[handle]
                return None if free is None else ("eldu", free, handle, page, sheet.va, sheet.slot)
        for page in pages:
            if not enclave.is_walkable(page, self.layout.strong(page)):
                return ("setpte", page, enclave.frame_of(page), MAPPED[self.layout.perms[page]])
        return ("eenter", 0, 0)
