"""Which conditions are asked of the flags after each instruction, and which instructions may have set them.

A condition is one of `e`, `b`, `a`, `l`, `g`, `s`, `o` and `p`, each for its opposite as well.
"""
from typing import Dict, FrozenSet, List, Set

from lowering.reading import Instruction, Line, Other, Refused

NOTHING: FrozenSet[str] = frozenset()
PAIRS = (("e", "ne"), ("b", "ae"), ("a", "be"), ("l", "ge"), ("g", "le"), ("s", "ns"), ("o", "no"), ("p", "np"))
OPPOSITES = {**dict(PAIRS), **{opposite: condition for condition, opposite in PAIRS}}
KIND = {name: pair[0] for pair in PAIRS for name in pair}
SETTERS = "add sub and or xor cmp test imul mul div idiv neg inc dec shl sal shr sar adc sbb bt bts btr btc shld shrd".split()
FORGETTERS = ("call", "ret", "enclu", "ud2")
ROTATES = ("rol", "ror")


def asks(item: Line) -> FrozenSet[str]:
    """The conditions that an instruction asks itself."""
    if isinstance(item, Other):
        return NOTHING
    stem, _, condition = item.name.partition(" ")
    if stem in ("jump", "set", "cmov"):
        return frozenset({KIND[condition]})
    return frozenset({"b"}) if stem in ("adc", "sbb") else NOTHING


def sets(item: Line) -> bool:
    """Whether the flags before it are lost."""
    return isinstance(item, Instruction) and (item.name in SETTERS or item.name in FORGETTERS)


class Flow:
    """Instructions and labels of a file, with where each goes on."""

    def __init__(self, lines: List[Line]):
        self.lines = lines
        self.places = {item.label: place for place, item in enumerate(lines) if isinstance(item, Other) and item.label}
        self.after = [self.nexts(place) for place in range(len(lines))]
        self.needed = self.needs()
        self.setters = self.reaching()

    def nexts(self, place: int) -> List[int]:
        item = self.lines[place]
        on = [place + 1] if place + 1 < len(self.lines) else []
        if isinstance(item, Other):
            return on
        target = [self.places[item.target]] if item.target in self.places else []
        if item.name == "jmp":
            return target
        if item.name in ("ret", "ud2"):
            return []
        return target + on if item.name.startswith("jump ") else on

    def needs(self) -> List[FrozenSet[str]]:
        """For each line the conditions that are asked of the flags as it leaves them."""
        before: List[FrozenSet[str]] = [NOTHING] * len(self.lines)
        after = list(before)
        changed = True
        while changed:
            changed = False
            for place in range(len(self.lines) - 1, -1, -1):
                item = self.lines[place]
                after[place] = NOTHING.union(*(before[follower] for follower in self.after[place]))
                new = asks(item) | (NOTHING if sets(item) else after[place])
                changed, before[place] = changed or new != before[place], new
        return after

    def reaching(self) -> List[Set[int]]:
        """For each line the instructions that may have set the flags which it finds."""
        into: List[Set[int]] = [set() for _ in self.lines]
        work = list(range(len(self.lines)))
        while work:
            place = work.pop()
            out = {place} if sets(self.lines[place]) else into[place]
            for follower in self.after[place]:
                if not out <= into[follower]:
                    into[follower] |= out
                    work.append(follower)
        return into

    def check(self, place: int) -> None:
        """Refuses conditions that the table has not, and flags that nobody keeps."""
        item, needed = self.lines[place], self.needed[place]
        if asks(item) & {"o", "p"}:
            raise Refused("no jump of the table asks for overflow or parity alone")
        if isinstance(item, Instruction) and item.name in FORGETTERS and needed:
            raise Refused("a later instruction reads flags that this one leaves")
        if isinstance(item, Instruction) and item.name in ROTATES and needed & {"b", "a", "l", "g"}:
            raise Refused("a later instruction reads flags of a rotation")


def kept_setters(flow: Flow, destroying: Dict[int, bool]) -> Set[int]:
    """The instructions whose operands are kept, since one between them and a reader of their flags destroys the flags."""
    kept: Set[int] = set()
    for place, destroys in destroying.items():
        if destroys and flow.needed[place] and not sets(flow.lines[place]):
            kept |= flow.setters[place]
    return kept
