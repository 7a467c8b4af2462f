"""Rewrites a file. Where a later instruction reads flags that one in between would destroy, the operands that set them stay in %r14
and %r15, and what destroys them sets them anew from there."""
import re
from typing import Dict, List, NamedTuple, Optional, Set

from lowering.flags import NOTHING, Flow, kept_setters, sets
from lowering.forms import Forms
from lowering.reading import RSP, Instruction, Line, Other, Refused, Register, read_lines
from lowering.writing import O, V

DESTROYING = re.compile(r"\t?(add|sub|and|or|xor|cmp|test|imul|shl|shr)q ")
KEEPING = re.compile(r"%r1[45]")
MOVING_STACK = ("push", "pop", "call", "leave", "ret", "jmp")


class Refusal(NamedTuple):
    """A line that is not rewritten: its number, its text and why."""

    line: int
    text: str
    why: str


class Rewriting:
    """The lines of a file, and what each becomes."""

    def __init__(self, lines: List[Line]):
        self.lines = lines
        self.flow = Flow(lines)
        self.kept: Set[int] = set()
        self.kinds: Dict[int, str] = {}
        self.refusals: Dict[int, Refusal] = {}
        self.labels = 0

    def fused(self, place: int) -> Optional[Instruction]:
        """A SETcc and the MOVZX after it that clears the rest of the register, as one instruction."""
        pair = self.lines[place : place + 2]
        if len(pair) < 2 or not all(isinstance(item, Instruction) for item in pair):
            return None
        one, other = pair
        assert isinstance(one, Instruction) and isinstance(other, Instruction)
        if not one.name.startswith("set ") or other.name != "movz 8" or other.operands[0] != one.operands[0]:
            return None
        source, target = other.operands
        same = isinstance(source, Register) and isinstance(target, Register) and source.number == target.number and not source.high
        return one if same and target.width >= 32 else None

    def bare(self, place: int) -> Forms:
        """The instruction alone."""
        item = self.lines[place]
        assert isinstance(item, Instruction)
        forms = Forms()
        forms.labels = self.labels
        forms.needed = self.flow.needed[place] if sets(item) else NOTHING
        forms.live = not sets(item) and bool(self.flow.needed[place])
        forms.kept = place in self.kept
        if self.fused(place):
            assert isinstance(item.operands[0], Register)
            forms.zero_or_one(item.name.partition(" ")[2], item.operands[0].number)
        else:
            forms.rewrite(item)
        return forms

    def guarded(self, place: int) -> List[str]:
        """The instruction, with the flags that it must leave as they are."""
        item = self.lines[place]
        assert isinstance(item, Instruction)
        self.flow.check(place)
        forms = self.bare(place)
        if sets(item):
            self.kinds[place] = forms.replayed
        setters = self.flow.setters[place]
        destroys = any(DESTROYING.match(line) for line in forms.out)
        touches = destroys or (setters & self.kept and any(KEEPING.search(line) for line in forms.out))
        if forms.live and touches:
            forms = self.around(item, place)
            if destroys:
                self.again(forms, setters)
        self.labels = forms.labels
        return forms.out

    def around(self, item: Instruction, place: int) -> Forms:
        """The instruction between a saving and a loading of V and O."""
        if item.name in MOVING_STACK or any(isinstance(operand, Register) and operand.number == RSP for operand in item.operands[1:]):
            raise Refused("it moves the stack between flags and what reads them")
        forms = Forms()
        forms.labels, forms.live = self.labels, True
        forms.push(V)
        forms.push(O)
        forms.rewrite(item)
        forms.pop(O)
        forms.pop(V)
        return forms

    def again(self, forms: Forms, setters: Set[int]) -> None:
        """Sets the flags anew, as those that may have set them did."""
        kinds = {self.kinds.get(setter, "") for setter in setters}
        if not setters <= self.kept or any(setter in self.refusals for setter in setters):
            return
        if len(kinds) != 1 or "" in kinds:
            raise Refused("flags are read after it that several instructions may have set")
        forms.replay(kinds.pop())

    def rewritten(self, place: int) -> List[str]:
        """What a line becomes."""
        item = self.lines[place]
        if isinstance(item, Other):
            return [item.text]
        if place and self.fused(place - 1):
            return []
        try:
            return [line if line.endswith(":") else f"\t{line}" for line in self.guarded(place)]
        except Refused as why:
            self.refusals[place] = Refusal(item.line, item.text, str(why))
            return []

    def destroying(self, place: int) -> bool:
        item = self.lines[place]
        if isinstance(item, Other) or sets(item) or not self.flow.needed[place] or (place and self.fused(place - 1)):
            return False
        try:
            return any(DESTROYING.match(line) for line in self.bare(place).out)
        except Refused:
            return False

    def all(self) -> List[str]:
        """The whole file: first which operands are kept, then how they were, at last the lines."""
        places = range(len(self.lines))
        self.kept = kept_setters(self.flow, {place: self.destroying(place) for place in places})
        for place in places:
            self.rewritten(place)
        self.refusals.clear()
        self.labels = 0
        return [line for place in places for line in self.rewritten(place)]


def without_padding(lines: List[Line]) -> List[Line]:
    """The lines without alignments in code, which an assembler fills with instructions of its own."""
    kept: List[Line] = []
    in_code = True
    for item in lines:
        word, _, rest = item.text.strip().partition("\t") if isinstance(item, Other) and not item.label else ("", "", "")
        if word in (".text", ".data", ".bss", ".section"):
            in_code = word == ".text" or rest.startswith(".text")
        if not (in_code and word in (".p2align", ".align", ".balign")):
            kept.append(item)
    return kept


def rewrite(text: str) -> "tuple[str, List[Refusal]]":
    """The assembly in instructions of the table, and the lines that are refused."""
    lines, unread = read_lines(text)
    rewriting = Rewriting(without_padding(lines))
    out = rewriting.all()
    refusals = [Refusal(*each) for each in unread] + list(rewriting.refusals.values())
    return "\n".join(out) + "\n", sorted(refusals)
