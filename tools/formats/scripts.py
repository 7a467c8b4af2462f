"""Scripts: their lines, and why one is refused."""
import re
from dataclasses import dataclass, field
from typing import List, NamedTuple, NoReturn, Optional, Tuple

from formats.refusals import Refusal, counted

MOST_MOVES = 20_000
MOST_TURNS_OF_RUN = 1_000_000
MOST_TURNS = 20_000_000
FLAGS = "pwxad"
NUMBERS = {"notascii": 1, "unknown": 2, "words": 3, "number": 4, "range": 5, "toomany": 6, "flags": 7}
TURNS_OF_AUTO = 1000
LINES = {
    "setpte": ("PAGE", "FRAME", "FLAGS"),
    "readpte": ("PAGE",),
    "eblock": ("FRAME",),
    "etrack": (),
    "ewb": ("FRAME", "VA", "SLOT"),
    "eldu": ("FRAME", "HANDLE", "PAGE", "VA", "SLOT"),
    "eldb": ("FRAME", "HANDLE", "PAGE", "VA", "SLOT"),
    "eremove": ("FRAME",),
    "epa": ("FRAME",),
    "drop": ("HANDLE",),
    "eenter": ("LP", "VALUE"),
    "eresume": ("LP",),
    "run": ("LP", "N"),
    "interrupt": ("LP",),
    "auto": ("N",),
    "input": ("VALUE",),
}
RANGES = {
    "PAGE": (0, 2**32 - 1),
    "FRAME": (0, 2**32 - 1),
    "VA": (0, 2**32 - 1),
    "HANDLE": (0, 2**32 - 1),
    "SLOT": (0, 511),
    "LP": (0, 3),
    "VALUE": (0, 2**64 - 1),
}
MOST_N = {"run": MOST_TURNS_OF_RUN, "auto": MOST_MOVES}


@dataclass
class Script:
    """The lines of a script but its inputs, each with its operands; the inputs; and how many moves and turns it may make."""

    items: List[Tuple["int | str", ...]] = field(default_factory=list)
    inputs: List[int] = field(default_factory=list)
    moves: int = 0
    turns: int = 0


class Word(NamedTuple):
    """A word of a line, and its column from 1, in bytes."""

    text: str
    column: int


class Line:
    """A line of a script that is not skipped."""

    def __init__(self, number: int, data: bytes):
        self.number = number
        self.data = data
        self.words = [Word(found.group().decode("latin-1"), found.start() + 1) for found in re.finditer(rb"[^ \t]+", data)]

    def refuse(self, word: str, column: int, detail: str) -> NoReturn:
        line = f"script refused: line {self.number}: {NUMBERS[word]} {word}"
        raise Refusal(line, 4, [f"line {self.number}, column {column}: {detail}"])

    def check_ascii(self) -> None:
        for place, byte in enumerate(self.data):
            if byte > 127:
                self.refuse("notascii", place + 1, f"the byte {byte:02x} is no ASCII")

    def operands(self) -> "tuple[str, ...]":
        """The operands that the first word wants, as many as there are."""
        first = self.words[0]
        if first.text not in LINES:
            self.refuse("unknown", first.column, f"{quoted(first.text)} is none of {', '.join(LINES)}")
        wanted, given = LINES[first.text], self.words[1:]
        if len(given) != len(wanted):
            column = given[len(wanted)].column if len(given) > len(wanted) else len(self.data) + 1
            form = " ".join((first.text, *wanted))
            self.refuse("words", column, f"{counted(len(given), 'word')} after `{first.text}`, where `{form}` has {len(wanted)}")
        return wanted

    def check_operand(self, operand: str, word: Word) -> None:
        if operand == "FLAGS":
            why = flags_fault(word.text)
            if why:
                self.refuse("flags", word.column, f"FLAGS is {quoted(word.text)}: {why}")
            return
        why = number_fault(word.text)
        if why:
            self.refuse("number", word.column, f"{operand} is {quoted(word.text)}: {why}")
        least, most = (1, MOST_N[self.words[0].text]) if operand == "N" else RANGES[operand]
        if len(word.text) > 20 or not least <= int(word.text) <= most:
            self.refuse("range", word.column, f"{operand} is {quoted(word.text)} and must be {least} to {most}")

    def item(self) -> "Tuple[int | str, ...]":
        first, *rest = (word.text for word in self.words)
        return (first, *(word if operand == "FLAGS" else int(word) for operand, word in zip(LINES[first], rest)))


def quoted(word: str) -> str:
    """A word as a message names it, cut where it is long."""
    printable = "".join(c if " " < c <= "~" else f"\\x{ord(c):02x}" for c in word[:40])
    return f"`{printable}`" if len(word) <= 40 else f"`{printable}..` of {len(word)} characters"


def number_fault(word: str) -> Optional[str]:
    if not re.fullmatch("[0-9]+", word):
        return "it is no decimal digits" + (", but a carriage return ends it" if word.endswith("\r") else "")
    if len(word) > 1 and word[0] == "0":
        return "a number has no zero before it"
    return None


def flags_fault(word: str) -> Optional[str]:
    strange = [letter for letter in word if letter not in FLAGS]
    if word == "-" or (not strange and word == "".join(letter for letter in FLAGS if letter in word)):
        return None
    if strange:
        return f"{quoted(strange[0])} is none of `{FLAGS}`" + (", and `-` stands alone" if strange[0] == "-" else "")
    twice = [letter for letter in FLAGS if word.count(letter) > 1]
    return f"`{twice[0]}` stands twice" if twice else f"the letters come in the order `{FLAGS}`"


def read_line(number: int, data: bytes) -> Optional[Line]:
    """The line, where it is not skipped and spells a move."""
    text = data.lstrip(b" \t")
    if not text or text.startswith(b"#"):
        return None
    line = Line(number, data)
    line.check_ascii()
    for operand, word in zip(line.operands(), line.words[1:]):
        line.check_operand(operand, word)
    return line


def lines_of(data: bytes) -> List[bytes]:
    """The lines without their endings: a newline, and one carriage return before it."""
    *ended, last = data.split(b"\n")
    lines = [line[:-1] if line.endswith(b"\r") else line for line in ended]
    return lines + [last] if last else lines


def read_script(data: bytes) -> Script:
    """The script that the bytes spell; a Refusal tells the first line that is refused."""
    script = Script()
    for number, text in enumerate(lines_of(data), 1):
        line = read_line(number, text)
        if line is not None:
            take(script, line)
    return script


def take(script: Script, line: Line) -> None:
    """Takes a line into the script."""
    item = line.item()
    if item[0] == "input":
        script.inputs.append(item[1])
        return
    script.items.append(item)
    script.moves += item[1] if item[0] == "auto" else 1
    script.turns += item[1] * TURNS_OF_AUTO if item[0] == "auto" else item[2] if item[0] == "run" else 0
    if script.moves > MOST_MOVES:
        line.refuse("toomany", 1, f"{script.moves} moves so far, where {MOST_MOVES} may be")
    if script.turns > MOST_TURNS:
        line.refuse("toomany", 1, f"{script.turns} turns so far, where {MOST_TURNS} may be")
