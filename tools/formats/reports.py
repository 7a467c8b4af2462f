"""Reports: the moves of the kernel with their answers, the outputs, the events and the stop. Forms are those of the report's
definition, `report` in crates/ak_report/specs/Report.antt."""
import re
from dataclasses import dataclass
from typing import List, NamedTuple, NoReturn, Optional, Tuple

FIRST_LINE = "autarky 1"
NUMBER, FLAGS = "0|[1-9][0-9]*", "-|(?=.)p?w?x?a?d?"
MOVES = {
    "setpte": (NUMBER, NUMBER, FLAGS), "readpte": (NUMBER,), "eblock": (NUMBER,), "etrack": (), "ewb": 3 * (NUMBER,),
    "eldu": 5 * (NUMBER,), "eldb": 5 * (NUMBER,), "eremove": (NUMBER,), "epa": (NUMBER,), "drop": (NUMBER,),
    "eenter": 2 * (NUMBER,), "eresume": (NUMBER,), "run": 2 * (NUMBER,), "interrupt": (NUMBER,),
}
EXITS = {
    "in": (), "pf": 2 * (NUMBER,), "vector": (NUMBER,), "call": 2 * (NUMBER,), "ask": 2 * (NUMBER,), "ready": (), "nothing": (),
    "stopped": (), "ended": (NUMBER,), "trapped": (NUMBER,),
}
REFUSALS = (
    "nopage notepc issecs free wrongtype inuse blocked notblocked nottracked previncomplete badva slotoccupied slotempty macfail"
    " enclaveactive nohandle nolp inside outside tcsfault busy gp pending ssafault"
).split()
ANSWERS = {"ok": (), "handle": (NUMBER,), "pte": (NUMBER, FLAGS), **EXITS, **{word: () for word in REFUSALS}}
KIND = "read|write|exec"
CAUSES = {"unmapped": (NUMBER, KIND), "runtime": (NUMBER, KIND), "fetch": (NUMBER, KIND), "resumed": (), "stuck": (NUMBER, KIND)}
EVENTS = {"call": 3 * (NUMBER,), "miss": 2 * (NUMBER,), "trap": 2 * (NUMBER,), "break": (NUMBER,)}


class ReportFault(Exception):
    """Why a text is no report."""


@dataclass(frozen=True)
class Move:
    """A move of the kernel and its answer, in words, and the line of the report."""

    words: Tuple[str, ...]
    answer: Tuple[str, ...]
    line: int


class Event(NamedTuple):
    """An event of the program at the number of instructions completed before it, and the line of the report."""

    kind: str
    count: int
    rest: Tuple[int, ...]
    line: int

    def text(self) -> str:
        return " ".join(map(str, ("event", self.kind, self.count, *self.rest)))


class Stop(NamedTuple):
    """Why the enclave stopped, in words, and the number of the move that is to blame."""

    cause: Tuple[str, ...]
    blamed: int


@dataclass
class Report:
    """A report. `outputs` are values with their lines."""

    lines: List[str]
    moves: List[Move]
    outputs: List[Tuple[int, int]]
    events: List[Event]
    stop: Optional[Stop]


def fault(line: int, what: str) -> NoReturn:
    raise ReportFault(f"line {line}: {what}")


def is_spelled(words: List[str], forms: "dict[str, tuple[str, ...]]") -> bool:
    """A word of the table, with operands of its forms."""
    operands = forms.get(words[0]) if words else None
    if operands is None or len(operands) != len(words) - 1:
        return False
    return all(re.fullmatch(form, word) for form, word in zip(operands, words[1:]))


def read_move(number: int, line: int, text: str) -> Move:
    head, arrow, answer = text.partition(" -> ")
    count, *words = head.split(" ")
    if not arrow or count != str(number):
        fault(line, f"no line of the move {number}")
    if not is_spelled(words, MOVES):
        fault(line, f"no move: {' '.join(words)}")
    if not is_spelled(answer.split(" "), ANSWERS):
        fault(line, f"no answer: {answer}")
    return Move(tuple(words), tuple(answer.split(" ")), line)


def read_event(line: int, text: str) -> Event:
    words = text.split(" ")[1:]
    if not is_spelled(words, EVENTS):
        fault(line, f"no event: {text}")
    count, *rest = map(int, words[1:])
    return Event(words[0], count, tuple(rest), line)


def read_stop(line: int, text: str, moves: int) -> Optional[Stop]:
    """The stop of the last line, where there is one. It blames one of so many moves."""
    if text == "stop none":
        return None
    first, *rest = text.split(" ")
    if first != "stop" or rest[-2:-1] != ["blame"] or not is_spelled(rest[:-2], CAUSES):
        fault(line, f"no stop: {text}")
    if not re.fullmatch(NUMBER, rest[-1]) or not 1 <= int(rest[-1]) <= moves:
        fault(line, f"no move to blame: {text}")
    return Stop(tuple(rest[:-2]), int(rest[-1]))


def read_report(text: str) -> Report:
    """The report that the text is; a ReportFault tells why it is none."""
    if not text.startswith(FIRST_LINE + "\n"):
        fault(1, f"a report begins with the line `{FIRST_LINE}`")
    if not text.endswith("\n"):
        fault(text.count("\n") + 1, "the last line does not end")
    report = Report(text.split("\n")[:-1], [], [], [], None)
    for line, words in enumerate(report.lines[1:-1], 2):
        if words.startswith("event "):
            report.events.append(read_event(line, words))
        elif words.startswith("output ") and not report.events:
            if not re.fullmatch(NUMBER, words[7:]):
                fault(line, f"no output: {words}")
            report.outputs.append((int(words[7:]), line))
        elif report.outputs or report.events:
            fault(line, "no output or event, or one that comes too late")
        else:
            report.moves.append(read_move(len(report.moves) + 1, line, words))
    report.stop = read_stop(len(report.lines), report.lines[-1], len(report.moves))
    return report


def read_report_file(name: str) -> Report:
    """The report of a file; a ReportFault names the file."""
    try:
        with open(name, encoding="ascii", newline="") as file:
            return read_report(file.read())
    except OSError as why:
        raise ReportFault(f"{name}: {why.strerror}") from why
    except UnicodeDecodeError as why:
        raise ReportFault(f"{name}: the byte at {why.start} is no ASCII") from why
    except ReportFault as why:
        raise ReportFault(f"{name}: {why}") from why
