"""What each run of a report was: steps of the runtime, and which instructions of the program completed.

The report alone tells it. The answers tell what the runtime did, the events how many instructions completed before the program left.
"""
from dataclasses import dataclass, field
from typing import List, NoReturn, Optional

from formats.reports import Event, Move, Report

ENDS = ("ended", "trapped", "stopped")
FAULTS = ("miss", "trap", "break")


class TurnsFault(Exception):
    """Why the turns of a report are not told."""


@dataclass
class Pace:
    """The turns of a run: the steps of the runtime in words, the instructions that completed, and whether one faulted."""

    first: int
    after: int
    steps: List[str] = field(default_factory=list)
    faults: bool = False
    event: Optional[Event] = None


class Follower:
    """Follows the moves of a report. What a processor is about to do is `entry`, `program`, `leave`, `probe` or `guard`."""

    def __init__(self, report: Report):
        self.report = report
        self.events = list(report.events)
        self.saved: List[str] = []
        self.now: Optional[str] = None
        self.asked = self.ended = False
        self.count = 0

    def fail(self, move: Move, what: str) -> NoReturn:
        raise TurnsFault(f"line {move.line}: {what}")

    def pace(self, move: Move) -> Optional[Pace]:
        """The turns of a move; none, where it is no run or is refused."""
        word, done = move.words[0], move.answer == ("ok",)
        if word == "eenter" and done:
            self.now = "entry"
        elif word == "eresume" and done:
            if not self.saved:
                self.fail(move, "a resume, and no frame is saved")
            self.now = self.saved.pop()
        elif word == "interrupt" and done:
            self.saved.append(self.inside(move))
            self.now = None
        if word != "run" or move.answer[0] in ("nolp", "outside"):
            return None
        pace = Pace(self.count, self.count)
        self.run(move, pace, self.inside(move))
        self.count = pace.after
        return pace

    def inside(self, move: Move) -> str:
        if self.now is None:
            self.fail(move, f"a {move.words[0]}, and no processor is inside")
        return self.now

    def run(self, move: Move, pace: Pace, now: str) -> None:
        turns = int(move.words[2])
        if now == "entry" and not (move.answer[0] == "pf" and not self.events):
            pace.steps.append("enter")
            turns -= 1
            if not self.saved and not self.ended:
                now = "program"
            elif len(self.saved) == 1 and self.asked:
                now = "probe"
        if move.answer == ("in",):
            self.stays(move, pace, now, turns)
        else:
            self.leaves(move, pace, now)

    def stays(self, move: Move, pace: Pace, now: str, turns: int) -> None:
        """A run after which the processor is still inside: it took all its turns."""
        self.now = now
        if now == "probe" and turns:
            pace.steps.append("probe")
        if now != "program":
            return
        pace.after += turns
        if not self.events or pace.after <= self.events[0].count:
            return
        if self.events[0].kind != "call" or pace.after > self.events[0].count + 1:
            self.fail(move, f"the processor is still inside, after the turn of `{self.events[0].text()}`")
        pace.event, self.now = self.events.pop(0), "leave"

    def leaves(self, move: Move, pace: Pace, now: str) -> None:
        answer, self.now = move.answer[0], None
        if now == "program" and answer not in ENDS or now == "program" and self.events:
            self.program_leaves(move, pace)
        elif now == "leave":
            pace.steps.append("fault" if answer == "pf" else "leave")
            self.ended |= answer == "ended"
        elif answer == "pf":
            pace.steps.append("fault")
        else:
            pace.steps += (["probe"] if answer == "ready" else ["guard"] if now == "guard" else []) + [answer]
        if answer in ("pf", "vector"):
            self.saved.append("program" if pace.faults else now)
        self.after_exit(answer)

    def after_exit(self, answer: str) -> None:
        """What the runtime leaves behind."""
        if answer in ("ask", "trapped", "stopped"):
            self.saved = len(self.saved) * ["guard"]
        if answer == "ready":
            self.saved = ["program"]
        self.asked = answer == "ask" or self.asked and answer not in ("ready", "stopped")
        self.ended |= answer in ENDS

    def program_leaves(self, move: Move, pace: Pace) -> None:
        """A run of the program that left by a call, a vector or a fault."""
        answer, *rest = move.answer
        if not self.events:
            self.fail(move, f"no event for the answer `{' '.join(move.answer)}`")
        event = pace.event = self.events.pop(0)
        shows = {
            "call": event.kind == "call" and event.rest == tuple(map(int, rest)),
            "ended": event.kind == "call" and event.rest == (0, *map(int, rest)),
            "vector": event.kind == "trap" and event.rest == tuple(map(int, rest)),
            "pf": event.kind != "trap" or event.rest == (14,),
        }
        if not shows.get(answer):
            self.fail(move, f"`{event.text()}` is not the event of the answer `{' '.join(move.answer)}`")
        pace.faults = event.kind in FAULTS
        pace.after = event.count + (event.kind == "call")
        if pace.after < self.count:
            self.fail(move, f"the count of `{event.text()}` is below {self.count}")
        if event.kind == "call":
            pace.steps.append("fault" if answer == "pf" else "leave")


def paces_of(report: Report) -> List[Optional[Pace]]:
    """The turns of each move; a TurnsFault where the report does not tell them."""
    follower = Follower(report)
    return [follower.pace(move) for move in report.moves]
