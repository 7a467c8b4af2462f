"""Where in a report an enclave stopped: the move that is to blame, the fault, and the first answer that tells of the stop."""
from typing import NamedTuple, Optional

from formats.reports import Report


class Joint(NamedTuple):
    """Places of moves, from 0."""

    blamed: int
    fault: int
    told: Optional[int]


def joint_of(report: Report) -> Optional[Joint]:
    """The places of the stop, where there is one. A resume that came too early has no fault: the answer stands for it."""
    if report.stop is None:
        return None
    answers = [move.answer for move in report.moves]
    stopped = [place for place, answer in enumerate(answers) if answer == ("stopped",)]
    told = stopped[0] if stopped else None
    faults = [place for place, answer in enumerate(answers[:told]) if answer[0] == "pf"]
    fault = told if report.stop.cause == ("resumed",) or not faults else faults[-1]
    return Joint(report.stop.blamed - 1, report.stop.blamed - 1 if fault is None else fault, told)
