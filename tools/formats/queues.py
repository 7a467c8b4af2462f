"""Which clusters are in after each move of a report, told from the answers."""
from typing import List, NamedTuple, Optional, Tuple

from formats.reports import Report


class Queue(NamedTuple):
    """The clusters that are in, in the order of their misses, and the one that is asked for."""

    inside: Tuple[int, ...]
    asked: Optional[int]

    def text(self, room: int) -> str:
        """The clusters in so many letters: the first of them, and how many there are, where they are too many."""
        asked = [f"asks {self.asked}"] if self.asked is not None else []
        whole = ", ".join([" ".join(map(str, self.inside))] * bool(self.inside) + asked)
        if len(whole) <= room:
            return whole
        counts = [f"{len(self.inside)} in", ", ".join([f"{len(self.inside)} in", *asked])]
        return next((text for text in counts[::-1] if len(text) <= room), "")


def queues_of(report: Report) -> List[Queue]:
    """The clusters after each move."""
    queue, queues = Queue((), None), []
    for move in report.moves:
        if move.answer[0] == "ask":
            dropped, asked = map(int, move.answer[1:])
            queue = Queue(queue.inside[dropped:], asked)
        elif move.answer[0] == "ready" and queue.asked is not None:
            queue = Queue((*queue.inside, queue.asked), None)
        queues.append(queue)
    return queues
