"""Folds a long list into columns: equal neighbours into one, and then repeated pieces into one piece."""
from typing import Callable, Generic, Hashable, List, Sequence, TypeVar

Item = TypeVar("Item")
LONGEST_PIECE = 64


class Column(Generic[Item]):
    """Items that stand in one column: those of each repetition, in order."""

    def __init__(self, runs: List[List[Item]]):
        self.runs = runs

    def items(self) -> List[Item]:
        return [item for run in self.runs for item in run]


class Piece(Generic[Item]):
    """Columns that come so many times in a row."""

    def __init__(self, columns: List[Column], times: int):
        self.columns = columns
        self.times = times


def neighbours(items: Sequence[Item], key: Callable[[Item], Hashable], least: int) -> List[List[Item]]:
    """Runs of items with equal keys, where there are so many; else items alone."""
    runs: List[List[Item]] = []
    start = 0
    while start < len(items):
        end = start + 1
        while end < len(items) and key(items[end]) == key(items[start]):
            end += 1
        runs += [list(items[start:end])] if end - start >= least else [[item] for item in items[start:end]]
        start = end
    return runs


def times_at(keys: Sequence[Hashable], start: int, length: int) -> int:
    """How often the piece at this place comes in a row."""
    piece, times = keys[start : start + length], 1
    while keys[start + times * length : start + (times + 1) * length] == piece:
        times += 1
    return times


def folded(items: Sequence[Item], key: Callable[[Item], Hashable], least: int = 3) -> List[Piece]:
    """The pieces, in order: each time the one that saves the most columns, if it saves two."""
    runs = neighbours(items, key, least)
    keys = [(key(run[0]), len(run)) for run in runs]
    pieces: List[Piece] = []
    start = 0
    while start < len(runs):
        longest = min(LONGEST_PIECE, (len(runs) - start) // 2)
        times, length = max(
            ((times_at(keys, start, length), length) for length in range(2, longest + 1)),
            key=lambda found: ((found[0] - 1) * found[1], -found[1]),
            default=(1, 1),
        )
        if times == 1:
            length = 1
        columns = [Column([runs[start + turn * length + i] for turn in range(times)]) for i in range(length)]
        pieces.append(Piece(columns, times))
        start += times * length
    return pieces
