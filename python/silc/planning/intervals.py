"""When tasks of one cycle, of which only so many have room in a cycle, may be at the earliest and at the latest.

Tasks whose windows all lie in an interval, and fill it, leave no room there to others, so that a window of another that
begins in it begins behind it. What is found is all that follows of the windows so, by the rule of Hall: the bounds of
each are those of some way to place all tasks. The algorithm is that of López-Ortiz, Quimper, Tromp and van Beek for
values that all differ (IJCAI 2003); a cycle with room for several tasks is so many values.
"""
from __future__ import annotations

from collections.abc import Iterator, Sequence


class NoRoom(Exception):
    """There are more tasks in an interval than have room there."""


class Row:
    """The ends of windows in a row, with the room that is left between them, as trees over their places."""

    def __init__(self, starts: Sequence[int], ends: Sequence[int]) -> None:
        marks = sorted({*starts, *ends})
        self.at = {mark: place for place, mark in enumerate(marks, 1)}
        self.marks = [marks[0] - 2, *marks, marks[-1] + 2]
        # Where there is room from a place on, and where a full interval begins that ends at one.
        self.room = list(range(-1, len(marks) + 1))
        self.full = self.room[:]
        self.left = [0, *(mark - before for before, mark in zip(self.marks, self.marks[1:]))]

    def placed(self, start: int, end: int) -> int | None:
        """Puts a task into the first room of its window. The end of the full interval in which the window begins, or
        nothing where there is none."""
        low, high = self.at[start], self.at[end]
        found = top(self.room, low + 1)
        before = self.room[found]
        self.left[found] -= 1
        if not self.left[found]:
            self.room[found] = found + 1
            found = top(self.room, found + 1)
            self.room[found] = before
        lead(self.room, low + 1, found)
        over = self.left[found] - (self.marks[found] - self.marks[high])
        if over < 0:
            raise NoRoom
        behind = None
        if self.full[low] > low:
            last = top(self.full, self.full[low])
            behind = self.marks[last]
            lead(self.full, low, last)
        if not over:
            lead(self.full, self.full[high], before - 1, high)
            self.full[high] = before - 1
        return behind


def top(tree: list[int], place: int) -> int:
    """The last place to which those of a tree lead from one on."""
    while tree[place] > place:
        place = tree[place]
    return place


def lead(tree: list[int], place: int, end: int, to: int | None = None) -> None:
    """Makes all that leads from one place to another lead to the end at once, or to what is given."""
    target = end if to is None else to
    while place != end:
        tree[place], place = target, tree[place]


def later(starts: Sequence[int], ends: Sequence[int]) -> Iterator[tuple[int, int]]:
    """Of each task that may not be in its first cycles the first in which it may; ends are those behind the last.
    `NoRoom` where they have no room."""
    row = Row(starts, ends)
    for task in sorted(range(len(ends)), key=ends.__getitem__):
        behind = row.placed(starts[task], ends[task])
        if behind is not None:
            yield task, behind


def first_and_last(first: Sequence[int], last: Sequence[int], width: int) -> tuple[dict[int, int], dict[int, int]]:
    """The tasks whose windows begin later, and those whose windows end earlier, each with the cycle, where so many have
    room in a cycle. `NoRoom` where they have none."""
    starts, ends = [width * cycle for cycle in first], [width * (cycle + 1) for cycle in last]
    begin = {task: cycle // width for task, cycle in later(starts, ends)}
    back = later([-end for end in ends], [-start for start in starts])
    return begin, {task: -cycle // width - 1 for task, cycle in back}
