"""The schedules that a search has still to run. Those come first whose last event comes after the fewest calls; but where there is a pool, every second one is
the one that is nearest to a deadlock, because the most devices are lent and the most programs wait.
"""
import heapq
import itertools
from typing import Dict, List

from kdf9.tables import table
from outcomes.moments import Moment
from outcomes.runs import Events, Job

# How much nearer to a deadlock a program that waits is than a device that is lent.
WAITING = table("outcomes")["waiting"]


class Queue:
    """The schedules of a job that are still to be run."""

    def __init__(self, job: Job) -> None:
        self._has_pool = bool(job.pool)
        self._left: Dict[int, Events] = {}
        self._soonest: List[tuple] = []
        self._nearest: List[tuple] = []
        self._count = itertools.count()

    def __len__(self) -> int:
        return len(self._left)

    def push(self, events: Events, moment: Moment) -> None:
        """Adds a schedule, and what there is after its last event."""
        number, start = next(self._count), events[-1].calls if events else 0
        self._left[number] = events
        heapq.heappush(self._soonest, (start, number))
        if self._has_pool:
            waiting = sum(hold[0] == "WAIT" for hold in moment.holds.values())
            heapq.heappush(self._nearest, (-len(moment.lent) - WAITING * waiting, start, number))

    def pop(self, most: int) -> List[Events]:
        """Takes out the next schedules, at most so many."""
        return [self._next(self._nearest if self._has_pool and at % 2 else self._soonest) for at in range(min(most, len(self._left)))]

    def _next(self, heap: List[tuple]) -> Events:
        """Takes out the first schedule of this sequence that is still there."""
        while heap[0][-1] not in self._left:
            heapq.heappop(heap)
        return self._left.pop(heapq.heappop(heap)[-1])
