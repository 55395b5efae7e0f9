"""A job without a pool and a clock: what each program is answered depends on no other, so each is searched by itself.

The schedules of the whole job are put together from theirs: one program after the other, each as far as it has to be.
"""
import itertools
import math
from typing import Dict, List, Optional, Tuple

from kdf9.journal import SLOTS, exchanged
from kdf9.schedule import MOST_LINES, Event
from kdf9.tables import table
from outcomes.found import Found, Witness, least
from outcomes.moments import Path
from outcomes.runs import Job
from outcomes.search import LATE, NAIVE, Limits, Search

# How many joint outcomes are listed; the others are only counted.
MOST_JOINT = table("outcomes")["most_joint"]


class Alone(Search):
    """The search of a job of one program. `way` is the shortest run after which others may have their turns, because the program is held up or over; `endless`
    is a run in which it has all turns; and `asks` says whether it was answered anything.
    """

    def __init__(self, job: Job, limits: Limits) -> None:
        super().__init__(job, limits, LATE)
        self.slot = job.slots[0]
        self.way: Optional[Witness] = None
        self.endless: Optional[Witness] = None
        self.asks = True

    def all(self) -> Found:
        """What comes of the program. If it asks nothing, a run in which each transfer ends at once tells all."""
        path = self._at_once()
        if path is None or any(path.last.answers.values()):
            return super().all()
        self.asks = False
        self.seen(path)
        self.found.runs, self.found.is_cut = 1, not self._is_settled(path)
        if path.events:
            self.seen(self._job.run((), self._limits.calls))
            self.found.runs += 1
        return self.found

    def _at_once(self) -> Optional[Path]:
        """The run in which each transfer ends at once, with no other events; None if its schedule would be too long."""
        calls, devices = self._limits.calls, range(16)
        if calls * (len(devices) + 1) > MOST_LINES:
            return None
        everywhere = tuple(Event(call, f"END {device}") for call in range(1, calls) for device in devices)
        path = self._job.run(everywhere, calls)
        path.events = tuple(started(path))
        return path

    def seen(self, path: Path) -> None:
        """Keeps what a run shows, also of the turns that the program leaves to others."""
        self.found.keep(path)
        for calls, moment in enumerate(path.moments):
            if moment.over or calls and path.turns[calls - 1].hold:
                witness = Witness(calls, tuple(event for event in path.events if event.calls < calls))
                self.way = min(self.way or witness, witness)
                return
        self.endless = self.endless or Witness(len(path.turns), path.events)


def started(path: Path) -> List[Event]:
    """The ends of the transfers of a run in which each ended at once."""
    return [Event(calls, f"END {device}") for calls, device in path.begun]


class Apart:
    """The searches of all programs of a job, by slot, and what comes of them together."""

    def __init__(self, job: Job, limits: Limits, most_joint: int = MOST_JOINT) -> None:
        self._job, self._limits, self._most_joint = job, limits, most_joint
        self.alone: Dict[int, Alone] = {slot: Alone(job.alone(slot), limits) for slot in job.slots}
        order = SLOTS
        for event in job.swaps:
            order = exchanged(order, *map(int, event.line.split(" ")[1:]))
        self._order = [slot for slot in order if slot in job.slots]
        self._first = order[0]

    def all(self) -> Found:
        """What comes of the job."""
        found = Found(self._job)
        for slot, search in self.alone.items():
            mine = search.all()
            found.runs, found.left, found.is_cut = found.runs + mine.runs, found.left + mine.left, found.is_cut or mine.is_cut
            found.sections.update(mine.sections)
        for slot in self._order:
            self._combine(found, slot)
        self._joint(found)
        return found

    def _combine(self, found: Found, slot: int) -> None:
        """Adds the results of a program, behind the shortest runs of those that have to make way for it, and whether it starves."""
        before = self._before(slot)
        for result, witness in self.alone[slot].found.results[slot].items():
            if before is not None:
                found.results[slot][result] = after(before, witness)
        endless = [other for other in self._order if other != slot and self.alone[other].endless and self._is_before(other, slot)]
        if endless:
            before = self._before(endless[0])
            if before is not None:
                least(found.starved, slot, after(before, self.alone[endless[0]].endless))

    def _is_before(self, other: int, slot: int) -> bool:
        """Whether a program may have its turns before another."""
        return self._limits.swaps or self._order.index(other) < self._order.index(slot)

    def _before(self, slot: int) -> Optional[Witness]:
        """The shortest beginning of a schedule that gives a program its turn; None if there is none."""
        if self._limits.swaps:
            line = f"SWAP {self._first} {slot}"
            return Witness(0, () if slot == self._first else (Event(0, line),))
        before: Optional[Witness] = Witness(0, ())
        for other in self._order[:self._order.index(slot)]:
            way = self.alone[other].way
            before = after(before, way) if before is not None and way is not None else None
        return before

    def _joint(self, found: Found) -> None:
        """Counts the joint outcomes, which are all combinations, and lists the first of them."""
        mine = [sorted(self.alone[slot].found.results[slot].items()) for slot in self._order]
        found.joint_count = math.prod(map(len, mine))
        for combination in itertools.islice(itertools.product(*mine), self._most_joint):
            witness, outcome = Witness(0, ()), {}
            for slot, (result, own) in zip(self._order, combination):
                witness, outcome[slot] = after(witness, own), result
            found.joint[tuple(outcome[slot] for slot in self._job.slots)] = witness


def after(first: Witness, then: Witness) -> Witness:
    """A schedule, and then another as if the calls began anew."""
    return Witness(first.calls + then.calls, first.events + tuple(Event(first.calls + calls, line) for calls, line in then.events))


def explored(job: Job, limits: Limits, mode: str) -> Tuple[Found, Optional[Apart]]:
    """What comes of a job; and the searches of its programs, if each could be searched by itself."""
    if mode == NAIVE or job.pool or job.times:
        return Search(job, limits, mode).all(), None
    apart = Apart(job, limits)
    return apart.all(), apart
