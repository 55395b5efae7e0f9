"""The search through the schedules of a job. A node is a schedule; its children have one event more, later or at the same moment.

By the law `cut`, one run of a schedule shows each moment up to its end, so it serves all schedules that begin as it does. By the law `equal_futures`, what
follows a moment needs to be searched only once.
"""
from typing import Dict, Iterator, List

from kdf9.schedule import Event
from kdf9.tables import table
from outcomes.found import Found
from outcomes.moments import Moment, Path, Turn
from outcomes.queue import Queue
from outcomes.runs import Job, Runner

# How many nodes are run at a time.
BATCH = table("outcomes")["batch"]

# Everywhere, and each schedule by itself; everywhere, but equal moments only once; or only where somebody can tell, and equal moments only once.
NAIVE, MOMENTS, LATE = "naive", "moments", "late"


class Limits:
    """How far a search goes: so many calls, so many runs, and whether priorities are exchanged at any moment."""

    def __init__(self, calls: int, runs: int, swaps: bool = False) -> None:
        self.calls, self.runs, self.swaps = calls, runs, swaps


class Search:
    """A search through the schedules of a job."""

    def __init__(self, job: Job, limits: Limits, mode: str) -> None:
        self._job, self._limits, self._mode = job, limits, mode
        self._runner = Runner(job, limits.calls)
        self._seen: Dict[tuple, int] = {}
        self._queue = Queue(job)
        self.found = Found(job)

    def all(self) -> Found:
        """What comes of all schedules within the limits."""
        self._queue.push((), Moment(self._job.slots))
        try:
            while len(self._queue) and self._runner.number < self._limits.runs:
                for path in self._runner.paths(self._queue.pop(min(BATCH, self._limits.runs - self._runner.number))):
                    self.seen(path)
                    self._branch(path)
        finally:
            self._runner.close()
        self.found.runs, self.found.left = self._runner.number, len(self._queue)
        return self.found

    def seen(self, path: Path) -> None:
        """Keeps what a run shows."""
        self.found.keep(path)

    def _branch(self, path: Path) -> None:
        """Adds the children of a run to the queue, up to a moment from which an earlier run has shown everything."""
        for calls in range(path.start, len(path.turns)):
            if self._mode != NAIVE and (calls > path.start or not path.events) and self._is_known(path.moments[calls], calls):
                return
            for line in self._lines(path, calls):
                moment = path.moments[calls].after(line)
                if self._mode == NAIVE or not self._is_known(moment, calls):
                    self._queue.push(path.events + (Event(calls, line),), moment)
        self.found.is_cut = self.found.is_cut or not self._is_settled(path)

    def _is_known(self, moment: Moment, calls: int) -> bool:
        """Whether an equal moment came up after as few calls; if not, this one is known from now on."""
        key = moment.key()
        if self._seen.get(key, calls + 1) <= calls:
            return True
        self._seen[key] = calls
        return False

    def _is_settled(self, path: Path) -> bool:
        """Whether more calls would show nothing new: no program is live, or all wait for good, or for events."""
        waiting = {slot for slot, _, _ in path.last.circle(self._job.pool)}
        return not set(path.last.live()) - waiting or bool(path.turns) and path.turns[-1].slot is None

    def _lines(self, path: Path, calls: int) -> Iterator[str]:
        """The lines by which a schedule may branch off after this number of calls."""
        if self._mode == LATE:
            yield from self._late(path, calls)
            return
        last = rank(path.events[-1].line) if self._mode == NAIVE and path.events and path.start == calls else None
        for line in self._everywhere(path.moments[calls]):
            if last is None or rank(line) > last and not rank(line)[0] == last[0] > 0:
                yield line

    def _everywhere(self, moment: Moment) -> Iterator[str]:
        """All lines that change something."""
        yield from (f"END {device}" for device in sorted(moment.flying))
        yield from self._later_times(moment)
        if self._limits.swaps:
            yield from (to_front(moment, slot) for slot in moment.live() if slot != moment.order[0])

    def _late(self, path: Path, calls: int) -> Iterator[str]:
        """Only the lines that somebody can tell from the same lines a call later."""
        moment, turn, before = path.moments[calls], path.turns[calls], path.turns[calls - 1] if calls else None
        if turn.answer is not None and not turn.is_of_pool:
            yield from ends(moment.flights(turn.slot))
            if turn.answer == moment.time:
                yield from self._later_times(moment)
        elif turn.hold is not None and turn.hold[0] != "WAIT":
            yield from ends(holders_up(moment, turn.slot, turn.hold))
        if before is not None and self._is_shared(before):
            for slot, hold in moment.holds.items():
                if slot != before.slot and hold[0] != "WAIT":
                    yield from ends(holders_up(moment, slot, hold))
        if self._limits.swaps and (before is None or self._is_shared(before) or before.hold or before.slot in moment.over):
            yield from (to_front(moment, slot) for slot in moment.live() if slot != turn.slot and not moment.may_be_held(slot, self._job.pool))

    def _is_shared(self, turn: Turn) -> bool:
        """Whether a call may be told by other programs: it changed the pool, or it asked and there is a clock that goes on."""
        return turn.is_of_pool or bool(self._job.times) and turn.answer is not None

    def _later_times(self, moment: Moment) -> Iterator[str]:
        return (f"CLOCK {time}" for time in self._job.times if time > moment.time)


def ends(devices: List[int]) -> Iterator[str]:
    """The lines that end a transfer of each of these devices."""
    return (f"END {device}" for device in devices)


def holders_up(moment: Moment, slot: int, hold) -> List[int]:
    """The devices whose transfers hold a program up: the one that the journal names, or, of a group, any of the program's."""
    flights = moment.flights(slot)
    return [device for device in flights if device == hold[1]] if hold[0] == "BUSY" else flights


def to_front(moment: Moment, slot: int) -> str:
    """The line that gives a slot the highest priority."""
    return f"SWAP {moment.order[0]} {slot}"


def rank(line: str) -> tuple:
    """The sequence in which lines at the same moment are added: those that end transfers, then one that sets the clock, then one that exchanges."""
    kind, *numbers = line.split(" ")
    return (["END", "CLOCK", "SWAP"].index(kind), *map(int, numbers))
