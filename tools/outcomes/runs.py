"""Runs of a job under schedules that are tried: the only place that asks the machine for them, on all processors if there are many."""
import multiprocessing
from typing import Dict, Iterable, List, Optional, Sequence, Tuple

from kdf9.job import join_lines, parts_of, read_slots
from kdf9.machine import processors
from kdf9.program import BadInput, answer_to
from kdf9.schedule import Event, Schedule, lines_of_schedule, read_schedule, start_of
from outcomes.moments import Path

# A batch with fewer runs isn't worth other processes.
FEWEST_SHARED = 4

Events = Tuple[Event, ...]


class Job:
    """A job of which schedules are tried: its lines up to SCHEDULE, its slots, the kinds of its pool's devices by number, the times that its schedule sets
    the clock to, and the exchanges before its first call. Of its own schedule nothing else is kept.
    """

    def __init__(self, source: str, lines: Sequence[str]) -> None:
        self.source, self.lines = source, list(lines)
        self.head = self.lines[:start_of(lines) + 1]
        slots, events = read_slots(lines), read_schedule(lines).events
        self.slots = sorted(slots)
        self.pool: Dict[int, str] = next(iter(slots.values())).pool_kinds()
        self.times = sorted({int(event.line[6:]) for event in events if event.line.startswith("CLOCK ")} - {0})
        self.swaps = tuple(event for event in events if event.calls == 0 and event.line.startswith("SWAP "))

    def alone(self, slot: int) -> "Job":
        """The job of the program of one slot, without a pool and a schedule."""
        return Job(self.source, [self.lines[0], *parts_of(self.lines)[slot], "SCHEDULE", "ENDJOB"])

    def text(self, events: Iterable[Event], calls: int) -> str:
        """The text of the job with these events in this number of calls, behind its own exchanges."""
        return join_lines([*self.head, *lines_of_schedule(Schedule(calls, [*self.swaps, *events])), "ENDJOB"])

    def run(self, events: Events, calls: int) -> Path:
        """The run of the job with these events."""
        return Path(answer_to(["run"], self.text(events, calls)), self.slots, events)


class Runner:
    """Runs a job many times, with a fixed number of calls."""

    def __init__(self, job: Job, calls: int) -> None:
        self.job, self.calls, self.number = job, calls, 0
        self._workers: Optional[multiprocessing.pool.Pool] = None

    def paths(self, batch: List[Events]) -> List[Path]:
        """The runs with these events, in their sequence."""
        self.number += len(batch)
        if len(batch) < FEWEST_SHARED or not processors() > 1:
            return [self.job.run(events, self.calls) for events in batch]
        if self._workers is None:
            self._workers = multiprocessing.get_context("fork").Pool(processors(), begin, (self.job, self.calls))
        answers = self._workers.map(path_of, batch)
        for answer in answers:
            if isinstance(answer, str):
                raise BadInput(answer)
        return answers

    def close(self) -> None:
        """Ends the other processes."""
        if self._workers is not None:
            self._workers.terminate()
            self._workers.join()
            self._workers = None


# What a worker process runs: the job, and the number of calls.
WORK: list = []


def begin(job: Job, calls: int) -> None:
    """Begins a worker process."""
    WORK[:] = [job, calls]


def path_of(events: Events):
    """The run with these events, in a worker process; or the line that says why there is none."""
    job, calls = WORK
    try:
        return job.run(events, calls)
    except BadInput as why:
        return str(why)
