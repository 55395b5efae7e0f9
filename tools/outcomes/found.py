"""What was found to come of a job, each with the schedule of a run that comes to it; and that equal answers gave equal sections."""
from typing import Dict, NamedTuple, Optional, Tuple

from kdf9.program import BadInput
from kdf9.tables import table
from outcomes.moments import Circle, Moment, Path
from outcomes.runs import Events, Job

# What is said where what was found contradicts itself.
SAYS = table("outcomes")["says"]

# How a program that waits for good is told in a joint outcome.
WAITS = "WAITS"


class Result(NamedTuple):
    """What a program came to: ENDED or FAILED and the kind, or WAITS for good; and what it was answered."""

    state: str
    answers: Tuple[int, ...]


class Witness(NamedTuple):
    """A schedule that comes to something: its number of calls, and its events."""

    calls: int
    events: Events


class Found:
    """What came of the runs of a job so far."""

    def __init__(self, job: Job) -> None:
        self.job = job
        self.results: Dict[int, Dict[Result, Witness]] = {slot: {} for slot in job.slots}
        self.joint: Dict[Tuple[Result, ...], Witness] = {}
        self.deadlocks: Dict[Circle, Witness] = {}
        self.starved: Dict[int, Witness] = {}
        self.sections: Dict[Tuple[int, Result], Tuple[str, ...]] = {}
        self.runs, self.is_cut, self.left = 0, False, 0
        self.joint_count: Optional[int] = None

    @property
    def is_whole(self) -> bool:
        """Whether nothing else can come of the job, however long its schedule is."""
        return not self.is_cut and not self.left

    def keep(self, path: Path) -> None:
        """Keeps what a run came to since its last event."""
        for slot, state in path.last.over.items():
            self.keep_section(slot, Result(state, path.last.answers[slot]), path.sections[slot])
        for calls in range(path.start, len(path.moments)):
            self._look(path.moments[calls], Witness(calls, path.events))
        self._look_for_starved(path)

    def keep_section(self, slot: int, result: Result, section: Tuple[str, ...]) -> None:
        """Keeps the section of a program that is over, which depends on nothing but its answers."""
        if self.sections.setdefault((slot, result), section) != section:
            answers = " ".join(map(str, result.answers)) or "nothing"
            raise BadInput(f"{self.job.source}: {SAYS['two_sections'].format(slot=slot, answers=answers)}")

    def _look(self, moment: Moment, witness: Witness) -> None:
        for slot, state in moment.over.items():
            least(self.results[slot], Result(state, moment.answers[slot]), witness)
        circle = moment.circle(self.job.pool) if any(hold[0] == "WAIT" for hold in moment.holds.values()) else ()
        if circle:
            least(self.deadlocks, circle, witness)
        outcome = outcome_of(moment, circle)
        if outcome is not None:
            least(self.joint, outcome, witness)

    def _look_for_starved(self, path: Path) -> None:
        """A program starves in a run in which each call was the turn of another."""
        turns = {turn.slot for turn in path.turns}
        if None not in turns:
            for slot in set(path.last.live()) - turns:
                least(self.starved, slot, Witness(len(path.turns), path.events))


def outcome_of(moment: Moment, circle: Circle) -> Optional[Tuple[Result, ...]]:
    """What all programs came to, if none of them will go on."""
    waiting = {slot for slot, _, _ in circle}
    if set(moment.live()) - waiting:
        return None
    return tuple(Result(WAITS if slot in waiting else moment.over[slot], moment.answers[slot]) for slot in moment.orders)


def least(kept: dict, what, witness: Witness) -> None:
    """Keeps the witness of something if it is shorter than the one before."""
    if what not in kept or witness < kept[what]:
        kept[what] = witness
