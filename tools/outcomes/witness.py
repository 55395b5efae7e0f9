"""Schedules that show what was found: each is run once more on the machine, its report is checked, and what comes of it is compared with what was found."""
from typing import Callable, Dict, Tuple

from kdf9.program import BadInput, answer_to
from outcomes.found import SAYS, WAITS, Found, Result, Witness
from outcomes.moments import Circle, Path
from outcomes.runs import Job

# The line of the verdict on a report that is that of its job.
YES = "YES"


class Shown:
    """The witnesses of a job that were run once more."""

    def __init__(self, job: Job, found: Found) -> None:
        self._job, self._found = job, found
        self._paths: Dict[Witness, Path] = {}

    @property
    def number(self) -> int:
        """How many schedules were run once more."""
        return len(self._paths)

    def result(self, slot: int, result: Result, witness: Witness) -> str:
        """The job that shows what a program comes to."""
        return self._text(witness, lambda path: result_of(path, slot) == result)

    def joint(self, outcome: Tuple[Result, ...], witness: Witness) -> str:
        """The job that shows what all programs come to."""
        return self._text(witness, lambda path: tuple(result_of(path, slot, self._job.pool) for slot in self._job.slots) == outcome)

    def deadlock(self, circle: Circle, witness: Witness) -> str:
        """The job that shows a deadlock."""
        return self._text(witness, lambda path: path.last.circle(self._job.pool) == circle)

    def starved(self, slot: int, witness: Witness) -> str:
        """The job that shows a program without a turn."""
        return self._text(witness, lambda path: slot in path.last.live() and not {slot, None} & {turn.slot for turn in path.turns})

    def _text(self, witness: Witness, is_so: Callable[[Path], bool]) -> str:
        if not is_so(self._path(witness)):
            raise BadInput(f"{self._job.source}: {SAYS['no_witness'].format(calls=witness.calls)}")
        return self._job.text(witness.events, witness.calls)

    def _path(self, witness: Witness) -> Path:
        """The run of a schedule, whose report is that of its job, and whose sections are those that were found."""
        if witness not in self._paths:
            text = self._job.text(witness.events, witness.calls)
            report = answer_to(["run"], text)
            if answer_to(["check"], text + report).split("\n")[1] != YES:
                raise BadInput(f"{self._job.source}: {SAYS['not_checked']}")
            path = self._paths[witness] = Path(report, self._job.slots, witness.events)
            for slot, state in path.last.over.items():
                self._found.keep_section(slot, Result(state, path.last.answers[slot]), path.sections[slot])
        return self._paths[witness]


def result_of(path: Path, slot: int, pool: Dict[int, str] = {}) -> Result:  # pylint: disable=dangerous-default-value
    """What a program has come to at the end of a run; also that it waits for good for this pool."""
    waiting = {waits for waits, _, _ in path.last.circle(pool)} if pool else ()
    return Result(path.last.over.get(slot, WAITS if slot in waiting else "LIVE"), path.last.answers[slot])
