"""A question of a quiz, and what a machine is asked for its answer."""
from typing import Dict, List, NamedTuple, Tuple

from courses import machine
from kdf9.program import BadInput
from outcomes.moments import Path

# How many jobs are tried for a question before its kind is given up.
MOST_TRIES = 400


class Question(NamedTuple):
    """A question: its kind and its seed, the words of the task, its texts by their names, what is asked, the answer, and why that is so."""

    kind: str
    seed: int
    task: str
    texts: Dict[str, str]
    asked: str
    answer: str
    why: str


class Unfit(Exception):
    """A job that chance made isn't worth a question."""


def ran(job: str) -> str:
    """The report of a job."""
    answer = machine.ask(["run"], job)
    if answer.status:
        raise Unfit(answer.text)
    return answer.text


def path_of(report: str, slots: List[int]) -> Path:
    """The calls of a run, and what there is after each."""
    return Path(report, slots, ())


def scheduled(job: str, calls: int, lines: List[str]) -> str:
    """A job without a schedule, with the lines of one; `calls` if there are none."""
    return job + "".join(f"{line}\n" for line in ["SCHEDULE", *(lines or [f"ORDERS {calls}"]), "ENDJOB"])


def gave_up(kind: str, seed: int) -> BadInput:
    """What is said if no job is found."""
    return BadInput(f"quiz: no question of the kind {kind} was found from seed {seed}; take another seed")


Texts = Dict[str, str]
Made = Tuple[str, Texts, str, str, str]
