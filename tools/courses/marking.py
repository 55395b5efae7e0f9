"""Marks what students handed in for the exercises of a course."""
from typing import Dict, NamedTuple, Optional, Sequence, Tuple

from courses import remarks
from courses.exercise import Exercise
from courses.runs import Fault, Outcome, outcome
from courses.taken import Taken, Unfit, take
from kdf9.command import slip
from kdf9.program import BadInput

# The digits of marks after their point.
DIGITS = 1

NOTHING = "nothing was handed in"

Prints = Dict[Tuple[str, ...], int]


class Verdict(NamedTuple):
    """What a hand-in gets for an exercise: its marks, of so many; how many runs are right, of so many; the remark, and what came in the first run that isn't
    right and what was due, with the cause if the remark is a teacher's. Of one that is all right the last two are empty.
    """

    marks: float
    most: int
    right: int
    of: int
    remark: str = ""
    first: str = ""

    @property
    def is_right(self) -> bool:
        """Whether it is all right."""
        return self.right == self.of


def judge(exercise: Exercise, text: str, seeds: int = 0) -> Tuple[Outcome, str, str]:
    """How a text does, what is said of it, and what came first that isn't right."""
    taken: Optional[Taken] = None
    try:
        taken = take(text, exercise)
        found = outcome(exercise, taken, seeds)
        if found.missed is None:
            return found, "", ""
        return found, remarks.cause(found.missed, taken), remarks.first_failing(found.missed)
    except Unfit as why:
        return Outcome(0, exercise.runs, (f"unfit: {why}",)), str(why), ""
    except Fault as why:
        said = remarks.said_of_fault(why.job, taken) if taken else str(why)
        return Outcome(0, exercise.runs, (f"fault: {why.args[0].split(' ')[:3]} {subject(said)}",)), said, ""


def subject(said: str) -> str:
    """A fault without its place."""
    return said.partition(": ")[2]


def prints_of(exercise: Exercise) -> Prints:
    """How each wrong solution of an exercise does, with its number. Of two that do alike, the first counts."""
    prints: Prints = {}
    for number, wrong in enumerate(exercise.wrong):
        prints.setdefault(judge(exercise, wrong.text)[0].print, number)
    return prints


def verdict(exercise: Exercise, text: Optional[str], prints: Prints) -> Verdict:
    """What a text gets, or its absence."""
    most = exercise.rules.marks
    if text is None:
        return Verdict(0.0, most, 0, exercise.runs, NOTHING)
    try:
        found, cause, first = judge(exercise, text)
    except Exception as why:  # pylint: disable=broad-except
        return refused(exercise, f"this couldn't be marked: {why if isinstance(why, BadInput) else slip(why)}")
    told = exercise.wrong[prints[found.print]].remark if found.print in prints and found.right < found.of else ""
    marks = round(most * found.right / found.of, DIGITS) if found.of else 0.0
    shown = f"{first} ({cause})" if told and cause and first else first or (cause if told else "")
    return Verdict(marks, most, found.right, found.of, told or cause, shown)


def total(verdicts: Sequence[Verdict]) -> float:
    """The sum of some marks."""
    return round(sum(each.marks for each in verdicts), DIGITS)


def refused(exercise: Exercise, why: str) -> Verdict:
    """What a hand-in gets that can't be read."""
    return Verdict(0.0, exercise.rules.marks, 0, exercise.runs, why)
