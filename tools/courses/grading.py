"""The table of a class: each student's marks and remarks, worked out on several processors, and the same each time."""
import multiprocessing
from typing import Dict, List, NamedTuple, Sequence, Tuple

from courses import handins, machine, marking
from courses.exercise import Exercise
from courses.handins import Student
from courses.marking import Prints, Verdict
from kdf9.command import slip
from kdf9.machine import processors

# How many processes share the work at most.
MOST_PROCESSES = 2


class Row(NamedTuple):
    """A student's row: the name, and what the exercises got, in their order."""

    name: str
    verdicts: Tuple[Verdict, ...]

    @property
    def total(self) -> float:
        """The sum of the marks."""
        return marking.total(self.verdicts)


# What a worker process works on: the exercises, and how their wrong solutions do.
WORK: Dict[str, object] = {}


def begin(exercises: Sequence[Exercise], prints: Sequence[Prints]) -> None:
    """Begins a worker process."""
    machine.answer_here()
    machine.keep_to_one_processor()
    WORK.update(exercises=list(exercises), prints=list(prints))


def prints_of(exercise: Exercise) -> Prints:
    """How the wrong solutions of an exercise do, in a worker process."""
    return marking.prints_of(exercise)


def row_of(student: Student) -> Row:
    """The row of a student, in a worker process."""
    exercises: List[Exercise] = WORK["exercises"]  # type: ignore[assignment]
    prints: List[Prints] = WORK["prints"]  # type: ignore[assignment]
    try:
        handed = handins.of_student(student, exercises)
    except Exception as why:  # pylint: disable=broad-except
        return Row(student.name, tuple(marking.refused(exercise, f"this can't be read: {slip(why)}") for exercise in exercises))
    return Row(student.name, tuple(of_exercise(exercise, handed, mine) for exercise, mine in zip(exercises, prints)))


def of_exercise(exercise: Exercise, handed: Dict[int, handins.HandIn], prints: Prints) -> Verdict:
    """What a student gets for an exercise."""
    mine = handed.get(exercise.number)
    if mine is None:
        return marking.verdict(exercise, None, prints)
    return marking.verdict(exercise, mine.text, prints) if mine.text is not None else marking.refused(exercise, mine.why)


def table(exercises: Sequence[Exercise], students: Sequence[Student]) -> List[Row]:
    """The rows of a class, in the order of its students."""
    number = min(processors(), MOST_PROCESSES)
    context = multiprocessing.get_context("fork")
    with context.Pool(number, begin, (exercises, [])) as workers:
        prints = workers.map(prints_of, exercises, 1)
    with context.Pool(number, begin, (exercises, prints)) as workers:
        return workers.map(row_of, students, 1)
