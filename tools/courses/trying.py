"""Tries a course itself: each solution passes, and each wrong one is refused with its own remark."""
from typing import Iterator, List, NamedTuple, Sequence

from courses import marking
from courses.exercise import Exercise
from courses.runs import Outcome, plans_of
from kdf9.words import count


class Tried(NamedTuple):
    """What trying an exercise came to: what is said of it, and what is wrong with it, each with its place."""

    said: str
    faults: List[str]


def tried(exercise: Exercise, seeds: int) -> Tried:
    """What comes of an exercise that is tried, its solution also under the schedules of so many seeds."""
    faults = list(faults_of(exercise, seeds))
    said = f"{exercise.name}: {count(len(exercise.cases), 'case')}, {count(exercise.runs, 'run')}; the solution passes"
    said += f", also under {count(seeds, 'seed')}" if all(plans_of(exercise, case, seeds) is not case.plans for case in exercise.cases) else ""
    return Tried(f"{said}; {count(len(exercise.wrong), 'wrong solution')} refused, each with its remark", faults)


def faults_of(exercise: Exercise, seeds: int) -> Iterator[str]:
    """What is wrong with an exercise."""
    if not exercise.solution:
        yield f"{exercise.path}:{exercise.solution_line}: the exercise has no ## Solution"
        return
    found, cause, first = marking.judge(exercise, exercise.solution)
    if found.right < found.of or found.missed or not found.of:
        yield f"{exercise.path}:{exercise.solution_line}: the solution fails: {words(found, cause, first)}"
        return
    if seeds:
        more, cause, first = marking.judge(exercise, exercise.solution, seeds)
        if more.right < more.of:
            yield f"{exercise.path}:{exercise.solution_line}: the solution fails: {words(more, cause, first)}"
    yield from faults_of_wrong(exercise)


def faults_of_wrong(exercise: Exercise) -> Iterator[str]:
    """What is wrong with the wrong solutions."""
    seen: dict = {}
    for wrong in exercise.wrong:
        found = marking.judge(exercise, wrong.text)[0]
        if found.right == found.of:
            yield f"{exercise.path}:{wrong.line}: the wrong solution '{wrong.name}' passes: no case tells it from a right one"
        elif found.print in seen:
            yield f"{exercise.path}:{wrong.line}: the wrong solution '{wrong.name}' does in all runs as '{seen[found.print]}', so its remark can't be given"
        seen.setdefault(found.print, wrong.name)


def words(found: Outcome, cause: str, first: str) -> str:
    """What is wrong with a solution."""
    return " / ".join(each for each in (f"{found.right} of {count(found.of, 'run')}", cause, first) if each)


def tell(exercises: Sequence[Exercise], tries: Sequence[Tried]) -> Iterator[str]:
    """The lines of what was tried."""
    for exercise, each in zip(exercises, tries):
        yield from each.faults or [each.said]
