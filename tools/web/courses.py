"""The course that a page has: its exercises as tables, their prose, their questions, and what a teacher's word opens."""
import pathlib
from typing import Dict, Iterator, List

from courses import machine, paged, reading
from courses.dues import BLOCKS, Due
from courses.exercise import Case, Exercise
from kdf9.program import BadInput
from quizzes.kinds import question
from quizzes.written import title
from web.documents import meaning_of_schedule
from web.prose import elements, inline
from web.sealed import sealed

# How many questions of a kind an exercise has, with seeds of its own.
QUESTIONS, SEEDS = 3, 100


def course_in_page(name: str) -> Dict[str, object]:
    """The course of this name, or in this folder, as the page has it."""
    machine.answer_here()
    exercises = reading.course(name)
    broken = next((each for each in exercises if not each.solution), None)
    if broken:
        raise BadInput(f"{broken.path}: the exercise has no ## Solution, and a page needs the course that its teacher has")
    folder = pathlib.Path(name).resolve().name
    return {"name": folder, "title": folder[:1].upper() + folder[1:].replace("-", " "), "exercises": [of_exercise(each) for each in exercises]}


def of_exercise(exercise: Exercise) -> Dict[str, object]:
    """An exercise as the page has it."""
    return {
        **paged.table_of(exercise), "prose": elements(exercise.sheet), "hints": [inline(hint) for hint in exercise.hints], "limits": limits(exercise),
        "schedules": [[written, f"{meaning_of_schedule(written)}."] for written in schedules(exercise)],
        "shown": [shown(case) for case in exercise.cases if case.is_shown], "questions": list(questions(exercise)),
        "sealed": sealed(kept_back(exercise), exercise.opens) if exercise.opens else None,
    }


def limits(exercise: Exercise) -> List[str]:
    """What counts, in sentences."""
    rules = exercise.rules
    parts = [f"the deck of slot {slot}" for slot in rules.slots] + (["the schedule"] if rules.takes_schedule else [])
    said = [f"What is handed in: {', '.join(parts)}."] if parts != ["the deck of slot 0"] else []
    said += [f"At most {rules.words} words in the image of a deck."] if rules.words else []
    said += [f"At most {rules.orders} orders in a run."] if rules.orders else []
    said += [f"The deck has to use {name}." for name in rules.uses] + [f"The deck mustn't use {name}." for name in rules.avoids]
    return [*said, f"Schedules: {', '.join(schedules(exercise))}. At most {rules.calls} calls."]


def schedules(exercise: Exercise) -> List[str]:
    """The schedules of an exercise, as they are written."""
    return list(dict.fromkeys(plan.text for case in exercise.cases for plan in case.plans))


def shown(case: Case) -> Dict[str, object]:
    """A case in words: its name, what it gives and what is due."""
    given = case.given
    gives = [f"{name} = {value}" for name, value in given.constants.items()]
    gives += [f"device {number} {' '.join(lines) or 'empty'}" for number, lines in given.media.items()] + [f"{line} after {calls}" for calls, line in given.events]
    return {"name": case.name, "gives": gives, "dues": [text for due in case.dues for text in texts(due)]}


def texts(due: Due) -> List[str]:
    """What is due, as a case has it; of several blocks, each on its own."""
    head, is_named = due.text.partition("+")[0], due.slot is None or due.text.startswith("slot ")
    if due.kind in BLOCKS and due.value:
        return [f"{head}+{block}" for block in due.value]
    return [due.text if is_named else f"slot {due.slot} {due.text}"]


def questions(exercise: Exercise) -> Iterator[Dict[str, object]]:
    """The questions beside an exercise, with their answers."""
    for kind in exercise.rules.questions:
        for seed in range(SEEDS * exercise.number + 1, SEEDS * exercise.number + 1 + QUESTIONS):
            made = question(kind, seed)
            yield {
                "title": title(made), "task": inline(made.task), "texts": made.texts, "asked": made.asked, "answer": made.answer, "why": inline(made.why),
            }


def kept_back(exercise: Exercise) -> Dict[str, object]:
    """What students don't see."""
    return {
        "solution": paged.as_job(exercise, exercise.solution), "answers": inline(exercise.answers), "cases": [shown(case) for case in exercise.cases if not case.is_shown],
        "wrong": [{"name": wrong.name, "job": paged.as_job(exercise, wrong.text), "remark": inline(wrong.remark)} for wrong in exercise.wrong],
    }
