"""The rules of an exercise: what is handed in, the marks, the limits, the orders that have to be there or mustn't, the schedules, and the questions."""
import re
from typing import Dict, List, Optional, Tuple

from courses import taken
from courses.chapters import Block, Source, lines_of
from courses.exercise import Rules
from courses.schedules import EVERY, OWN, Plan, plan_of
from quizzes.kinds import KINDS

USUAL_MARKS, USUAL_CALLS, MOST_MARKS, MOST_CALLS = 10, 2000, 1000, 200000
USUAL_SCHEDULES = "at once, after 20, seed 1"

# How the rules begin, and those of which there can be several.
RULES = ("hand in", "marks", "calls", "words at most", "orders at most", "use", "never use", "schedules", "questions")
OFTEN = ("use", "never use")


def rules_of(source: Source, block: Optional[Block]) -> Rules:
    """The rules of a block, or the usual ones."""
    told: Dict[str, List[Tuple[int, str]]] = {}
    for at, line in lines_of(block) if block else ():
        key = next((key for key in RULES if line.startswith(f"{key} ")), None)
        if key is None:
            source.fail(at, f"this isn't a rule: {line}; a rule begins with {', '.join(RULES)}")
        told.setdefault(key, []).append((at, line[len(key) + 1:].strip()))
    for key in set(told) - set(OFTEN):
        if len(told[key]) > 1:
            source.fail(told[key][1][0], f"there is a second rule {key}")
    slots, takes_schedule = handed_in(source, told.get("hand in", []))
    usual = OWN if takes_schedule else USUAL_SCHEDULES
    plans = [plans_in(source, at, text, takes_schedule) for at, text in told.get("schedules", [(block.line if block else 1, usual)])]
    return Rules(
        slots, takes_schedule, number_of(source, told, "marks", 1, MOST_MARKS) or USUAL_MARKS, number_of(source, told, "calls", 1, MOST_CALLS) or USUAL_CALLS,
        number_of(source, told, "words at most", 1, 8192), number_of(source, told, "orders at most", 1, MOST_CALLS),
        orders_of(source, told.get("use", [])), orders_of(source, told.get("never use", [])), plans[0], questions_of(source, told.get("questions", [])),
    )


def questions_of(source: Source, told: List[Tuple[int, str]]) -> Tuple[str, ...]:
    """The kinds of questions of a rule."""
    for at, text in told:
        kinds = [word.strip() for word in text.split(",")]
        for kind in kinds:
            if kind not in KINDS:
                source.fail(at, f"{kind or 'nothing'} isn't a kind of questions: {', '.join(KINDS)}")
        return tuple(kinds)
    return ()


def number_of(source: Source, told: dict, key: str, least: int, most: int) -> Optional[int]:
    """The number of a rule, or None."""
    for at, text in told.get(key, []):
        if not re.fullmatch(r"\d{1,9}", text) or not least <= int(text) <= most:
            source.fail(at, f"{key} needs a number from {least} to {most}, and {text} isn't one")
        return int(text)
    return None


def handed_in(source: Source, told: List[Tuple[int, str]]) -> Tuple[Tuple[int, ...], bool]:
    """The slots whose decks are handed in, and whether the schedule is."""
    for at, text in told:
        words = [word.strip() for word in text.split(",")]
        for word in words:
            if not re.fullmatch(r"deck [0-3]|schedule", word):
                source.fail(at, f"what can be handed in is deck 0 to deck 3, and schedule, with commas between them, and {word or 'nothing'} isn't one of them")
        return tuple(sorted({int(word[5:]) for word in words if word != "schedule"})), "schedule" in words
    return (0,), False


def orders_of(source: Source, told: List[Tuple[int, str]]) -> Tuple[str, ...]:
    """The names of orders, or statements, of some rules."""
    names = []
    for at, text in told:
        for name in (word.strip() for word in text.split(",")):
            if not taken.is_order(name):
                source.fail(at, f"{name or 'nothing'} isn't an order: the names are the headings of docs/ORDERS.md, and a statement such as SET 12 is taken as it is")
            names.append(name)
    return tuple(names)


def plans_in(source: Source, at: int, text: str, takes_schedule: bool) -> Tuple[Plan, ...]:
    """The schedules that a line names."""
    plans = []
    for word in (word.strip() for word in text.split(",")):
        plan = plan_of(word)
        if plan is None:
            source.fail(at, f"{word or 'nothing'} isn't a schedule: own, at once, after N, rounds N, seed N, every N, speeds NAME, or speed D=A+B")
        if (plan.kind == OWN) < takes_schedule and plan.kind != EVERY:
            source.fail(at, f"the schedule is handed in, so {word} can't be another; own is the only one")
        plans.append(plan)
    return tuple(plans)
