"""What is said of a hand-in that isn't right: where a program stopped and why, as `./kdf9 explain` says it, in a line."""
import re
from typing import Dict, List

from courses.runs import Missed
from courses.taken import Taken
from kdf9 import fault as faults
from kdf9 import lives, told
from kdf9.deck import Layout, place_at
from kdf9.job import read_lines, read_slots
from kdf9.program import BadInput
from kdf9.runs import Run
from kdf9.schedule import start_of
from kdf9.words import whole

# Where documents have more, sentences that say what is known, and a place of the job; and how many sentences are told.
REFERENCE = re.compile(r" \(docs/[A-Z]+\.md[^)]*\)")
LEFT_OUT = re.compile(r"(?:slot \d (?:failed at|was live) |priorities at )")
PLACE = re.compile(r"\bat (?:-:)?(\d+):\d+")
MOST_SENTENCES = 2


def said_of_fault(job: str, taken: Taken) -> str:
    """What is wrong with a deck or a schedule that the machine refused: where, the name of the fault, what the documents say, and a hint."""
    fault = faults.fault_of(job, "run")
    hint = faults.told_hint(fault)
    head = f"{place(job, taken, fault.line)}, column {fault.column}: {fault.name}: {faults.brief(fault.subject)}"
    return joined([head, *(with_places(text, job, taken) for text in [fault.sentence, *([f"hint: {hint}"] if hint else [])])])


def said_of_stop(missed: Missed, taken: Taken) -> str:
    """Why the program of a slot didn't come to its end: the statement, and the rule or what it waits for."""
    lines = read_lines(missed.job)
    run = Run(lines)
    program, layout = run.facts.program(missed.stopped), Layout(told.told_in(missed.job, "asm", str(missed.stopped)))
    said = [text for text in lives.sentences("-", run, program, layout, range(1, len(lines) + 1)) if not LEFT_OUT.match(text)]
    row = layout.row_at(place_at(program.at))
    head = [f"{place(missed.job, taken, row.statement.line)}: {faults.brief(row.statement.written)}"] if row and row.statement else []
    return joined([*head, *(with_places(text, missed.job, taken) for text in said[:MOST_SENTENCES])])


def joined(sentences: List[str]) -> str:
    """Some sentences as one line."""
    return "; ".join(sentence.rstrip(".") for sentence in sentences)


def with_places(text: str, job: str, taken: Taken) -> str:
    """A sentence with the lines of the hand-in."""
    return PLACE.sub(lambda found: f"in {place(job, taken, whole(found[1]))}", REFERENCE.sub("", text))


def place(job: str, taken: Taken, line: int) -> str:
    """A line of a job by its number in the hand-in from which it comes."""
    lines = read_lines(job)
    starts: Dict[int, int] = {slot.deck_line: number for number, slot in read_slots(lines).items()} if has_slots(lines) else {}
    for start, number in sorted(starts.items(), reverse=True):
        if line >= start and number in taken.decks:
            return f"line {line - start + taken.decks[number].line}"
    schedule = start_of(lines) + 1
    return f"line {line - schedule + taken.schedule_line}" if taken.schedule is not None and line > schedule else f"line {line} of the exercise's job"


def has_slots(lines: List[str]) -> bool:
    """Whether the slots of a job can be read, which is so of each that is made here."""
    return lines.count("ENDDECK") > 0


def first_failing(missed: Missed) -> str:
    """What came and what was due in the first run that isn't right."""
    where = ", ".join(word for word in (missed.case, missed.plan) if word)
    said = f"{missed.came}; due: {missed.due}" if missed.due else missed.came
    return f"on {where}: {said}" if where else said


def cause(missed: Missed, taken: Taken) -> str:
    """Why a program didn't come to its end, if that is what was missed; nothing otherwise."""
    if missed.stopped is None or not missed.job:
        return ""
    try:
        return said_of_stop(missed, taken)
    except (BadInput, ValueError, IndexError):
        return ""
