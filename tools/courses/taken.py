"""What is taken from the text of a hand-in: its decks and perhaps its schedule. All else in it, such as stores and devices, is that of the exercise."""
import functools
import re
from typing import Dict, Iterator, List, NamedTuple, Optional, Tuple

from courses.exercise import Exercise
from kdf9.deck import without_comments
from kdf9.job import HEADER
from kdf9.statements import statements
from kdf9.tables import table

# The bytes that some editors write first.
BYTE_ORDER_MARK = "\xef\xbb\xbf"

# A number of a statement as a pattern, and what may stand between the characters of a statement once comments are spaces.
NUMBER, GAP = r"[+-]?[0-9]+", r"[ \n]*"


class Unfit(Exception):
    """Nothing can be taken from a text; this says why."""


class Deck(NamedTuple):
    """A deck, and the line of the hand-in, from 1, where it begins."""

    text: str
    line: int


class Taken(NamedTuple):
    """The decks that are taken, by slot, and the lines of the schedule with the number of the line before them."""

    decks: Dict[int, Deck]
    schedule: Optional[List[str]] = None
    schedule_line: int = 0


def take(text: str, exercise: Exercise) -> Taken:
    """What an exercise takes from a text; Unfit if that isn't there. Line ends of Windows are those of a job."""
    lines = text.replace("\r\n", "\n").replace("\r", "\n").split("\n")
    lines[0] = lines[0][len(BYTE_ORDER_MARK):] if lines[0].startswith(BYTE_ORDER_MARK) else lines[0]
    rules = exercise.rules
    if "\0" in text:
        raise Unfit("this isn't a plain text: save it as one, in UTF-8")
    if not any(line.rstrip() == HEADER for line in lines):
        return Taken({rules.slots[0]: deck_alone(lines)}) if len(rules.slots) == 1 and not rules.takes_schedule else needs_job(rules.slots)
    decks = dict(decks_of(lines))
    found = {slot: decks[slot] for slot in rules.slots if slot in decks}
    if not found and len(rules.slots) == len(decks) == 1:
        found = {rules.slots[0]: next(iter(decks.values()))}
    missing = [slot for slot in rules.slots if slot not in found]
    if missing:
        raise Unfit(said_of_no_deck(missing[0]))
    return Taken(found, *schedule_of(lines)) if rules.takes_schedule else Taken(found)


def said_of_no_deck(slot: int) -> str:
    """What is said of a job that has no deck in a slot."""
    return f"this job has no deck in slot {slot}"


def needs_job(slots: Tuple[int, ...]) -> Taken:
    """Refuses what isn't a job."""
    raise Unfit(f"this isn't a job: its first line has to be {HEADER}" + ("" if slots else "; the exercise takes its schedule"))


def deck_alone(lines: List[str]) -> Deck:
    """The deck that a text is without a job around it."""
    end = next((at for at, line in enumerate(lines) if line.rstrip() == "ENDDECK"), len(lines))
    if not any("PROGRAM" in line for line in lines[:end]):
        raise Unfit(f"this is neither a deck, which has a statement PROGRAM, nor a job, whose first line is {HEADER}")
    return Deck("".join(f"{line}\n" for line in lines[:end]).rstrip("\n") + "\n", 1)


def decks_of(lines: List[str]) -> Iterator[Tuple[int, Deck]]:
    """The decks of a job by their slots. Whatever else is wrong with the job doesn't matter."""
    slot, at = None, 0
    while at < len(lines):
        line = lines[at].rstrip()
        if re.fullmatch(r"SLOT [0-3]", line):
            slot = int(line[5:])
        elif line == "DECK" and slot is not None:
            end = next((after for after in range(at, len(lines)) if lines[after].rstrip() == "ENDDECK"), len(lines))
            yield slot, Deck("".join(f"{each}\n" for each in lines[at + 1:end]), at + 2)
            slot, at = None, end
        at += 1


def schedule_of(lines: List[str]) -> Tuple[List[str], int]:
    """The lines of the schedule of a job, and the number of the line before them."""
    starts = [at for at, line in enumerate(lines) if line.rstrip() == "SCHEDULE"]
    if not starts:
        raise Unfit("this job has no line SCHEDULE, and the exercise takes its schedule")
    end = next((at for at in range(starts[-1], len(lines)) if lines[at].rstrip() == "ENDJOB"), len(lines))
    return [line.rstrip() for line in lines[starts[-1] + 1:end] if line.strip()], starts[-1] + 1


@functools.lru_cache(maxsize=None)
def forms_of_names() -> Dict[str, List[str]]:
    """The forms of the statements that each order has, by its name, with 0 for each number."""
    return {order["name"]: list(order["forms"]) for order in table("orders")["orders"]}


@functools.lru_cache(maxsize=None)
def pattern_of(name: str) -> str:
    """The pattern of the statements, without spaces, that a rule means by a name: those of the order of this name, and the statement itself."""
    forms = [re.escape(form).replace("0", NUMBER) for form in forms_of_names().get(name, [])]
    return "|".join([*forms, re.escape(name.replace(" ", ""))])


def is_order(name: str) -> bool:
    """Whether a rule can name an order so: by its name, or as a statement."""
    statement = name.replace(" ", "")
    return name in forms_of_names() or any(re.fullmatch(pattern_of(each), statement) for each in forms_of_names())


def said_of_wanted(name: str) -> str:
    """What is said of an order that isn't used."""
    return f"the exercise wants {name}, which isn't used"


def said_of_avoided(name: str) -> str:
    """What is said of an order that is used."""
    return f"{name} is used, which this exercise doesn't allow"


def broken_rule(exercise: Exercise, taken: Taken) -> Optional[str]:
    """Which rule on orders a hand-in breaks, in words; or None."""
    used = {statement.text for deck in taken.decks.values() for statement in statements(deck.text)}

    def is_used(name: str) -> bool:
        return any(re.fullmatch(pattern_of(name), statement) for statement in used)

    wanted = next((name for name in exercise.rules.uses if not is_used(name)), None)
    avoided = next((name for name in exercise.rules.avoids if is_used(name)), None)
    return said_of_wanted(wanted) if wanted is not None else said_of_avoided(avoided) if avoided is not None else None


class Place(NamedTuple):
    """Where the main part has a constant, or would have it, as two patterns of a deck whose comments are spaces. In each the first group is what stands before
    that. In `there` the second group is the constant, and in `opening` the number of the last V-store. The page reads the same patterns.
    """

    there: str
    opening: str


def place_of(name: str) -> Place:
    """The place of a constant, such as V0."""
    program = GAP.join("PROGRAM")
    before = f"(?:[^;]*;)*?[* \\n]*{program}"
    return Place(
        f"^({before}[^;]*;(?:(?![* \\n]*P{GAP}[0-9R])[^;]*;)*?[* \\n]*)({GAP.join(f'{name}=')}[^;]*)",
        f"^({before}{GAP}V{GAP}([0-9]{{1,5}}){GAP};)",
    )


def said_of_missing(name: str) -> str:
    """What is said of a deck that has no place for a constant."""
    return f"the main part has no {name}, which the exercise sets"


def with_constants(deck: str, constants: Dict[str, str]) -> str:
    """A deck whose main part has these constants. No line moves. Unfit if it doesn't declare one of them."""
    for name, value in constants.items():
        deck = with_constant(deck, name, value)
    return deck


def with_constant(deck: str, name: str, value: str) -> str:
    """A deck whose main part has this constant."""
    bare, place = without_comments(deck), place_of(name)
    there = re.match(place.there, bare)
    if there:
        start, end = there.span(2)
        return deck[:start] + f"{name}={value}" + "\n" * deck.count("\n", start, end) + deck[end:]
    opening = re.match(place.opening, bare)
    if not opening or int(opening[2]) < int(name[1:]):
        raise Unfit(said_of_missing(name))
    return f"{deck[:opening.end(1)]} {name}={value};{deck[opening.end(1):]}"
