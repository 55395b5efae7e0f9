"""The runs of a hand-in: the job that is made of it and of a case, and what is seen under each schedule."""
from typing import Dict, Iterator, List, NamedTuple, Optional, Sequence, Tuple

from courses import machine
from courses.dues import Due, Seen, applies, missed
from courses.exercise import Case, Exercise
from courses.schedules import EVERY, OWN, ROUNDS, SEED, Plan, text_under
from courses.taken import Taken, Unfit, broken_rule, with_constants
from kdf9 import deck as decks
from kdf9 import told
from kdf9.job import HEADER, join_lines, read_lines, read_slots
from kdf9.schedule import start_of
from outcomes.apart import explored
from outcomes.found import Found, Witness
from outcomes.runs import Job
from outcomes.said import said_of_events
from outcomes.search import LATE, Limits

# How many runs a search over every schedule takes at most.
MOST_RUNS = 400

# The calls of a run that shows why a program goes on for ever, and the rounds in which its transfers end.
SHORT, SHORT_ROUNDS = 600, 20

# What is said of a hand-in that has too much of something. The page says the same (courses/paged.py).
TOO_LARGE, TOO_LONG = "the image has {words} words, and the exercise allows {most}", "the schedule has more than {calls} calls, which this exercise allows"
ORDERS, AT_MOST = "the program obeyed {came} orders", "at most {most}"

# The addresses of words by slot and name; None for one that the deck doesn't have.
Addresses = Dict[Tuple[int, str], Optional[int]]


class First(NamedTuple):
    """What was missed first of a run: what came, what was due, and the slot whose program didn't come to the end that was due, if that is it."""

    came: str
    due: str
    stopped: Optional[int]


class Missed(NamedTuple):
    """What was missed first: the name of the case and the schedule, what came, what was due, and the job that shows it; with the slot if its program didn't come to the
    end that was due.
    """

    case: str
    plan: str
    came: str
    due: str
    job: str
    stopped: Optional[int] = None


class Outcome(NamedTuple):
    """How a hand-in does: how many of how many runs are right, what tells it from others, and what was missed first, if anything was."""

    right: int
    of: int
    print: Tuple[str, ...]
    missed: Optional[Missed] = None


class Fault(Exception):
    """A deck or a schedule of a hand-in has a fault: the answer of the machine, and the job."""

    def __init__(self, answer: str, job: str) -> None:
        super().__init__(answer.strip())
        self.job = job


class Names:
    """The names of the words of some decks."""

    def __init__(self, exercise: Exercise, taken: Taken) -> None:
        """Raises Fault if a deck has a fault."""
        job = composed(exercise, taken, exercise.cases[0], {}, "")
        self._slots, self._layouts = read_slots(read_lines(job)), {}
        for slot in self._slots:
            answer = machine.ask(["asm", str(slot)], job)
            if answer.status:
                raise Fault(answer.text, job)
            self._layouts[slot] = decks.Layout(told.told_in(job, "asm", str(slot)))

    def words(self, slot: int) -> int:
        """How many words the image of a slot's deck has."""
        return len(self._layouts[slot].image) // decks.WORD

    def addresses(self, case: Case, slot: int) -> Addresses:
        """The addresses of the words that are due, by slot and name; None for one that isn't there."""
        found = {}
        for due in case.dues:
            if due.kind == "word":
                of = slot if due.slot is None else due.slot
                address = self._layouts[of].address_of(due.subject) if of in self._layouts else None
                found[of, due.subject] = address if address is not None and address < self._slots[of].store else None
        return found


def composed(exercise: Exercise, taken: Taken, case: Case, names: Addresses, schedule: str) -> str:
    """The job of a hand-in in a case, that shows the words of these names, with the text of a schedule."""
    slots, lines = read_slots(list(exercise.job)), [HEADER]
    for number, slot in slots.items():
        deck = slot.deck
        if number in taken.decks:
            deck = taken.decks[number].text
            if number == own_slot(exercise):
                deck = with_constants(deck, case.given.constants)
        shown = sorted({address for (of, _), address in names.items() if of == number and address is not None})
        lines += [f"SLOT {number}", f"STORE {slot.store}", "DECK", *deck.split("\n")[:-1], "ENDDECK", *(["SERVICE"] if slot.served else [])]
        lines += [*with_media(slot.devices, case.given.media), *(f"SHOW {address} {address}" for address in shown)]
    pool = next(iter(slots.values())).pool
    return f"{join_lines([*lines, *(['POOL', *pool] if pool else []), 'SCHEDULE'])}{schedule}ENDJOB\n"


def own_slot(exercise: Exercise) -> int:
    """The slot that lines mean which name none: the first of those whose decks are handed in, or slot 0."""
    return exercise.rules.slots[0] if exercise.rules.slots else 0


def with_media(devices: List[str], media: Dict[int, List[str]]) -> Iterator[str]:
    """The lines of some devices, of which these have other media."""
    number = None
    for line in devices:
        if line.startswith("DEVICE "):
            number = int(line.split(" ")[1])
            yield line
            yield from media.get(number, [])
        elif number not in media:
            yield line


def outcome(exercise: Exercise, taken: Taken, seeds: int = 0) -> Outcome:
    """How a hand-in does in all cases, under their schedules, or under the schedules of so many seeds instead. Raises Fault, Unfit, and BadInput."""
    names, prints, right, of, first = Names(exercise, taken), [], 0, 0, None
    broken = broken_rule(exercise, taken) or too_large(exercise, names)
    if broken:
        return Outcome(0, exercise.runs, (broken,), Missed("", "", broken, "", ""))
    for case in exercise.cases:
        addresses = names.addresses(case, own_slot(exercise))
        for plan in plans_of(exercise, case, seeds):
            came, miss = of_plan(exercise, taken, case, plan, addresses)
            prints += came
            of, right, first = of + 1, right + (miss is None), first or miss
    return Outcome(right, of, tuple(prints), first)


def plans_of(exercise: Exercise, case: Case, seeds: int) -> Sequence[Plan]:
    """The schedules of a case, or so many seeds in their place. What the clock shows depends on the schedule, so a case that sets it keeps its own."""
    if not seeds or exercise.rules.takes_schedule or any(line.startswith("CLOCK ") for _, line in case.given.events):
        return case.plans
    return [Plan(f"{SEED} {seed}", SEED, seed) for seed in range(1, seeds + 1)]


def too_large(exercise: Exercise, names: Names) -> Optional[str]:
    """That an image has too many words, in words; or None."""
    most = exercise.rules.words
    large = [names.words(slot) for slot in exercise.rules.slots if most is not None and names.words(slot) > most]
    return TOO_LARGE.format(words=large[0], most=most) if large else None


def of_plan(exercise: Exercise, taken: Taken, case: Case, plan: Plan, names: Addresses) -> Tuple[List[str], Optional[Missed]]:
    """What came in a case under a schedule, in place of each that is due, and what was missed first."""
    job = composed(exercise, taken, case, names, schedule_for(exercise, taken, case, plan))
    if plan.kind == EVERY:
        return of_every(exercise, case, plan, names, job)
    answer = machine.ask(["run"], job)
    if answer.status:
        raise Fault(answer.text, job)
    came, first = judged(exercise, case.dues, Seen(job, answer.text, names), plan)
    if first and first.stopped is not None and not plan.is_measured:
        job = shorter(exercise, taken, case, first.stopped) or job
    return came, Missed(case.name, plan.text, *first[:2], job, first.stopped) if first else None


def shorter(exercise: Exercise, taken: Taken, case: Case, slot: int) -> Optional[str]:
    """A job with fewer calls in which the program of a slot is still live, to be explained in place of one with many; or None."""
    if exercise.rules.calls <= SHORT:
        return None
    job = composed(exercise, taken, case, {}, "")
    job = composed(exercise, taken, case, {}, text_under(Plan("", ROUNDS, SHORT_ROUNDS), job, SHORT, tuple(sorted(case.given.events))))
    answer = machine.ask(["run"], job)
    return job if not answer.status and machine.section(answer.text, slot).state == ["LIVE"] else None


def schedule_for(exercise: Exercise, taken: Taken, case: Case, plan: Plan) -> str:
    """The text of the schedule of a run."""
    rules = exercise.rules
    if taken.schedule is not None:
        calls = [line[7:] for line in taken.schedule if line.startswith("ORDERS ")]
        if sum(int(each) for each in calls if each.isdigit() and len(each) < 9) > rules.calls:
            raise Unfit(TOO_LONG.format(calls=rules.calls))
        return join_lines(taken.schedule)
    given = tuple(sorted(case.given.events))
    if plan.kind == OWN:
        return join_lines(exercise.job[start_of(exercise.job) + 1:-1])
    calls = f"ORDERS {rules.calls}\n"
    plain = composed(exercise, taken, case, {}, calls)
    if plan.kind == EVERY:
        return join_lines([line for _, line in given]) + calls
    return text_under(plan, plain, rules.calls, given)


def judged(exercise: Exercise, dues: Sequence[Due], seen: Seen, plan: Plan) -> Tuple[List[str], Optional[First]]:
    """What came in place of each that is due, and what was missed first."""
    came: List[str] = []
    first: Optional[First] = None
    slot = own_slot(exercise)
    for due in dues:
        if not applies(due, plan.is_measured, plan.kind == EVERY):
            continue
        miss = missed(due, seen, slot)
        came.append("" if miss is None else due.subject if due.kind == "measure" else miss[0])
        if miss and not first:
            first = First(*miss, (slot if due.slot is None else due.slot) if due.kind == "state" else None)
    most = exercise.rules.orders
    if most is not None and plan.kind != EVERY:
        orders = max((seen.section(each).orders for each in exercise.rules.slots), default=0)
        came.append("orders" if orders > most else "")
        first = first or (First(ORDERS.format(came=orders), AT_MOST.format(most=most), None) if orders > most else None)
    return came, first


def of_every(exercise: Exercise, case: Case, plan: Plan, names: Addresses, job: str) -> Tuple[List[str], Optional[Missed]]:
    """What came over every schedule of so many calls."""
    answer = machine.ask(["asm", "0"], job)
    if answer.status:
        raise Fault(answer.text, job)
    searched = Job("the job", read_lines(job))
    found, _ = explored(searched, Limits(plan.number, MOST_RUNS), LATE)
    came: List[str] = []
    first: Optional[Missed] = None
    for dues, witness, words in looked_at(exercise, case, plan, searched, found):
        text = searched.text(witness.events, witness.calls)
        seen = Seen(text, machine.ask(["run"], text).text, names, {slot: len(mine) for slot, mine in found.results.items()}, len(found.deadlocks))
        told, miss = judged(exercise, dues, seen, plan)
        came += told
        if miss and first is None:
            miss = miss._replace(came=words) if words else miss
            first = Missed(case.name, f"some schedule{said_of_events(witness)}", *miss[:2], text, miss.stopped)
    return came, first


def looked_at(exercise: Exercise, case: Case, plan: Plan, job: Job, found: Found) -> Iterator[Tuple[List[Due], Witness, str]]:
    """What is looked at of all runs: what is due of a program in each of its results and where it waits for good, what is due of all results, each with a run that
    shows it, and what is said if it is missed where that isn't the usual.
    """
    of_slots = {slot: [due for due in case.dues if slot_of(due, exercise, job) == slot] for slot in job.slots}
    for slot, dues in of_slots.items():
        states = [due for due in dues if due.kind == "state"]
        results = sorted(found.results[slot].items(), key=lambda one: (one[0].answers, one[0].state))
        for _, witness in results:
            yield dues, witness, ""
        for circle, witness in sorted(found.deadlocks.items(), key=lambda one: one[1]):
            if slot in (each for each, _, _ in circle) and not any(due.kind == "deadlock" for due in case.dues):
                yield states, witness, ""
        if not results and not found.deadlocks and dues:
            yield states or dues, Witness(plan.number, ()), f"in {plan.number} calls no run was found in which slot {slot} comes to its end"
    whole = [due for due in case.dues if due.kind in ("results", "deadlock")]
    if whole:
        yield whole, min([Witness(1, ()), *found.deadlocks.values()], key=lambda one: -one.calls), ""


def slot_of(due: Due, exercise: Exercise, job: Job) -> Optional[int]:
    """The slot of whose program something is due; None for what is due of all runs."""
    if due.kind in ("results", "deadlock", "measure"):
        return None
    if due.kind == "device":
        slots = read_slots(job.lines)
        return next((number for number, slot in slots.items() if int(due.subject) in slot.kinds()), None)
    return own_slot(exercise) if due.slot is None else due.slot
