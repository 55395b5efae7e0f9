"""What a page has of an exercise: a table of the runs to make, of what is due of each run, of the rules, and of what the wrong solutions come to. So a script has
only to put decks into their places, to ask the machine, and to compare texts: whatever is to be judged is worked out here.
"""
from typing import Callable, Dict, Iterator, List, NamedTuple, Sequence

from courses import dues, machine, runs, taken
from courses.dues import Due, Seen, applies
from courses.exercise import Case, Exercise, Given
from courses.runs import Fault, Names, composed, own_slot
from courses.schedules import AFTER, OWN, ROUNDS, SEED, Plan, text_by_number
from courses.taken import Deck, Taken, Unfit
from kdf9 import told
from kdf9.job import join_lines, read_slots
from kdf9.schedule import Event, Schedule, lines_of_schedule, start_of

# The kinds of schedules that a page can make. The others are for `./kdf9 mark` alone.
MADE_IN_PAGE = (OWN, AFTER, ROUNDS, SEED)

# What is due that is a number, and what is due under every schedule at once.
COUNTED, OF_ALL = ("measure",), ("results", "deadlock")

NO_DECKS = Given({}, {}, ())

Table = Dict[str, object]


class Planned(NamedTuple):
    """A run that the page makes: its case, its schedule, and what is due of it, each by its number among what is due in the case."""

    case: Case
    plan: Plan
    dues: List[int]


def planned(exercise: Exercise) -> Iterator[Planned]:
    """The runs that the page makes."""
    for case in exercise.cases:
        for plan in case.plans:
            wanted = [at for at, due in enumerate(case.dues) if applies(due, plan.is_measured, False)]
            if plan.kind in MADE_IN_PAGE and all(is_read(case.dues[at]) for at in wanted):
                yield Planned(case, plan, wanted)


def is_read(due: Due) -> bool:
    """Whether the page can read what came in place of something that is due."""
    return due.kind != "measure" or bool(paths_of(due.subject))


# Where the facts of a run have its measures: each is the sum of the values at some paths. A step of a path is a member, or says which of a list it is.
OF_RUN = {"calls": [["made"]], "idle": [["idle"]], "overlapped": [["meanwhile"]]}
HELD = [["held", by] for by in ("group", "device", "pool")]
OF_SLOT = {"running": [["running"]], "ready": [["ready"]], "held": HELD, "turnaround": [["running"], ["ready"], *HELD]}
OF_DEVICE = ("transfers", "busy")


def paths_of(measure: str) -> List[list]:
    """The paths at which the facts of a run have a measure; none if they don't have it so."""
    if measure in OF_RUN:
        return OF_RUN[measure]
    of, _, rest = measure.partition(" ")
    number, _, name = rest.partition(" ")
    if of == "slot" and name == "orders":
        return [["programs", {"slot": int(number)}, "orders"]]
    if of == "slot":
        return [["calls", {"slot": int(number)}, "calls", *path] for path in OF_SLOT.get(name, [])]
    return [["devices", {"device": int(number)}, name]] if of == "device" and name in OF_DEVICE else []


def table_of(exercise: Exercise) -> Table:
    """The table of an exercise, without its solution."""
    mine = list(planned(exercise))
    return {
        "number": exercise.number, "name": exercise.name, "title": exercise.title, "marks": exercise.rules.marks, "job": join_lines(list(exercise.job)),
        "slots": list(exercise.rules.slots), "takes_schedule": exercise.rules.takes_schedule, "rules": rules_of(exercise), "hints": list(exercise.hints),
        "cases": [case_of(exercise, case, [each for each in mine if each.case is case]) for case in exercise.cases],
        "alone": exercise.runs - len(mine), "wrong": [{"remark": wrong.remark, **came_of(exercise, wrong.text, mine)} for wrong in exercise.wrong],
    }


def rules_of(exercise: Exercise) -> Table:
    """The rules that a hand-in can break, each with what is said then."""
    rules = exercise.rules
    return {
        "no_deck": {str(slot): taken.said_of_no_deck(slot) for slot in rules.slots}, "calls": {"most": rules.calls, "said": runs.TOO_LONG.format(calls=rules.calls)},
        "uses": [{"pattern": taken.pattern_of(name), "said": taken.said_of_wanted(name)} for name in rules.uses],
        "avoids": [{"pattern": taken.pattern_of(name), "said": taken.said_of_avoided(name)} for name in rules.avoids],
        "words": rules.words and {"most": rules.words, "said": runs.TOO_LARGE.replace("{most}", str(rules.words))},
        "orders": rules.orders and {"most": rules.orders, "said": runs.ORDERS, "due": runs.AT_MOST.format(most=rules.orders)},
    }


def case_of(exercise: Exercise, case: Case, mine: Sequence[Planned]) -> Table:
    """A case: its job with marks for what is put into it, the constants that it sets, what is due, and its runs."""
    constants = [{"name": name, "value": value, **taken.place_of(name)._asdict(), "said": taken.said_of_missing(name)} for name, value in case.given.constants.items()]
    return {
        "name": case.name, "is_shown": case.is_shown, "job": marked(exercise, case), "own": own_slot(exercise), "constants": constants,
        "dues": [due_of(exercise, due) for due in case.dues], "runs": [{"plan": each.plan.text, "dues": each.dues, **schedule_of(exercise, each)} for each in mine],
    }


def marked(exercise: Exercise, case: Case) -> str:
    """The job of a case, with {deck 0} in the place of a deck, {0 V2} in that of the address of a word, and {schedule} in that of the schedule."""
    decks = {slot: Deck(f"{{deck {slot}}}\n", 1) for slot in exercise.rules.slots}
    names = {(slot_of(exercise, due), due.subject): f"{{{slot_of(exercise, due)} {due.subject}}}" for due in case.dues if due.kind == "word"}
    bare = case._replace(given=NO_DECKS._replace(media=case.given.media))
    return composed(exercise, Taken(decks), bare, names, "{schedule}\n")  # type: ignore[arg-type]


def slot_of(exercise: Exercise, due: Due) -> int:
    """The slot of which something is due."""
    return own_slot(exercise) if due.slot is None else due.slot


def schedule_of(exercise: Exercise, run: Planned) -> Table:
    """The lines of the schedule of a run, none if it is handed in; and after how many calls a transfer ends, if that is to be written into them."""
    rules, kind = exercise.rules, run.plan.kind
    if rules.takes_schedule:
        return {"schedule": None, "after": None}
    if kind == OWN:
        return {"schedule": join_lines(list(exercise.job[start_of(list(exercise.job)) + 1:-1])), "after": None}
    events = tuple(sorted(run.case.given.events))
    if kind == AFTER:
        lines = lines_of_schedule(Schedule(rules.calls, [Event(at, line) for at, line in events if at < rules.calls]))
        return {"schedule": join_lines(lines), "after": run.plan.number}
    slots = read_slots(list(exercise.job))
    devices = sorted({number for slot in slots.values() for number in {**slot.kinds(), **slot.pool_kinds()}})
    return {"schedule": text_by_number(run.plan, tuple(devices), tuple(sorted(slots)), rules.calls, events), "after": None}


def due_of(exercise: Exercise, due: Due) -> Table:
    """What is due: its kind, of what it is, the texts that the machine would write, and what is said of what came and of what was due."""
    common = {"kind": due.kind, "slot": slot_of(exercise, due), "subject": due.subject}
    return {**common, **(TOLD[due.kind](due) if due.kind in TOLD else {})}


def octal(word: int) -> str:
    """A word as the machine writes it."""
    return f"{word:016o}"


def told_of_word(due: Due) -> Table:
    """A word."""
    written = dues.written_of(due)
    lacks = [dues.said_of(due, dues.LACKS), f"{due.subject} = {written}"]
    return {"texts": [octal(int(due.value))], "like": [written[0]], "said": kept(due), "due": written, "lacks": lacks}  # type: ignore[call-overload]


def kept(due: Due) -> str:
    """What is said of what came, with {came} in its place."""
    return dues.said_of(due, dues.CAME[due.kind], came="{came}")


def told_of_q(due: Due) -> Table:
    """A Q-store."""
    return {"texts": ["/".join(map(str, due.value))], "said": kept(due), "due": dues.written_of(due)}  # type: ignore[call-overload]


def told_of_nest(due: Due) -> Table:
    """The nest."""
    written, words = dues.written_of(due), list(due.value)  # type: ignore[call-overload]
    return {"texts": [octal(word) for word in words], "like": [each[0] for each in written.split()], "said": kept(due), "due": written or dues.EMPTY_NEST}


def told_of_state(due: Due) -> Table:
    """How a program comes to its end."""
    states = [*dues.SAID_OF_STATE, *(f"FAILED {kind}" for kind in dues.FAILURES)]
    said = {state: dues.of_slot(due) + dues.said_of_state(state) for state in states}
    return {"texts": [dues.wanted_state(due)], "states": said, "due": dues.said_of_wanted_state(dues.wanted_state(due))}


def told_of_overflow(due: Due) -> Table:
    """V."""
    return {"texts": [str(due.value)], "said": kept(due), "due": dues.written_of(due)}


def told_of_blocks(due: Due) -> Table:
    """The blocks of a device, of the pool, or of a stream."""
    wanted, name = dues.blocks_of(due), dues.name_of_blocks(due)
    said = {key: sentence.replace("{name}", name) for key, sentence in dues.OF_BLOCKS.items()}
    missing = [dues.missing_block(due, at) for at in range(len(wanted))]
    return {"texts": wanted, "blocks": said, "missing": missing, "other": [dues.brief(each) for each in wanted], "more": dues.no_more_blocks(due)}


def told_of_measure(due: Due) -> Table:
    """A measure."""
    return {"paths": paths_of(due.subject), "compare": due.compare, "value": due.value, "said": kept(due), "due": dues.written_of_measure(due)}


TOLD: Dict[str, Callable[[Due], Table]] = {
    "word": told_of_word, "q": told_of_q, "nest": told_of_nest, "state": told_of_state, "overflow": told_of_overflow, "measure": told_of_measure,
    **{kind: told_of_blocks for kind in dues.BLOCKS},
}


def came_of(exercise: Exercise, text: str, mine: Sequence[Planned]) -> Table:
    """What a wrong solution comes to: why it isn't run, or what came in the place of each that is due in each run; null where that is right."""
    try:
        own = taken.take(text, exercise)
        names = Names(exercise, own)
        broken = taken.broken_rule(exercise, own) or runs.too_large(exercise, names)
        return {"why": broken} if broken else {"came": [came_in(exercise, own, run, names) for run in mine]}
    except Unfit as why:
        return {"why": str(why)}
    except Fault as why:
        fault = told.told_in(why.job, "asm", "0")
        return {"fault": [fault.name, fault.text]}


def came_in(exercise: Exercise, own: Taken, run: Planned, names: Names) -> list:
    """What came in a run in the place of each that is due, and last of the limit on orders, if there is one."""
    addresses, slot = names.addresses(run.case, own_slot(exercise)), own_slot(exercise)
    job = composed(exercise, own, run.case, addresses, runs.schedule_for(exercise, own, run.case, run.plan))
    answer = machine.ask(["run"], job)
    if answer.status:
        raise Fault(answer.text, job)
    seen, came = Seen(job, answer.text, addresses), []
    for due in (run.case.dues[at] for at in run.dues):
        is_right = dues.missed(due, seen, slot) is None
        came.append(None if is_right else True if due.kind in COUNTED else texts_of(due, seen, slot_of(exercise, due)))
    most = exercise.rules.orders
    if most is not None:
        came.append(None if max((seen.section(each).orders for each in exercise.rules.slots), default=0) <= most else True)
    return came


def texts_of(due: Due, seen: Seen, slot: int) -> List[str]:
    """What came, in the texts that the machine writes; none of a word that the deck doesn't have."""
    section = seen.section(slot)
    if due.kind == "word":
        address = seen.names[slot, due.subject]
        return [] if address is None else [octal(section.words[address])]
    if due.kind == "q":
        return ["/".join(map(str, section.q_stores.get(int(due.subject[1:]), (0, 0, 0))))]
    if due.kind in dues.BLOCKS:
        return [block.rstrip() for block in blocks_in(due, seen, slot)]
    return {"nest": [octal(word) for word in section.nest], "state": [" ".join(section.state)], "overflow": [str(section.flags[0])]}[due.kind]


def blocks_in(due: Due, seen: Seen, slot: int) -> List[str]:
    """The blocks that came."""
    section = seen.section(slot)
    if due.kind == "device":
        return next((device.blocks for each in machine.sections(seen.report) for device in each.devices if device.number == int(due.subject)), [])
    if due.kind == "pool":
        return [block for stint in section.stints if stint.kind == due.subject for block in stint.blocks]
    return [spool.partition(" ")[2] for spool in section.spools if spool.partition(" ")[0] == due.subject]


def as_job(exercise: Exercise, text: str) -> str:
    """The starting job with the decks and the schedule of a solution in it; the text itself if nothing can be taken from it."""
    try:
        own = taken.take(text, exercise)
    except Unfit:
        return text
    lines, slot, is_deck = [], None, False
    for line in exercise.job:
        if not is_deck and line.startswith("SLOT "):
            slot = int(line[5:])
        is_deck = is_deck and line != "ENDDECK"
        if not (is_deck and slot in own.decks):
            lines.append(line)
        if line == "DECK" and not is_deck:
            is_deck = True
            lines += own.decks[slot].text.split("\n")[:-1] if slot in own.decks else []
        if line == "SCHEDULE" and not is_deck and own.schedule is not None:
            return join_lines([*lines, *own.schedule, "ENDJOB"])
    return join_lines(lines)
