"""The schedules under which hand-ins are run: by the speed of devices, by a seed, in rounds, that of the job, or every one there is."""
import functools
import re
from typing import List, NamedTuple, Optional, Sequence, Tuple

from kdf9 import tables
from kdf9.delays import MOST_CALLS, Delays, Speed, speeds_of_kinds
from kdf9.job import join_lines, kinds_of_devices, read_lines, read_slots
from kdf9.schedule import Event, Schedule, lines_of_schedule, merged, rounds
from plans.settle import Search, loaded

# The kinds of schedules.
OWN, AFTER, SPEED, SPEEDS, ROUNDS, SEED, EVERY = "own", "after", "speed", "speeds", "rounds", "seed", "every"

# Under these kinds, how long something took means something.
MEASURED = (OWN, AFTER, SPEED, SPEEDS)

FORM = re.compile(
    r"(?P<own>own)|(?P<once>at once)|after (?P<after>\d+)|rounds (?P<rounds>[1-9]\d*)|seed (?P<seed>\d+)|every (?P<every>[1-9]\d*)"
    r"|speeds (?P<speeds>\w+)|speed (?P<speed>\d+=\d+\+\d+(?: \d+=\d+\+\d+)*)"
)

# The gaps that a seed chooses from, and how often it moves words or exchanges priorities, instead of ending a transfer.
LONGEST_GAP, MOVES_IN, SWAPS_IN, MOST_MOVED = 48, 6, 12, 9

# After half of its calls a seed lets all transfers end in rounds of so many calls, so that no program waits for ever.
LAST_ROUNDS = 20


class Plan(NamedTuple):
    """A schedule: how it is written, its kind, and its number or its text."""

    text: str
    kind: str
    number: int = 0

    @property
    def is_measured(self) -> bool:
        """Whether it means something how many calls a run under this schedule takes."""
        return self.kind in MEASURED


def plan_of(text: str) -> Optional[Plan]:
    """The schedule that is written so, or None."""
    found = FORM.fullmatch(text)
    if not found:
        return None
    (kind, value), = [(kind, value) for kind, value in found.groupdict().items() if value is not None]
    if kind == "once":
        return Plan(text, AFTER, 0)
    if kind in (OWN, SPEED):
        return Plan(text, kind)
    if kind == SPEEDS:
        return Plan(text, kind) if value in tables.table("speeds") else None
    return Plan(text, kind, int(value)) if len(value) <= 8 and int(value) <= MOST_CALLS else None


def text_under(plan: Plan, job: str, calls: int, events: Tuple[Tuple[int, str], ...]) -> str:
    """The lines, as one text, of the schedule that a plan gives a job, whose own schedule has these calls and events; of a plan other than own and every."""
    slots = read_slots(read_lines(job))
    kinds = kinds_of_devices(slots)
    if plan.kind in (ROUNDS, SEED):
        return text_by_number(plan, tuple(sorted(kinds)), tuple(sorted(slots)), calls, events)
    schedule = Schedule(calls, [Event(at, line) for at, line in events if at < calls])
    return join_lines(lines_of_schedule(Search("the job", loaded(slots), schedule, delays(plan, kinds)).found()))


@functools.lru_cache(maxsize=256)
def text_by_number(plan: Plan, devices: Tuple[int, ...], slots: Tuple[int, ...], calls: int, events: Tuple[Tuple[int, str], ...]) -> str:
    """The text of a schedule in rounds or by a seed, which depend on no program."""
    schedule = Schedule(calls, [Event(at, line) for at, line in events if at < calls])
    made = rounds(plan.number, devices, 0, calls) if plan.kind == ROUNDS else by_seed(plan.number, devices, slots, calls)
    return join_lines(lines_of_schedule(merged(schedule, made)))


def delays(plan: Plan, kinds: dict) -> Delays:
    """How long transfers take under a plan."""
    if plan.kind == AFTER:
        return Delays(plan.number, None, {}, {})
    if plan.kind == SPEEDS:
        return Delays(0, None, {}, speeds_of_kinds(plan.text.split(" ")[1], kinds))
    speeds = [re.fullmatch(r"(\d+)=(\d+)\+(\d+)", word) for word in plan.text.split(" ")[1:]]
    return Delays(tables.table("job")["usual_delay"], None, {}, {int(each[1]): Speed(int(each[2]), int(each[3])) for each in speeds if each})


class Chance:
    """Numbers that depend on a seed and on nothing else."""

    def __init__(self, seed: int) -> None:
        self._state = (seed * 2654435761 + 0x9E3779B97F4A7C15) % 2**64

    def below(self, end: int) -> int:
        """The next number, from 0 up to below `end`."""
        self._state = (self._state + 0x9E3779B97F4A7C15) % 2**64
        mixed = self._state
        for shift, factor in ((30, 0xBF58476D1CE4E5B9), (27, 0x94D049BB133111EB)):
            mixed = ((mixed ^ mixed >> shift) * factor) % 2**64
        return (mixed ^ mixed >> 31) % end

    def of(self, things: Sequence):
        """One of some things."""
        return things[self.below(len(things))]


def by_seed(seed: int, devices: Sequence[int], slots: Sequence[int], calls: int) -> List[Event]:
    """Ends of transfers, words that move and exchanges of priorities, as a seed has them. After half of the calls the priorities are as they were at first."""
    chance, events, at, order = Chance(seed), [], 0, list(slots)
    while at < calls // 2:
        at += 1 + chance.below(1 + chance.of((2, 8, LONGEST_GAP)))
        if len(slots) > 1 and not chance.below(SWAPS_IN):
            first = chance.of(slots)
            events += exchange(at, order, first, chance.of([slot for slot in slots if slot != first]))
        elif devices:
            device, is_move = chance.of(devices), not chance.below(MOVES_IN)
            events.append(Event(at, f"MOVE {device} {1 + chance.below(MOST_MOVED)}" if is_move else f"END {device}"))
    for rank, slot in enumerate(slots):
        events += exchange(at, order, order[rank], slot)
    return [event for event in events if event.calls < calls] + rounds(LAST_ROUNDS, devices, at, calls)


def exchange(at: int, order: List[int], first: int, second: int) -> List[Event]:
    """The exchange of the priorities of two slots, which are a list with the highest first; nothing if they are one slot."""
    if first == second:
        return []
    one, other = order.index(first), order.index(second)
    order[one], order[other] = second, first
    return [Event(at, f"SWAP {first} {second}")]
