"""The job of a run of a plan: some of the slots, in some order of priorities, with a number of devices in the pool, and transfers of some length."""
import functools
from typing import Dict, List, NamedTuple, Optional, Tuple

from kdf9.delays import Delays, Speed, speeds_of_kinds
from kdf9.job import HEADER, Slot, join_lines, kinds_of, parts_of, read_pool, read_slots
from kdf9.journal import SLOTS
from kdf9.program import BadInput
from kdf9.schedule import MOST_LINES, Event, Schedule, lines_of_schedule, merged, read_schedule
from kdf9.tables import table
from plans import workload
from plans.plan import Run, Source, Value
from plans.recall import Memories
from plans.settle import TOO_LONG, Loaded, Search, Settled, run_of

# How many jobs are kept taken apart.
KEPT = 64


class Parts(NamedTuple):
    """A job taken apart: its slots, the lines of each, those of its pool's devices, and its schedule."""

    slots: Dict[int, Slot]
    lines: Dict[int, List[str]]
    pool: Tuple[str, ...]
    schedule: Schedule


class Variants:
    """The runs of a plan. What the programs did in the runs before is remembered, so that the schedules of later ones are found sooner."""

    def __init__(self, source: Source) -> None:
        self._source, self._memories = source, Memories()
        self._parts = functools.lru_cache(KEPT)(self._taken_apart)

    def settled(self, run: Run) -> Settled:
        """The job of a run, with what the machine tells of it."""
        values = {**self._source.fixed, **run.values}
        parts = self._parts(tuple((name, value) for name, value in values.items() if self._source.makes(name)))
        kept = [slot for slot in parts.slots if str(slot) in str(values.get("programs", "0123"))]
        pool = pool_of(list(parts.pool), {number for slot in parts.slots.values() for number in slot.kinds()}, values)
        own = own_schedule(parts.schedule, values)
        head = join_lines([HEADER, *(line for slot in kept for line in parts.lines[slot]), *(["POOL", *pool] if pool else []), "SCHEDULE"])
        kinds = {**{number: kind for slot in kept for number, kind in parts.slots[slot].kinds().items()}, **kinds_of(pool)}
        delays = delays_of(values, kinds, bool(self._source.workload))
        if delays is None:
            return run_of(with_schedule(head, own))
        memories = {slot: self._memories.of(join_lines(parts.lines[slot])) for slot in kept}
        loaded = Loaded(lambda schedule: with_schedule(head, schedule), memories, kinds_of(pool), list(kinds))
        return Search("the job", loaded, own, delays).settled()

    def _taken_apart(self, values: Tuple[Tuple[str, Value], ...]) -> Parts:
        """The parts of the job of these values."""
        lines = self._source.lines(dict(values))
        return Parts(read_slots(lines), parts_of(lines), read_pool(lines), read_schedule(lines))


def with_schedule(head: str, schedule: Schedule) -> str:
    """The text of a job with a schedule behind its line SCHEDULE."""
    return head + join_lines([*lines_of_schedule(schedule), "ENDJOB"])


def pool_of(pool: List[str], own: set, values: Dict[str, Value]) -> List[str]:
    """The lines of the pool, with as many devices of each kind as the values say. New ones have the lowest numbers that are free."""
    for kind in workload.SHARED:
        most = values.get(f"pool {kind}")
        if most is None:
            continue
        there = [line for line in pool if line.split(" ")[2] == kind][:int(most)]
        pool = [line for line in pool if line.split(" ")[2] != kind or line in there]
        free = [number for number in range(16) if number not in own and number not in kinds_of(pool)]
        pool += [f"DEVICE {number} {kind}" for number in free[:int(most) - len(there)]]
    return pool


def own_schedule(schedule: Schedule, values: Dict[str, Value]) -> Schedule:
    """The schedule of a job with the priorities, the number of calls and the clock that the values say."""
    calls = int(values.get("schedule", schedule.calls))
    events = [event for event in schedule.events if event.calls < calls or calls == schedule.calls]
    if "tick" in values:
        tick = int(values["tick"])
        others = Schedule(calls, [event for event in events if not event.line.startswith("CLOCK ")])
        events = merged(others, [Event(tick * time, f"CLOCK {time}") for time in range(1, (calls - 1) // tick + 1)]).events
    if len(events) > MOST_LINES:
        raise BadInput(f"the job: {TOO_LONG}")
    return Schedule(calls, [*(Event(0, line) for line in swaps(str(values.get("priorities", "0123")))), *events])


def swaps(priorities: str) -> List[str]:
    """The lines that bring the slots to an order of priorities."""
    now, lines = list(SLOTS), []
    for rank, slot in enumerate(map(int, priorities)):
        if now[rank] != slot:
            lines.append(f"SWAP {now[rank]} {slot}")
            now[now.index(slot)], now[rank] = now[rank], slot
    return lines


def delays_of(values: Dict[str, Value], kinds: Dict[int, str], always: bool) -> Optional[Delays]:
    """How long the transfers of these devices take; None if the values don't say it, and the job's own schedule does."""
    after = {int(name[6:]): value for name, value in values.items() if name.startswith("after ")}
    if not always and not after and not {"after", "speeds", "faster"} & set(values):
        return None
    faster = float(values.get("faster", 1))
    steps = slower(int(values.get("after", table("job")["usual_delay"])), faster)
    speeds = speeds_of_kinds(str(values["speeds"]), kinds) if "speeds" in values else {}
    of_devices = {device: slower(int(calls), faster) for device, calls in after.items() if device in kinds}
    return Delays(steps, None, of_devices, {device: Speed(slower(speed.calls, faster), slower(speed.calls_a_word, faster)) for device, speed in speeds.items()})


def slower(calls: int, faster: float) -> int:
    """So many calls on a device that is so many times as fast; one that takes any takes one at least."""
    return max(1, round(calls / faster)) if calls else 0
