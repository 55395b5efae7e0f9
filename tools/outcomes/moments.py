"""A run as its journal tells it: what each program has obeyed, was answered and waits for after each call, and whose turn each call was."""
from typing import Dict, List, NamedTuple, Optional, Sequence, Tuple

from kdf9.journal import SLOTS, exchanged
from kdf9.report import entries_of, lines_by_slot
from kdf9.schedule import Event

# What a program is held up by: LOV, BUSY or WAIT, and the group, the device or the kind of a device.
Hold = Tuple[str, object]

# The programs of a deadlock: of each its slot, the kind of a device that it waits for, and the devices of the pool that it has.
Circle = Tuple[Tuple[int, str, Tuple[int, ...]], ...]


class Turn(NamedTuple):
    """A call: the slot whose turn it was, or None for an idle one; what was answered, if the order asked; whether it took or gave back a device of the
    pool; and what held it up.
    """

    slot: Optional[int] = None
    answer: Optional[int] = None
    is_of_pool: bool = False
    hold: Optional[Hold] = None


class Moment:
    """What a journal tells up to some call. `over` has how each program that isn't live any more came to its end, `flying` the transfers in flight by device,
    each with its slot and the number of the order that began it, and `lent` the holders of the pool's devices.
    """

    __slots__ = ("orders", "answers", "over", "holds", "flying", "lent", "time", "order")

    def __init__(self, slots: Sequence[int]) -> None:
        self.orders: Dict[int, int] = {slot: 0 for slot in slots}
        self.answers: Dict[int, Tuple[int, ...]] = {slot: () for slot in slots}
        self.over: Dict[int, str] = {}
        self.holds: Dict[int, Hold] = {}
        self.flying: Dict[int, Tuple[int, int]] = {}
        self.lent: Dict[int, int] = {}
        self.time = 0
        self.order: Tuple[int, ...] = SLOTS

    def copy(self) -> "Moment":
        """Another moment that tells the same."""
        new = Moment(())
        new.orders, new.answers, new.over, new.holds = dict(self.orders), dict(self.answers), dict(self.over), dict(self.holds)
        new.flying, new.lent, new.time, new.order = dict(self.flying), dict(self.lent), self.time, self.order
        return new

    def schedule(self, kind: str, *numbers: int) -> None:
        """Takes a line of the schedule."""
        if kind == "END":
            self.flying.pop(numbers[0], None)
        elif kind == "CLOCK":
            self.time = numbers[0]
        elif kind == "SWAP":
            self.order = exchanged(self.order, *numbers)

    def after(self, line: str) -> "Moment":
        """The moment after a line of the schedule."""
        new, (kind, *numbers) = self.copy(), line.split(" ")
        new.schedule(kind, *map(int, numbers))
        return new

    def live(self) -> List[int]:
        """The slots of the live programs."""
        return [slot for slot in self.orders if slot not in self.over]

    def flights(self, slot: int) -> List[int]:
        """The devices on which a program has a transfer."""
        return sorted(device for device, (owner, _) in self.flying.items() if owner == slot)

    def may_be_held(self, slot: int, pool: Dict[int, str]) -> bool:
        """Whether what held a program up last may still do so. A journal doesn't tell which transfer locks out a group, so any of the program's may."""
        kind, which = self.holds.get(slot, ("", None))
        if kind == "WAIT":
            return all(device in self.lent for device, its in pool.items() if its == which)
        return which in self.flying if kind == "BUSY" else kind == "LOV" and bool(self.flights(slot))

    def key(self) -> tuple:
        """All that decides how the run can go on: by the law `equal_futures`, two moments with equal keys have equal futures. The law also asks how many words
        of each transfer were called for. These are none, because no schedule that is tried has a MOVE.
        """
        told = self.orders, self.answers, self.over, self.holds, self.flying, self.lent
        return (*(tuple(sorted(each.items())) for each in told), self.time, self.order)

    def circle(self, pool: Dict[int, str]) -> Circle:
        """The programs that wait for good: each device that one of them waits for has one of them as its holder. None of them will go on."""
        waiting = {slot: hold[1] for slot, hold in self.holds.items() if hold[0] == "WAIT"}
        while True:
            hopeful = [slot for slot, kind in waiting.items() if any(self.lent.get(device) not in waiting for device, its in pool.items() if its == kind)]
            if not hopeful:
                return tuple((slot, str(waiting[slot]), self.lent_to(slot)) for slot in sorted(waiting))
            for slot in hopeful:
                del waiting[slot]

    def lent_to(self, slot: int) -> Tuple[int, ...]:
        """The devices of the pool that a program has."""
        return tuple(sorted(device for device, holder in self.lent.items() if holder == slot))


class Path:
    """A run: `moments[n]` is what there is after n calls and the events that follow them, `turns[n]` is the call after that, and `begun` has the transfers:
    the calls before each had begun, and its device.
    """

    def __init__(self, report: str, slots: Sequence[int], events: Sequence[Event]) -> None:
        self.events = tuple(events)
        self.moments, self.turns = [Moment(slots)], []
        self.begun: List[Tuple[int, int]] = []
        for entry in entries_of(report):
            self._take(*entry)
        self.sections = {slot: tuple(lines) for slot, lines in lines_by_slot(report).items()}

    @property
    def start(self) -> int:
        """The number of calls before the last event."""
        return self.events[-1].calls if self.events else 0

    @property
    def last(self) -> Moment:
        """What there is at the end."""
        return self.moments[-1]

    def _take(self, kind: str, *fields) -> None:
        now = self.moments[-1]
        if kind == "RAN":
            for _ in range(fields[1]):
                now = self._call(Turn(fields[0]))
                now.orders[fields[0]] += 1
                now.holds.pop(fields[0], None)
        elif kind in ("LOV", "BUSY", "WAIT"):
            self._call(Turn(fields[0], hold=(kind, fields[1]))).holds[fields[0]] = (kind, fields[1])
        elif kind == "IDLE":
            for _ in range(fields[0]):
                self._call(Turn())
        elif kind == "START":
            slot, device, order = fields
            now.flying[device] = slot, order
            self.begun.append((len(self.turns), device))
        elif kind in ("ANSWER", "TAKE", "GIVE", "FAIL", "ENDED"):
            self._note(now, kind, *fields)
        else:
            now.schedule(kind, *fields)

    def _call(self, turn: Turn) -> Moment:
        """One more call; what there is after it."""
        self.turns.append(turn)
        self.moments.append(self.moments[-1].copy())
        return self.moments[-1]

    def _note(self, now: Moment, kind: str, slot: int, what=None) -> None:
        """Takes what is noted of the order that was obeyed by the last call."""
        if kind in ("ANSWER", "TAKE"):
            now.answers[slot] += (what,)
            self.turns[-1] = self.turns[-1]._replace(answer=what, is_of_pool=kind == "TAKE")
        if kind == "TAKE":
            now.lent[what] = slot
        elif kind == "GIVE":
            del now.lent[what]
            self.turns[-1] = self.turns[-1]._replace(is_of_pool=True)
        elif kind in ("FAIL", "ENDED"):
            now.over[slot] = f"FAILED {what}" if kind == "FAIL" else kind
            self.turns[-1] = self.turns[-1]._replace(is_of_pool=bool(now.lent_to(slot)))
            now.lent = {device: holder for device, holder in now.lent.items() if holder != slot}
