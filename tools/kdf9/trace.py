"""The orders of one program as it ran under Director: the call of each, what happened since the one before, and the transfers at that time."""
from __future__ import annotations

from bisect import bisect_left
from collections import Counter
from typing import Iterator, List, NamedTuple, Optional

from kdf9 import told
from kdf9.records import line_of_entry
from kdf9.timeline import call_of_order, calls_of_orders, held_by, in_flight
from kdf9.words import count

# The lines of the schedule that have entries, and how many of them are shown between two orders.
SCHEDULED = ("MOVE", "END", "CLOCK", "SWAP")
MOST_SCHEDULED = 8

# What an order did besides what it changed, in words, by its entry.
DOES = {
    "ANSWER": "answered {answer}", "START": "a transfer of device {device} begins", "TAKE": "takes device {device} from the pool",
    "GIVE": "gives device {device} back to the pool",
}

# What becomes of a program, and of the pool, that another may have waited for.
FREES = {"GIVE": "slot {slot} gave back device {device}", "ENDED": "slot {slot} ended", "FAIL": "slot {slot} failed"}


class Moment(NamedTuple):
    """An order of a program: its number, the call it was obeyed with, the devices that had a transfer then, what happened since the order
    before, and the entries of the order itself.
    """

    order: int
    call: int
    flying: List[int]
    between: List[str]
    own: List[told.Entry]


class Trace:
    """The orders of the program of a slot from `first` to `last`, and what came after the last that it obeyed."""

    def __init__(self, run: told.Run, slot: int, first: int, last: int) -> None:
        self._run, self._slot = run, slot
        self._calls = [entry.call for entry in run.entries]
        self.obeyed = run.program(slot).orders
        self.call_before = call_of_order(run, slot, first - 1)
        self.moments = list(self._moments(first, last))
        self.rest = self._between(self.obeyed + 1, call_of_order(run, slot, self.obeyed), run.made + 1)

    def _moments(self, first: int, last: int) -> Iterator[Moment]:
        before = self.call_before
        for order, call in enumerate(calls_of_orders(self._run, self._slot, range(first, last + 1)), first):
            flying = sorted(transfer.device for transfer in in_flight(self._run, call) if transfer.began < call)
            own = [entry for entry in self._entries(call, call + 1) if entry.entry in DOES and entry.slot == self._slot]
            yield Moment(order, call, flying, self._between(order, before, call), own)
            before = call

    def _entries(self, first: int, end: int) -> List[told.Entry]:
        """The entries with at least this number of calls before them, and fewer than the other."""
        return self._run.entries[bisect_left(self._calls, first):bisect_left(self._calls, end)]

    def _between(self, order: int, first: int, end: int) -> List[str]:
        """What happened before this order of the program, from one call to another, in words."""
        held = [hold for hold in self._run.holds if (hold.slot, hold.order) == (self._slot, order)]
        wait = next((hold.call for hold in held if hold.by == "pool"), None)
        ran, idle, scheduled, freed = Counter(), 0, [], []
        for entry in self._entries(first, end):
            is_own = entry.slot == self._slot and entry.entry not in SCHEDULED
            if entry.entry == "RAN" and not is_own:
                ran[entry.slot] += entry.orders
            elif entry.entry == "IDLE":
                idle += entry.calls
            elif entry.entry in SCHEDULED:
                scheduled.append(f"{line_of_entry(vars(entry))} after call {entry.call}")
            elif entry.entry in FREES and not is_own and wait is not None and entry.call > wait:
                freed.append(f"{FREES[entry.entry].format(**vars(entry))} at call {entry.call}")
        said = [f"held up from call {hold.call + 1} by {held_by(hold)}" for hold in held]
        said += [f"slot {number} obeyed {count(orders, 'order')}" for number, orders in sorted(ran.items())]
        more = [f"{len(scheduled) - MOST_SCHEDULED} more lines of the schedule"] if len(scheduled) > MOST_SCHEDULED else []
        return said + ([f"{count(idle, 'call')} idle"] if idle else []) + scheduled[:MOST_SCHEDULED] + more + freed


def said_of_order(own: List[told.Entry], word: Optional[int] = None) -> List[str]:
    """What an order did besides what it changed, in words, by its entries. If it asked the installation's service, that was to answer this word."""
    service = "" if word is None else f" by the installation's service, to the word {word:016o}"
    return [DOES[entry.entry].format(**vars(entry)) + (service if entry.entry == "ANSWER" else "") for entry in own]
