"""The facts of a run over time: with which call each order was obeyed, what went on then, and what a program was answered."""
from __future__ import annotations

from typing import Any, Dict, Iterable, Iterator, List, Optional

from kdf9 import told
from kdf9.tables import table

# What holds a program up, in words: a group, a device, or the pool.
HOLDS = {"pool" if row["fields"][-1] == "kind" else row["fields"][-1]: row["holds"] for row in table("entries") if "holds" in row}

# The entries of calls that found a program held up, and the fields in which those of calls that were obeyed or idle have their number.
HELD, NUMBERS = tuple(row["entry"] for row in table("entries") if "holds" in row), {"RAN": "orders", "IDLE": "calls"}

# The number of the OUT that asks the installation's service.
SERVICE = 64


def calls_in(entry: Dict[str, Any]) -> int:
    """How many calls an entry tells of."""
    kind = entry["entry"]
    return entry[NUMBERS[kind]] if kind in NUMBERS else int(kind in HELD)


def held_by(hold: told.Hold) -> str:
    """What holds a program up, in words."""
    return HOLDS[hold.by].format(number=getattr(hold, hold.by))


def calls_of_orders(run: told.Run, slot: int, orders: Iterable[int]) -> Iterator[int]:
    """The calls at which the program of a slot obeyed these orders of its own, whose numbers rise from 1 on; only of those that it obeyed."""
    obeyed, rest = 0, iter(orders)
    order = next(rest, None)
    for entry in run.entries:
        if order is None:
            return
        if entry.entry == "RAN" and entry.slot == slot:
            while order is not None and order <= obeyed + entry.orders:
                yield entry.call + order - obeyed
                order = next(rest, None)
            obeyed += entry.orders


def call_of_order(run: told.Run, slot: int, order: int) -> int:
    """The call at which the program of a slot obeyed this order of its own; 0 for order 0. It has to have obeyed that many."""
    return next(calls_of_orders(run, slot, [order]), 0) if order else 0


def in_flight(run: told.Run, calls: int) -> List[told.Transfer]:
    """The transfers that began with one of the first calls, and that nothing ended before this call."""
    return [each for each in run.transfers if each.began <= calls and (each.ended is None or each.ended >= calls)]


def word_asked(ask: Optional[told.Ask]) -> Optional[int]:
    """The word that a question asks the installation's service to answer, or None if it asks nothing of it."""
    return ask.nest[1] if ask and ask.nest[:1] == [SERVICE] and len(ask.nest) > 1 else None


def asks_of(run: told.Run, slot: int) -> Dict[int, told.Ask]:
    """What the program of a slot asked, by the number of its order. The device that it took from the pool is an answer."""
    return {ask.order: ask for ask in run.asks if ask.slot == slot}


def lone_answers(run: told.Run, slot: int) -> Dict[int, int]:
    """What the same orders would be answered if the program ran alone and had been answered so up to there: 0, or the least device of the pool that the program
    hasn't got.
    """
    answers, loans, pool = {}, [loan for loan in run.loans if loan.slot == slot], {each.device: each.kind for each in run.devices if each.slot is None}
    for order, ask in asks_of(run, slot).items():
        kind = next((pool[loan.device] for loan in loans if loan.taken == ask.call), None)
        got = [loan.device for loan in loans if loan.taken < ask.call and (loan.given is None or loan.given >= ask.call)]
        answers[order] = min(device for device in pool if pool[device] == kind and device not in got) if kind else 0
    return answers
