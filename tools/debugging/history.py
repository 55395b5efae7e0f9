"""A run of a job that can be looked at after any call: the run is cut there, which changes nothing before the cut."""
import functools
import os
import re
from bisect import bisect_left, bisect_right
from concurrent.futures import ThreadPoolExecutor
from typing import Dict, Iterator, List, NamedTuple, Optional, Set, Tuple

from editing.facts import facts_of
from editing.image import Image
from editing.naming import Names
from kdf9.deck import WORD
from kdf9.job import read_lines, read_slots
from kdf9.machine import sound_facts
from kdf9.program import BadInput, answer_to
from kdf9.report import Section, sections_of
from kdf9.schedule import cut_before_next, job_with, read_schedule
from kdf9.words import whole

# The orders that may go elsewhere than to the next.
JUMPS = re.compile("J|EXIT")

# How many cuts are made at once, and how many states are kept.
AT_ONCE, KEPT = 50, 256


class Stretch(NamedTuple):
    """A row of orders of a program: the calls before the first, the orders of the program before it, and how many they are."""

    calls: int
    orders: int
    number: int


class Place(NamedTuple):
    """An order of a deck: its slot, its place in syllables, its line and column in the job, and its statement."""

    slot: int
    place: int
    line: int
    column: int
    text: str


class Program:
    """A program of a run: its deck, its statements, and its orders."""

    def __init__(self, slot: object, listing: dict, stretches: List[Stretch]) -> None:
        self.slot, self.stretches = slot, stretches
        self.names, self.image = Names(slot.deck), Image(slot.deck, slot.store)
        rows = listing["statements"]
        self.orders = [
            Place(slot.number, WORD * row["at"][0] + row["at"][1], row["line"], row["column"], row["written"])
            for row in rows if row["syllables"]
        ]
        self._by_place = {order.place: order for order in self.orders}
        self._places = [order.place for order in self.orders]
        self._sizes = [row["syllables"] for row in rows if row["syllables"]]
        self._entries = self._entries_of(listing)
        head = next(row for row in rows if row["kind"] == "opening")
        self._first = Place(slot.number, 0, head["line"], head["column"], "(to the main part)")

    def place(self, place: int) -> Place:
        """The order at a place. What no statement wrote is said to be on the line of the one before it."""
        if place in self._by_place:
            return self._by_place[place]
        at = bisect_right(self._places, place) - 1
        if place == 0 or at < 0:
            return self._first
        return self.orders[at]._replace(place=place, text="(no statement)")

    def _entries_of(self, listing: dict) -> Optional[Set[int]]:
        """The places to which the program may jump: its references, and where a part returns to. It is None if links are made otherwise."""
        texts = [order.text.replace(" ", "") for order in self.orders]
        if "=LINK" in texts:
            return None
        further = {3 * whole(text[4:]) for text in texts if text.startswith("EXIT")}
        calls = [order.place for order, text in zip(self.orders, texts) if text.startswith("JS")]
        return {WORD * word + syllable for word, syllable in (row["at"] for row in listing["references"])} | {place + more for place in calls for more in further}

    def way_to(self, place: int) -> Optional[Tuple[int, int]]:
        """A place that begins a word and from which the program always comes to this one, with the number of orders between; or None."""
        at = bisect_left(self._places, place)
        for back, index in enumerate(range(at, -1, -1)):
            here = self._places[index]
            if here % WORD == 0:
                return here, back
            before = self._places[index - 1] + self._sizes[index - 1] if index else -1
            if self._entries is None or here in self._entries or before != here or JUMPS.match(self.orders[index - 1].text.replace(" ", "")):
                return None
        return None

    def orders_at(self, calls: int) -> int:
        """How many orders the program has obeyed after this number of calls."""
        at = bisect_left(self.stretches, (calls, 0, 0)) - 1
        if at < 0:
            return 0
        stretch = self.stretches[at]
        return stretch.orders + min(stretch.number, calls - stretch.calls)

    def call_of(self, order: int) -> Optional[int]:
        """The call of an order of the program, from 1; 0 for order 0, and None for one that it doesn't obey."""
        if order <= 0:
            return 0
        at = bisect_left([stretch.orders for stretch in self.stretches], order) - 1
        if at < 0 or order > self.stretches[at].orders + self.stretches[at].number:
            return None
        return self.stretches[at].calls + order - self.stretches[at].orders


class History:
    """The run of a job. `entries` is its journal, as the machine tells it, and `calls` is how many calls there were."""

    def __init__(self, source: str, text: str) -> None:
        self.lines = read_lines(text)
        self._refuse(source, facts_of(text, 0))
        self._slots, self._schedule = read_slots(self.lines), read_schedule(self.lines)
        run = sound_facts(text)
        self.entries, self.calls = run["entries"], run["made"]
        self.programs = {number: Program(slot, facts_of(text, number), list(self._stretches(number))) for number, slot in self._slots.items()}
        self._text = text
        self.sections = functools.lru_cache(maxsize=KEPT)(self._sections)
        self.arrivals = functools.lru_cache(maxsize=KEPT)(self._arrivals)

    @staticmethod
    def _refuse(source: str, facts: dict) -> None:
        """Raises BadInput where the job has a fault."""
        if facts["kind"] == "fault":
            where = f":{facts['line']}:{facts['column']}" if "line" in facts else ""
            raise BadInput(f"{source}{where}: {facts['name']}" + (f": {facts['sentence']}" if "sentence" in facts else ""))

    def _stretches(self, slot: int) -> Iterator[Stretch]:
        """The rows of orders of the program of a slot."""
        orders = 0
        for entry in self.entries:
            if entry["entry"] == "RAN" and entry["slot"] == slot:
                yield Stretch(entry["call"], orders, entry["orders"])
                orders += entry["orders"]

    def _sections(self, calls: int) -> Dict[int, Section]:
        """What the run is like after this number of calls, and after the events before the next: the section of each slot."""
        return sections_of(answer_to(["run"], job_with(self._slots, cut_before_next(self._schedule, calls), list(self._slots))))

    def place(self, slot: int, calls: int) -> Place:
        """The next order of a slot's program after this number of calls."""
        return self.programs[slot].place(self.sections(calls)[slot].place)

    def _arrivals(self, slot: int, word: int) -> List[int]:
        """The calls after which the next order of a slot's program is at the beginning of this word."""
        stops = sound_facts(self._text, "watch", str(slot), str(word))["stops"]
        found = [self.programs[slot].call_of(order) for order in stops]
        return ([0] if word == 0 else []) + [call for call in found if call]

    def arrivals_at(self, slot: int, place: int) -> Optional[List[int]]:
        """The calls after which the next order of a slot's program is at this place; None where only a search can tell."""
        program = self.programs[slot]
        way = program.way_to(place)
        if way is None:
            return None
        start, back = way
        found = [program.call_of(program.orders_at(call) + back) for call in self.arrivals(slot, start // WORD)]
        # A program that fails or ends on the way doesn't come there; no other can.
        return [call for call in found if call is not None and (call != found[-1] or self.sections(call)[slot].place == place)]

    def failures(self) -> List[Tuple[int, int, str]]:
        """The calls with which programs failed, each with the slot and the kind."""
        return [(entry["call"], entry["slot"], entry["kind"]) for entry in self.entries if entry["entry"] == "FAIL"]

    def states(self, calls: range) -> Iterator[Tuple[int, Dict[int, Section]]]:
        """What the run is like after each of these calls; some are asked for at once."""
        with ThreadPoolExecutor(os.cpu_count()) as pool:
            for first in range(0, len(calls), AT_ONCE):
                part = calls[first:first + AT_ONCE]
                yield from zip(part, pool.map(self.sections, part))
