"""Where a run stops for an editor: at breakpoints, at watched words that change, where a program fails, and after steps.

A breakpoint at the beginning of a word, or on the straight way from there, is found by the command watch, however long the run is. For other statements, and for words
that are watched, the run is cut after one call after another; after MOST_SEARCHED calls the run stops, and goes on from there.
"""
from typing import Callable, Iterator, List, NamedTuple

from debugging.history import History, Place
from kdf9.changes import number_of

MOST_SEARCHED = 500


class Hit(NamedTuple):
    """Where a run stops: the calls before, the slot, the reason by the protocol, what is said of it, and whether the run is over there."""

    calls: int
    slot: int
    reason: str
    says: str = ""
    is_end: bool = False


class Watched(NamedTuple):
    """A word that is watched."""

    slot: int
    address: int
    name: str


class Stops:
    """Where the run of a job stops."""

    def __init__(self, history: History) -> None:
        self._history = history
        self.breakpoints: List[Place] = []
        self.watched: List[Watched] = []
        self.at_failures = True

    def step(self, slot: int, calls: int, is_there: Callable[[int, int], bool]) -> Hit:
        """Where a program is after its next orders: when the number of its links and the first number say that it is there."""
        program, links = self._history.programs[slot], len(self._history.sections(calls)[slot].links)
        call = calls
        for order in range(program.orders_at(calls) + 1, program.orders_at(calls) + 1 + MOST_SEARCHED):
            call = program.call_of(order)
            if call is None:
                return self.end(slot)
            section = self._history.sections(call)[slot]
            if is_there(len(section.links), links) or section.state != ["LIVE"]:
                return Hit(call, slot, "step", " ".join(section.state) if section.state != ["LIVE"] else "")
            if any(each.slot == slot and each.place == section.place for each in self.breakpoints):
                return Hit(call, slot, "breakpoint")
        return Hit(call, slot, "pause", f"{MOST_SEARCHED} orders were obeyed")

    def back(self, slot: int, calls: int) -> Hit:
        """Before the last order of a program."""
        program = self._history.programs[slot]
        call = program.call_of(program.orders_at(calls)) or 0
        return Hit(max(0, call - 1), slot, "step" if call > 0 else "entry")

    def next(self, slot: int, calls: int) -> Hit:
        """The next place after these calls where the run stops."""
        hits = [hit for hit in self._known() if hit.calls > calls]
        bound = min(hits) if hits else None
        last = bound.calls if bound else self._history.calls
        searched = range(calls, min(last, calls + MOST_SEARCHED) + 1)
        found = next(self._searched(searched), None)
        if found and not (bound and bound.calls <= found.calls):
            return found
        if searched[-1] < last and self._is_searched():
            return Hit(searched[-1], slot, "pause", f"{MOST_SEARCHED} calls were searched; continue goes on from here")
        return bound or self.end(slot)

    def previous(self, slot: int, calls: int) -> Hit:
        """The last place before these calls where the run stops."""
        hits = [hit for hit in self._known() if hit.calls < calls]
        bound = max(hits) if hits else Hit(0, slot, "entry")
        searched = range(max(bound.calls, calls - MOST_SEARCHED), calls)
        found = list(self._searched(searched))
        if found:
            return found[-1]
        if searched and searched[0] > bound.calls and self._is_searched():
            return Hit(searched[0], slot, "pause", f"{MOST_SEARCHED} calls were searched; going back goes on from here")
        return bound

    def end(self, slot: int) -> Hit:
        """The end of the run, from where it can go back."""
        return Hit(self._history.calls, slot, "pause", f"the run has ended after {self._history.calls} calls", True)

    def _known(self) -> Iterator[Hit]:
        """Where the run stops at breakpoints of which that is known without a search, and where programs fail."""
        for each in self.breakpoints:
            yield from (Hit(call, each.slot, "breakpoint") for call in self._history.arrivals_at(each.slot, each.place) or [])
        if self.at_failures:
            yield from (Hit(call, slot, "exception", f"slot {slot} failed: {kind}") for call, slot, kind in self._history.failures())

    def is_unknown(self, place: Place) -> bool:
        """Whether only a search tells when a program comes to a place."""
        return self._history.programs[place.slot].way_to(place.place) is None

    def _is_searched(self) -> bool:
        """Whether there is something for which the run is cut after each call."""
        return bool(self.watched) or any(map(self.is_unknown, self.breakpoints))

    def _searched(self, calls: range) -> Iterator[Hit]:
        """Where the run stops between the first of these calls and the last, at other breakpoints and watched words."""
        if not self._is_searched() or not calls:
            return
        others = [each for each in self.breakpoints if self.is_unknown(each)]
        before = None
        for call, sections in self._history.states(calls):
            if before is not None:
                for each in others:
                    if sections[each.slot].place == each.place and sections[each.slot].orders != before[each.slot].orders:
                        yield Hit(call, each.slot, "breakpoint")
                for word in self.watched:
                    old, new = before[word.slot].words[word.address], sections[word.slot].words[word.address]
                    if old != new:
                        yield Hit(call, word.slot, "data breakpoint", f"{word.name} was {number_of(old)} and is {number_of(new)}")
            before = sections
