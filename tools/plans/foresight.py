"""A guess of the transfers that come next in a run: the programs do what they did before, and take turns by their priorities."""
import heapq
from typing import Dict, List, NamedTuple, Sequence, Tuple, Union

from kdf9.delays import Delays, Transfer
from kdf9.journal import exchanged
from kdf9.schedule import Event
from plans.recall import Stretch
from plans.scene import Program, Scene


class Guess(NamedTuple):
    """The transfers that come next, and the calls up to which they are guessed."""

    transfers: List[Transfer]
    calls: int


class Foresight:
    """What comes after a scene, with the ends of the transfers in flight by the calls after which they began and their devices."""

    def __init__(self, scene: Scene, ends: Dict[Tuple[int, int], int], delays: Delays, swaps: Sequence[Event]) -> None:
        self._now, self._delays = scene.copy(), delays
        self._due = [(ends[began, device], device) for device, (_, began) in scene.flying.items()]
        heapq.heapify(self._due)
        self._swaps = [swap for swap in swaps if swap.calls >= scene.calls]
        self._turned = 0
        self._guessed: List[Transfer] = []

    def guess(self, total: int, most: int) -> Guess:
        """At most so many transfers, up to this number of calls, or to where a program has its turn of which nothing like that was seen."""
        now = self._now
        while now.calls < total and len(self._guessed) < most:
            self._schedule()
            program = now.next()
            soon = min(self._soon(total), total)
            if program is None:
                now.calls = soon
                continue
            stretch = program.stretch or program.memory.next(program.keys, program.done)
            if stretch is None:
                return Guess(self._guessed, now.calls)
            if program.stretch is None:
                program.stretch, program.checked = stretch, next_check(stretch, program.done)
            program.held = None
            free = min(program.checked - program.done, soon - now.calls)
            program.done += free
            now.calls += free
            if now.calls < soon:
                self._obey(program, stretch)
        return Guess(self._guessed, now.calls)

    def _schedule(self) -> None:
        """What the schedule has at this moment: ends of transfers, and exchanges of priorities."""
        now = self._now
        while self._due and self._due[0][0] <= now.calls:
            now.ends(heapq.heappop(self._due)[1])
        while self._turned < len(self._swaps) and self._swaps[self._turned].calls <= now.calls:
            now.order = exchanged(now.order, *map(int, self._swaps[self._turned].line.split(" ")[1:]))
            self._turned += 1

    def _soon(self, total: int) -> int:
        """When the schedule has something next."""
        soon = self._due[0][0] if self._due else total
        return min(soon, self._swaps[self._turned].calls) if self._turned < len(self._swaps) else soon

    def _obey(self, program: Program, stretch: Stretch) -> None:
        """A program comes to an order of which something is remembered: it is held up by it, or obeys it."""
        now = self._now
        now.calls += 1
        is_last = program.done + 1 == stretch.orders
        program.held = self._hold(program, stretch, is_last)
        if program.held is not None:
            return
        program.done += 1
        if is_last:
            self._does(program, stretch)
        else:
            program.checked = next_check(stretch, program.done)

    def _hold(self, program: Program, stretch: Stretch, is_last: bool) -> Union[int, str, None]:
        """What holds up the next order of a program: the transfer of a device, or the want of a device of some kind."""
        devices = [program.device_of(name) for name in stretch.needs.get(program.done, ())]
        if is_last and stretch.what[0] == "START":
            devices.append(program.device_of(stretch.what[1]))
        held = next((device for device in devices if device in self._now.flying), None)
        if held is not None:
            return held
        return stretch.what[1] if is_last and stretch.what[0] == "TAKE" and self._now.free(stretch.what[1]) is None else None

    def _does(self, program: Program, stretch: Stretch) -> None:
        """The last order of a stretch is obeyed."""
        now, kind = self._now, stretch.what[0]
        number = 0
        if kind == "ANSWER":
            number = stretch.answer(now.names_flying(program))
        elif kind == "TAKE":
            number = now.free(stretch.what[1])
        elif kind in ("START", "GIVE"):
            number = program.device_of(stretch.what[1])
            if number < 0 or kind == "GIVE" and number not in now.lent:
                program.stretch = Stretch(1 << 60, ("LOST",))
                program.checked = program.stretch.orders - 1
                return
        now.does(program, stretch.what, number)
        if kind == "START":
            transfer = Transfer(now.calls, number, stretch.words if self._delays.goes_by_words(number) else 0)
            self._guessed.append(transfer)
            heapq.heappush(self._due, (self._delays.end(transfer), number))


def next_check(stretch: Stretch, done: int) -> int:
    """How many orders of a stretch come before the next one that may be held up, or that is the last."""
    return min([before for before in stretch.needs if before >= done] + [stretch.orders - 1])
