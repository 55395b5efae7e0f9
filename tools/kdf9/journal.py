"""A journal over time: what each program and each device did in each stretch of calls.

Time is counted in calls of the machine. A chart has a fixed number of stretches, each of which is a column, so a run of ten million calls takes no
more room than one of ten: for each stretch the chart keeps how many calls went to what.
"""
from collections import Counter
from typing import NamedTuple

from kdf9.columns import Columns
from kdf9.program import BadInput

RAN, READY = "ran", "ready"

# The slots before any exchange, the highest priority first.
SLOTS = (0, 1, 2, 3)


class Held(NamedTuple):
    """That a program is held up, and by what: a device or a group, and its number; or the pool, and a kind of device."""

    what: str
    which: object


class Exchange(NamedTuple):
    """That two slots exchanged their priorities, and the slots after that, the highest priority first."""

    slots: tuple
    after: tuple


def exchanged(order, p, q):
    """The slots of some order after p and q exchanged their places in it."""
    if not {p, q} <= set(order):
        raise KeyError(max(p, q))
    return tuple({p: q, q: p}.get(slot, slot) for slot in order)


def in_order(order, there):
    """Slots by their priority, the highest first, in words; only those that are there."""
    return ", ".join(str(slot) for slot in order if slot in there)


class Lane:
    """What went on in one row of a chart: for each stretch, how many of its calls went to what, and what happened in it."""

    def __init__(self, columns):
        self.columns = columns
        self.calls = [Counter() for _ in range(columns.number)]
        self.events = [[] for _ in range(columns.number)]

    def span(self, first, end, what):
        """The calls from `first` on, up to and without `end`, went to this."""
        starts, stretch = self.columns.starts, self.columns.at(first)
        while first < end:
            until = min(end, starts[stretch + 1])
            self.calls[stretch][what] += until - first
            first, stretch = until, stretch + 1

    def event(self, at, what):
        """This happened after this number of calls."""
        self.events[self.columns.at(at)].append(what)

    def happened(self):
        """What happened, each with its stretch."""
        return [(stretch, event) for stretch, events in enumerate(self.events) for event in events]

    def number_of_events(self):
        """How often something happened."""
        return sum(map(len, self.events))

    def total(self):
        """How many calls went to what."""
        return sum(self.calls, Counter())


class Program:
    """What is known of a program at some moment: what it does since when, None if it is over; which transfers its hold may wait for; and for which kind of the
    pool's devices it waits, if it does.
    """

    def __init__(self):
        self.does, self.since, self.waits_for, self.wants = READY, 0, set(), None


class Chart:
    """A run drawn to scale: lanes of its programs by slot and of its devices by number, of idle calls, of the clock and of priorities.

    A report doesn't tell which transfer locks out a group. So a program that is held up by one counts as held up until it goes on or the
    last transfer that it had under way has ended. Of the pool it tells only the devices that were taken; where a program waits for one,
    these are all devices of the kind.
    """

    def __init__(self, report, name, stretches):
        self.columns = Columns(*idle_stretches(report.entries), stretches)
        self.total = self.columns.total
        self.sections = report.sections
        own = {device.number: device.kind for section in report.sections.values() for device in section.devices}
        self.pool = {stint.number: stint.kind for section in report.sections.values() for stint in section.stints}
        self.devices = {**own, **self.pool}
        self.slot_lanes = self._lanes(report.sections)
        self.device_lanes = self._lanes([*sorted(own), *sorted(self.pool)])
        self.move_lanes, self.lent_lanes = self._lanes(self.devices), self._lanes(self.pool)
        self.idle, self.clock, self.exchanges = self._lanes(range(3)).values()
        self.order = SLOTS
        self.transfers = Counter()
        self._now = 0
        self._programs = {number: Program() for number in report.sections}
        self._flying, self._lent = {}, {}
        self._read(report.entries, name)

    def _lanes(self, numbers):
        return {number: Lane(self.columns) for number in numbers}

    def _read(self, entries, name):
        """Takes the entries, each by the method of its name; an answer changes nothing here."""
        try:
            for line, (kind, *numbers) in enumerate(entries, 2):
                if kind != "ANSWER":
                    getattr(self, f"_{kind.lower()}")(*numbers)
        except KeyError as why:
            raise BadInput(f"{name}:{line}: the report has no slot or device {why}") from why
        for number in self._programs:
            self._turn(number, None)
        for spans, lanes in ((self._flying, self.device_lanes), (self._lent, self.lent_lanes)):
            for device in list(spans):
                self._close(spans, lanes, device)
        self.times = self.clock.number_of_events()

    def _turn(self, number, does):
        """The program of this slot does something else from now on; None where it is over."""
        program = self._programs[number]
        if program.does:
            self.slot_lanes[number].span(program.since, self._now, program.does)
        program.does, program.since = does, self._now

    def _ran(self, number, orders):
        self._turn(number, READY)
        self.slot_lanes[number].span(self._now, self._now + orders, RAN)
        self._now += orders
        self._programs[number].since, self._programs[number].wants = self._now, None

    def _hold(self, number, reason, transfers):
        self._turn(number, reason)
        self._programs[number].waits_for = transfers
        self._now += 1

    def _busy(self, number, device):
        if device not in self.devices:
            raise KeyError(device)
        self._hold(number, Held("device", device), {device})

    def _lov(self, number, group):
        self._hold(number, Held("group", group), {device for device, (_, owner) in self._flying.items() if owner == number})

    def _wait(self, number, kind):
        self._hold(number, Held("pool", kind), {kind})
        self._programs[number].wants = kind

    def _take(self, number, device):
        if number not in self._programs:
            raise KeyError(number)
        self.lent_lanes[device].event(self._now, number)
        self._lent[device] = (self._now, number)
        self._look_at_waits()

    def _give(self, _number, device):
        self._close(self._lent, self.lent_lanes, device)
        self._look_at_waits()

    def _close(self, spans, lanes, device):
        """What a device was for somebody, it isn't any more; whose it was."""
        since, slot = spans.pop(device)
        lanes[device].span(since, self._now, slot)
        return slot

    def _look_at_waits(self):
        """A program waits for the pool while all devices of the kind are lent: also where another was quicker to take the one given back."""
        for number, program in self._programs.items():
            if program.does and program.wants:
                is_held = all(device in self._lent for device, kind in self.pool.items() if kind == program.wants)
                does = Held("pool", program.wants) if is_held else READY
                if does != program.does:
                    self._turn(number, does)

    def _ended(self, number, failure=None):
        self._turn(number, None)
        self.slot_lanes[number].event(max(0, self._now - 1), (self._now, failure))
        for device in [device for device, (_, holder) in self._lent.items() if holder == number]:
            self._close(self._lent, self.lent_lanes, device)
        self._look_at_waits()

    _fail = _ended

    def _idle(self, calls):
        self.idle.span(self._now, self._now + calls, "idle")
        self._now += calls

    def _clock(self, time):
        self.clock.event(self._now, time)

    def _swap(self, p, q):
        self.order = exchanged(self.order, p, q)
        self.exchanges.event(self._now, Exchange((p, q), self.order))

    def _start(self, number, device, _order):
        if number not in self._programs:
            raise KeyError(number)
        self.device_lanes[device].event(self._now, number)
        self._flying[device] = (self._now, number)
        self.transfers[device] += 1

    def _move(self, device, words):
        """A MOVE changes nothing where there is no transfer, and so does an END."""
        if device in self._flying:
            self.move_lanes[device].event(self._now, words)

    def _end(self, device):
        if device not in self._flying:
            return
        owner = self._close(self._flying, self.device_lanes, device)
        program = self._programs[owner]
        program.waits_for.discard(device)
        if isinstance(program.does, Held) and not program.waits_for:
            self._turn(owner, READY)


def calls_of(entry):
    """How many calls of the machine an entry stands for."""
    if entry[0] in ("RAN", "IDLE"):
        return entry[-1]
    return 1 if entry[0] in ("BUSY", "LOV", "WAIT") else 0


def idle_stretches(entries):
    """How many calls a journal has, and its idle stretches, each as the calls before it and their number."""
    total, idle = 0, []
    for entry in entries:
        if entry[0] == "IDLE":
            idle.append((total, entry[1]))
        total += calls_of(entry)
    return total, idle


def groups(lane):
    """The stretches of a lane in which something went on, with equal neighbours put together: the first of them, the one after the last,
    their calls, and what happened in the first; in the others nothing did.
    """
    first = 0
    for stretch in range(1, len(lane.calls) + 1):
        if stretch == len(lane.calls) or lane.events[stretch] or lane.calls[stretch] != lane.calls[first]:
            calls = sum(lane.calls[first:stretch], Counter())
            if calls or lane.events[first]:
                yield first, stretch, calls, lane.events[first]
            first = stretch

