"""The schedule of a job over time: how many calls come before each of its lines; and the same job with another schedule."""
from typing import NamedTuple

from kdf9.job import job_text
from kdf9.tables import table

MOST_LINES = table("job")["most"]["lines_of_schedule"]


class Event(NamedTuple):
    """A line of a schedule other than ORDERS, and the number of calls before it."""

    calls: int
    line: str


class Schedule(NamedTuple):
    """A number of calls, and the events between them, in sequence."""

    calls: int
    events: list


def start_of(lines):
    """The index of the line SCHEDULE. A deck may have such a line too; no line after the schedule's first is one."""
    return len(lines) - 1 - lines[::-1].index("SCHEDULE")


def read_schedule(lines):
    """The schedule of a job of these lines."""
    calls, events = 0, []
    for line in lines[start_of(lines) + 1:-1]:
        if line.startswith("ORDERS "):
            calls += int(line[7:])
        else:
            events.append(Event(calls, line))
    return Schedule(calls, events)


def lines_of_schedule(schedule):
    """The lines of a schedule, which come between SCHEDULE and ENDJOB."""
    lines, calls = [], 0
    for event in schedule.events:
        if event.calls > calls:
            lines.append(f"ORDERS {event.calls - calls}")
            calls = event.calls
        lines.append(event.line)
    if schedule.calls > calls:
        lines.append(f"ORDERS {schedule.calls - calls}")
    return lines


def cut(schedule, calls):
    """The schedule up to this call, without anything after it."""
    return Schedule(calls, [event for event in schedule.events if event.calls < calls])


def cut_before_next(schedule, calls):
    """The schedule up to this call, and the events before the next call."""
    return Schedule(calls, [event for event in schedule.events if event.calls <= calls])


def merged(schedule, events):
    """A schedule with more events. At the same moment its own come first."""
    return Schedule(schedule.calls, sorted([*schedule.events, *events], key=lambda event: event.calls))


def rounds(length, devices, start, calls):
    """The ends of the transfers of these devices after each so many calls, from a start on and before this number of calls."""
    return [Event(at, f"END {device}") for at in range(start + length, calls, length) for device in devices]


def job_with(slots, schedule, shown=()):
    """The text of a job of these slots and this schedule that shows the whole stores of the slots whose numbers are `shown`."""
    return job_text(slots.values(), lines_of_schedule(schedule), shown)
