"""The run of a job, which can be stopped after any call."""
from __future__ import annotations

import functools
from typing import Iterable, List

from kdf9 import told
from kdf9.job import join_lines, read_slots
from kdf9.program import answer_to
from kdf9.report import Section, read_section
from kdf9.schedule import Schedule, cut, cut_before_next, job_with, read_schedule
from kdf9.timeline import call_of_order


class Run:
    """The run of a job of these lines, in which the program found no fault."""

    def __init__(self, lines: List[str]) -> None:
        self.lines, self.slots, self.schedule = lines, read_slots(lines), read_schedule(lines)

    @functools.cached_property
    def facts(self) -> told.Run:
        """The facts of the whole run."""
        return told.told_in(join_lines(self.lines), "run")

    def text(self, schedule: Schedule, shown: Iterable[int] = ()) -> str:
        """The report of the run by this schedule, with the whole stores of the slots that are shown."""
        return answer_to(["run"], job_with(self.slots, schedule, shown))

    def after(self, number: int, calls: int, shown: bool = True) -> Section:
        """The section of a slot after this number of calls, with its whole store or without."""
        return read_section(self.text(cut(self.schedule, calls), [number] if shown else []), number)

    def before_next(self, number: int, calls: int) -> Section:
        """The section of a slot after this number of calls and the events before the next call, with its whole store."""
        return read_section(self.text(cut_before_next(self.schedule, calls), [number]), number)

    def after_order(self, number: int, order: int) -> Section:
        """The section of a slot after this order of its program, without its store."""
        return self.after(number, call_of_order(self.facts, number, order), shown=False)
