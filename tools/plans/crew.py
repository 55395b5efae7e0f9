"""Makes the rows of a plan: in this process, or in several that share the work."""
import gc
import multiprocessing
import multiprocessing.connection
import os
from array import array
from typing import Callable, Dict, Iterator, List, Sequence

from kdf9.machine import processors
from kdf9.measures import by_name
from kdf9.program import BadInput
from kdf9.spent import facts_of
from plans.plan import Plan, Run, Source, checksum
from plans.rows import There
from plans.variant import Variants

STOPPED = "a process of the study was stopped from outside; start it again, and it goes on where it was"


class Maker:
    """Makes rows from what a plan's jobs are made from; each has these measures, or all if there are none."""

    def __init__(self, source: Source, measures: Sequence[str]) -> None:
        self._variants, self._measures = Variants(source), measures

    def row(self, run: Run) -> dict:
        """The row of a run: its number and its values, the checksum of its job, and its measures, or its fault."""
        row: Dict[str, object] = {"run": run.number, **run.values}
        try:
            settled = self._variants.settled(run)
            row["job"] = checksum(settled.job)
            told = by_name(facts_of(settled.run))
            return {**row, "fault": "", **{name: told.get(name, "") for name in self._measures or told}}
        except BadInput as why:
            return {**row, "fault": str(why)}


def rows_of(plan: Plan, todo: Sequence[int], let_go: Callable[[], None]) -> Iterator[dict]:
    """The rows of the runs of these numbers, as they come. `let_go` gives up what is this process's own, in another that has inherited it."""
    gc.enable()
    maker, workers = Maker(plan.source, plan.measures), min(processors(), len(todo))
    if workers > 1 and "fork" in multiprocessing.get_all_start_methods():
        yield from shared(plan, maker, todo, workers, let_go)
    else:
        yield from (maker.row(plan.run(number)) for number in todo)


def shared(plan: Plan, maker: Maker, todo: Sequence[int], number: int, let_go: Callable[[], None]) -> Iterator[dict]:
    """The rows of these runs, made by so many processes. If this one is stopped, the others end with their next row: nobody reads it any more."""
    context = multiprocessing.get_context("fork")
    taken, ends, workers = context.Value("q", 0), [], []
    for _ in range(number):
        mine, other = context.Pipe(duplex=False)
        ends.append(mine)
        workers.append(context.Process(target=work, args=(plan, maker, todo, taken, [let_go, *(end.close for end in ends)], other), daemon=True))
        workers[-1].start()
        other.close()
    left = len(todo)
    while ends:
        for end in multiprocessing.connection.wait(ends):
            try:
                yield end.recv()  # type: ignore[union-attr]
                left -= 1
            except EOFError:
                ends.remove(end)
    for worker in workers:
        worker.join()
    if left:
        raise BadInput(STOPPED)


def work(plan: Plan, maker: Maker, todo: Sequence[int], taken, lets_go: Sequence[Callable[[], None]], end) -> None:
    """Makes rows in a process of its own, and hands them over, until all runs are taken."""
    for let_go in lets_go:
        let_go()
    try:
        while True:
            with taken.get_lock():
                at, taken.value = taken.value, taken.value + 1
            if at >= len(todo):
                return
            end.send(maker.row(plan.run(todo[at])))
    except (BrokenPipeError, ConnectionResetError):
        os._exit(1)


def numbers_left(plan: Plan, there: There, which: int, parts: int) -> "array[int]":
    """The numbers of the runs of a part that have no rows yet."""
    return array("q", (number for number in range(which, len(plan) + 1, parts) if not there.has(number)))


def in_batches(numbers: Sequence[int], most: int) -> Iterator[List[int]]:
    """Numbers, at most so many at a time."""
    return (list(numbers[at:at + most]) for at in range(0, len(numbers), most))
