"""What is said of the outcomes of a job, line by line, and the jobs that show them."""
from typing import Dict, Iterator, List, NamedTuple, Optional, Sequence, Tuple

from kdf9.tables import table
from kdf9.words import count, listed
from outcomes.apart import Apart
from outcomes.found import WAITS, Found, Result, Witness
from outcomes.moments import Circle
from outcomes.runs import Job
from outcomes.search import Limits
from outcomes.witness import Shown

# The sentences, which the page has too.
SAYS = table("outcomes")["says"]

# How many results of a program, joint outcomes and deadlocks are told; and how many lines of a section, events of a schedule and answers.
MOST_TOLD, MOST_LINES, MOST_EVENTS, MOST_ANSWERS = (table("outcomes")[f"most_{what}"] for what in ("told", "lines", "events", "answers"))

# Lines of a section that are told in another way.
TOLD = ("STATE ", "ORDERS ")


class Told(NamedTuple):
    """A line, and the job that shows what it says, with the name of its file, if it says what a run came to."""

    line: str
    name: str = ""
    text: str = ""


class Story:
    """What is told of a job."""

    def __init__(self, job: Job, limits: Limits, found: Found, apart: Optional[Apart]) -> None:
        self._job, self._limits, self._found, self._apart = job, limits, found, apart
        self.shown = Shown(job, found)

    def lines(self) -> Iterator[Told]:
        """All that is told, up to the line that says how whole it is."""
        for slot in self._job.slots:
            yield from self._of_slot(slot)
        yield from self._deadlocks()
        for slot, witness in sorted(self._found.starved.items()):
            text = self.shown.starved(slot, witness)
            yield Told(SAYS["starves"].format(slot=slot, calls=count(witness.calls, "call"), events=said_of_events(witness)), f"slot-{slot}-starves.job", text)
        yield from self._joint()
        yield from map(Told, self._how_whole())

    def _of_slot(self, slot: int) -> Iterator[Told]:
        """The results of a program, and how their sections differ."""
        results = sorted(self._found.results[slot].items(), key=lambda one: (one[1], one[0]))
        asks = self._apart is None or self._apart.alone[slot].asks
        if not results:
            yield Told(SAYS["no_end"].format(slot=slot))
            return
        yield Told(SAYS["several" if asks else "one"].format(slot=slot, results=count(len(results), "result")))
        differing = self._differing(slot, [result for result, _ in results])
        for number, (result, witness) in enumerate(results[:MOST_TOLD], 1):
            text = self.shown.result(slot, result, witness)
            yield Told(self._said(slot, result, differing[result]), f"slot-{slot}-result-{number}.job", text)
        yield from more(len(results))

    def _said(self, slot: int, result: Result, differing: str) -> str:
        """A result in words."""
        orders = next(line[7:] for line in self._found.sections[slot, result] if line.startswith("ORDERS "))
        return SAYS["result"].format(state=result.state, orders=count(int(orders), "order"), answers=said_of_answers(result), differing=differing)

    def _differing(self, slot: int, results: List[Result]) -> Dict[Result, str]:
        """The lines of the section of each result that not all of them have."""
        sections = {result: self._found.sections[slot, result] for result in results}
        common = set.intersection(*map(set, sections.values()))
        said = {}
        for result, section in sections.items():
            own = [line for line in section if line not in common and not line.startswith(TOLD)]
            said[result] = "".join(SAYS["differs"].format(line=line) for line in [*own[:MOST_LINES], *([SAYS["cut"].strip()] if len(own) > MOST_LINES else [])])
        return said

    def _deadlocks(self) -> Iterator[Told]:
        """The deadlocks, the shortest first."""
        deadlocks = sorted(self._found.deadlocks.items(), key=lambda one: one[1])
        for number, (circle, witness) in enumerate(deadlocks[:MOST_TOLD], 1):
            text = self.shown.deadlock(circle, witness)
            said = SAYS["deadlock"].format(calls=count(witness.calls, "call"), events=said_of_events(witness), circle=self._said_of_circle(circle))
            yield Told(said, f"deadlock-{number}.job", text)
        if self._job.pool and not deadlocks:
            which = "no_deadlock_found" if self._found.left else "no_deadlock" if self._found.is_whole else "no_deadlock_within"
            yield Told(SAYS[which].format(calls=self._limits.calls))
        yield from more(len(deadlocks))

    def _said_of_circle(self, circle: Circle) -> str:
        """Who waits for whom, in words."""
        named = {kind: f"{'an' if kind == 'LP' else 'a'} {kind}" for kind in self._job.pool.values()}
        return "; ".join(SAYS["waiting"].format(slot=slot, devices=self._devices(devices), kind=named[kind]) for slot, kind, devices in circle)

    def _devices(self, devices: Tuple[int, ...]) -> str:
        return f"{'device' if len(devices) == 1 else 'devices'} {listed([f'{device} {self._job.pool[device]}' for device in devices])}" if devices else "nothing"

    def _joint(self) -> Iterator[Told]:
        """The joint outcomes of several programs."""
        if len(self._job.slots) == 1:
            return
        number = len(self._found.joint) if self._found.joint_count is None else self._found.joint_count
        yield Told(SAYS["joint"].format(number=number))
        for at, (outcome, witness) in enumerate(sorted(self._found.joint.items(), key=lambda one: (one[1], one[0]))[:MOST_TOLD], 1):
            text = self.shown.joint(outcome, witness)
            said = "; ".join(said_of_end(slot, result) for slot, result in zip(self._job.slots, outcome))
            yield Told(f"  {said}", f"joint-{at}.job", text)
        yield from more(number)

    def _how_whole(self) -> Iterator[str]:
        """What was searched, and what was left out."""
        found = self._found
        each = SAYS["each" if self._apart is None else "each_alone"].format(calls=self._limits.calls)
        what = ["END", *(["CLOCK"] if self._job.times else []), *(["SWAP"] if self._limits.swaps else [])]
        yield SAYS["runs"].format(runs=count(found.runs, "run"), lines=listed(what), each=each, shown=count(self.shown.number, "schedule"))
        which = "not_whole" if found.left else "whole_within" if found.is_cut else "whole"
        yield SAYS[which].format(left=count(found.left, "schedule"), each=each)


def said_of_end(slot: int, result: Result) -> str:
    """The end of a program in a joint outcome."""
    return SAYS["end"].format(slot=slot, state=SAYS["waits"] if result.state == WAITS else result.state, answers=said_of_answers(result))


def said_of_answers(result: Result) -> str:
    """What a program was answered, in words."""
    if not result.answers:
        return ""
    return SAYS["answers"].format(answers=" ".join(map(str, result.answers[:MOST_ANSWERS])) + cut(result.answers, MOST_ANSWERS))


def said_of_events(witness: Witness) -> str:
    """The events of a schedule, in words."""
    said = [SAYS["event"].format(line=line, calls=calls) for calls, line in witness.events[:MOST_EVENTS]]
    return SAYS["events"].format(events=", ".join(said) + cut(witness.events, MOST_EVENTS)) if said else ""


def cut(told: Sequence[object], most: int) -> str:
    """What is said where more was to be told than is."""
    return SAYS["cut"] if len(told) > most else ""


def more(number: int) -> Iterator[Told]:
    """Says that there are more than are told."""
    if number > MOST_TOLD:
        yield Told(SAYS["more"].format(number=number - MOST_TOLD))
