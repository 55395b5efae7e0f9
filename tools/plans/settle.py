"""The run of a job whose transfers take as long as they are to take: its schedule, and the facts of the run.

The machine tells when transfers begin, and how many words they have. A schedule that is right up to some call has a journal that is right up to there (docs/PROOFS.md,
`cut`), so each run shows more of what to write than the one before. What comes after that is guessed from earlier runs; where the guess is right, one run is enough.
"""
from typing import Any, Callable, Dict, List, NamedTuple, Sequence, Tuple

from kdf9.delays import Delays, Transfer
from kdf9.job import Slot, kinds_of_devices
from kdf9.machine import sound_facts
from kdf9.program import BadInput
from kdf9.schedule import MOST_LINES, Schedule, job_with, merged, rounds
from kdf9.timeline import HELD
from plans.foresight import Foresight, Guess
from plans.recall import Memories, Memory
from plans.scene import Scene

TOO_LONG = f"the schedule would have more than {MOST_LINES} lines"

# How many calls are run beyond what is guessed, at first; and how many transfers are guessed after a guess that was wrong at once.
WINDOW, FEWEST = 2048, 8

# The calls of the run that shows what programs do of which nothing is known yet, and those of a round after which it ends all transfers.
LEARNT, ROUND = 65536, 32


class Loaded(NamedTuple):
    """A job without its schedule: the text of the job with a schedule, the memories of its programs by slot, the kinds of the pool's devices by number, and the
    numbers of all devices.
    """

    text: Callable[[Schedule], str]
    memories: Dict[int, Memory]
    pool: Dict[int, str]
    devices: List[int]


def loaded(slots: Dict[int, Slot]) -> Loaded:
    """The job of some slots, of whose programs nothing is known yet."""
    memories, pool = Memories(), next(iter(slots.values())).pool_kinds()
    return Loaded(lambda schedule: job_with(slots, schedule), {slot: memories.of(str(slot)) for slot in slots}, pool, list(kinds_of_devices(slots)))


class Settled(NamedTuple):
    """A job with its schedule, and the facts of its run."""

    job: str
    run: Dict[str, Any]


class Settling(NamedTuple):
    """A run whose transfers all end when they are to end, with its schedule up to some call, and whether all programs are over before that."""

    run: Settled
    schedule: Schedule
    is_over: bool


class Search:
    """The transfers of a job, found by runs that end them as they should. `own` is the schedule that the job has otherwise."""

    def __init__(self, source: str, job: Loaded, own: Schedule, delays: Delays) -> None:
        self._source, self._job, self._delays, self._total = source, job, delays, own.calls
        self._kept = [event for event in own.events if not event.line.startswith(("MOVE ", "END "))]
        self._swaps = [event for event in self._kept if event.line.startswith("SWAP ")]
        self._scene = Scene(job.memories, job.pool)
        self._found: List[Transfer] = []
        self._ends: Dict[Tuple[int, int], int] = {}
        self._events, self._right, self._most, self._window = len(self._kept), 0, MOST_LINES, WINDOW

    def found(self) -> Schedule:
        """The schedule that ends all transfers of the run when they are to end."""
        self._settle()
        return self._with(self._found, self._total)

    def settled(self) -> Settled:
        """The job with that schedule. Where all programs are over before its end, the rest of a schedule changes nothing."""
        last, whole = self._settle(), self._with(self._found, self._total)
        if whole == last.schedule:
            return last.run
        text = self._job.text(whole)
        return last.run._replace(job=text) if last.is_over else run_of(text)

    def _settle(self) -> Settling:
        """Finds all transfers; the last run."""
        if any(memory.is_empty for memory in self._job.memories.values()):
            self._learn()
        while True:
            guess = self._guess()
            until = self._total if guess.calls >= self._total else min(self._total, guess.calls + self._window)
            schedule = self._with(self._found + guess.transfers, until)
            run = run_of(self._job.text(schedule))
            made = run.run["made"]
            if not self._look(self._begun(run), guess, until) or until < self._total:
                self._scene = Scene(self._job.memories, self._job.pool).follow(run.run["entries"], self._right)
            if self._right >= made and (made < until or until == self._total):
                return Settling(run, schedule, made < until)

    def _learn(self) -> None:
        """Learns what the programs do by a run in which all transfers end in rounds."""
        calls = min(self._total, LEARNT)
        run = run_of(self._job.text(merged(self._with([], calls), rounds(ROUND, self._job.devices, 0, calls)))).run
        Scene(self._job.memories, self._job.pool).follow(run["entries"], 0)

    def _guess(self) -> Guess:
        """The transfers that may come next, no more than the schedule has room for."""
        room = MOST_LINES // self._delays.most_lines() - len(self._found)
        return Foresight(self._scene, self._ends, self._delays, self._swaps).guess(self._total, max(0, min(self._most, room)))

    def _look(self, begun: Sequence[Transfer], guess: Guess, until: int) -> bool:
        """Keeps the transfers that began in a run that ended the guessed ones too, as far as it is right, and the calls up to which it is. Returns whether all that
        was guessed is right, so that there is nothing to learn.
        """
        there, guessed = {(each.calls, each.device) for each in begun}, {(each.calls, each.device): each for each in guess.transfers}
        right, hits, before = min([until] + [self._delays.first(each) for place, each in guessed.items() if place not in there]), 0, len(self._found)
        for each in begun:
            if each.calls > right:
                break
            mine = guessed.get((each.calls, each.device))
            self._keep(each)
            hits += mine == each
            if mine != each:
                right = min([right] + [self._delays.first(one) for one in (each, mine) if one])
        is_good = hits == len(guess.transfers)
        self._most = MOST_LINES if is_good else max(FEWEST, 2 * hits)
        self._window = WINDOW if len(self._found) > before else 2 * self._window
        self._right = right
        return is_good and hits == len(self._found) - before

    def _begun(self, run: Settled) -> List[Transfer]:
        """The transfers of a run that weren't found before. Their words don't matter where the time that they take doesn't go by them."""
        new = (each for each in run.run["transfers"] if (each["began"], each["device"]) not in self._ends)
        return [Transfer(each["began"], each["device"], each["words"] if self._delays.goes_by_words(each["device"]) else 0) for each in new]

    def _keep(self, transfer: Transfer) -> None:
        """Keeps a transfer of the run."""
        self._found.append(transfer)
        self._ends[transfer.calls, transfer.device] = self._delays.end(transfer)
        self._events += self._delays.number_of_events(transfer, self._total)
        if self._events > MOST_LINES:
            raise BadInput(f"{self._source}: {TOO_LONG}")

    def _with(self, transfers: Sequence[Transfer], calls: int) -> Schedule:
        """The schedule of this number of calls that ends these transfers, with the clock and the exchanges as in the job."""
        kept = [event for event in self._kept if event.calls < calls]
        return merged(Schedule(calls, kept), (event for transfer in transfers for event in self._delays.events(transfer, calls)))


def run_of(text: str) -> Settled:
    """The run of a job, in whose journal each transfer has its words, and each hold the device that is waited for."""
    run = sound_facts(text)
    transfers = run["transfers"]
    for entry, transfer in zip((each for each in run["entries"] if each["entry"] == "START"), transfers):
        entry["words"] = transfer["words"]
    for entry, hold in zip((each for each in run["entries"] if each["entry"] in HELD), run["holds"]):
        if hold["transfer"] is not None:
            entry["device"] = transfers[hold["transfer"]]["device"]
    return Settled(text, run)
