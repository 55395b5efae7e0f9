"""How long a build still takes: by what each crate takes from nothing, and by the pace of this machine so far."""
from typing import Dict, Iterable, List

from building.plan import Plan, speed

# So many seconds of work pass before the pace of this machine counts as much as that of the one whose times are written down.
TRUST = 60

# A check that takes longer than it should goes on for this part of the time by which it is late, as far as anyone can tell.
OVERDUE = 0.5


class Forecast:
    """The work that went into each crate so far, in seconds of one processor, and what follows from it."""

    def __init__(self, plan: Plan, kept: Iterable[str]) -> None:
        self.plan = plan
        self.worked: Dict[str, float] = {}
        self.kept, self.ended = set(kept), set()

    def goes_on(self, seconds: float, jobs: Dict[str, int]) -> None:
        """So many seconds passed, in which these checks ran on so many processors each."""
        share = min(1, self.plan.at_once / max(sum(jobs.values()), 1))
        for name, own in jobs.items():
            self.worked[name] = self.worked.get(name, 0) + seconds * speed(own) * share

    def ends(self, name: str) -> None:
        """The check of a crate has ended."""
        self.ended.add(name)

    def pace(self) -> float:
        """How much longer the work takes here than it should: by the checks that have ended, and by those that are late even so."""
        anew = [it for it in self.worked if it not in self.kept]
        so_far = self.pace_of(it for it in anew if it in self.ended)
        return self.pace_of(it for it in anew if it in self.ended or self.worked[it] > so_far * self.plan.times[it])

    def pace_of(self, names: Iterable[str]) -> float:
        """How much longer the work on these crates took than it should."""
        told = list(names)
        return (sum(self.worked[it] for it in told) + TRUST) / (sum(self.plan.times[it] for it in told) + TRUST)

    def work_left(self, name: str, pace: float) -> float:
        """How much of its work a check has left that is running, at this pace."""
        rest = self.plan.times[name] - self.worked.get(name, 0) / pace
        return max(rest, -OVERDUE * rest, 1)

    def seconds_left(self, left: List[str], jobs: Dict[str, int], proved: Iterable[str]) -> float:
        """About how many seconds the rest takes, given the crates that haven't begun, the running checks, and the crates that are proved."""
        pace = self.pace()
        return pace * self.plan.seconds(left, jobs, {it: self.work_left(it, pace) for it in jobs}, proved)
