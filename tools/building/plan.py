"""In which order crates are proved, by how many processors each, and how long that takes."""

# How many processors can share one crate.
MOST_JOBS = 4

# A crate that takes this many seconds or more is long.
LONG = 60


class Plan:
    """In which order the crates are proved, by how many processors each, and how long that takes by what each takes by one processor."""

    def __init__(self, crates, times, at_once):
        self.crates, self.times, self.at_once = crates, times, at_once
        self.chains = {}
        for name in reversed(crates):
            self.chains[name] = times[name] + max((self.chains[it] for it in self.chains if name in crates[it]), default=0)

    def in_order(self):
        """The crates in the sequence in which they are begun once they can be: first those with the longest chain above them."""
        return sorted(self.crates, key=lambda it: -self.chains[it])

    def begins(self, left, jobs, proved):
        """The checks that can begin beside those that are running, each with its processors. Where few can, each has several; and one that is long,
        and for which all wait in the end, has all but one, even if others share these.
        """
        ready = [it for it in left if proved.issuperset(self.crates[it])]
        begun = {}
        for at, name in enumerate(ready):
            running = {**jobs, **begun}
            idle = self.at_once - sum(running.values())
            if idle < 1:
                break
            own = max(idle // (len(ready) - at), 1)
            if self.times[name] >= LONG and all(self.chains[name] >= self.chains[it] for it in running):
                own = max(own, self.at_once - 1)
            begun[name] = min(own, MOST_JOBS)
        return begun

    def seconds(self, left, jobs, works, proved):
        """How long the rest takes, given the running checks and the seconds of work that each has left."""
        left, jobs, works, proved = list(left), dict(jobs), dict(works), set(proved)
        seconds = 0
        while left or jobs:
            for name, own in self.begins(left, jobs, proved).items():
                left.remove(name)
                jobs[name], works[name] = own, self.times[name]
            share = min(1, self.at_once / sum(jobs.values()))
            step, first = min((works[it] / speed(jobs[it]) / share, it) for it in jobs)
            seconds += step
            works = {it: works[it] - step * speed(jobs[it]) * share for it in jobs}
            del jobs[first]
            proved.add(first)
        return seconds


def speed(jobs):
    """How much faster this number of processors proves a crate than one does."""
    return jobs ** 0.75
