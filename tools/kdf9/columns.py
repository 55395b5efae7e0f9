"""The columns of a picture, and which calls each of them is. All have the same number of calls, but a long idle stretch is folded into a few."""
from bisect import bisect_right

# An idle stretch of at least FOLDED_FROM calls and 1/FOLDED_PART of the run is folded into 1/FOLDED_INTO of the columns.
FOLDED_FROM, FOLDED_PART, FOLDED_INTO = 100, 5, 24


class Columns:
    """The columns of a run: `starts` has the calls before each of them and, at its end, all calls; `folds` the columns of folded stretches."""

    def __init__(self, total, idle, most):
        """For a number of calls, the idle stretches as pairs of the calls before and their number, and the most columns."""
        folded = [(first, calls) for first, calls in idle if calls >= FOLDED_FROM and FOLDED_PART * calls >= total]
        width = max(2, most // FOLDED_INTO)
        rest = total - sum(calls for _, calls in folded)
        self.total = total
        self.length = max(1, -(-rest // (most - (width + 1) * len(folded))))
        self.starts, self.folds = [0], set()
        for first, calls in folded:
            self._add(first, self.length)
            self.folds.update(range(len(self.starts) - 1, len(self.starts) - 1 + width))
            self._add(first + calls, -(-calls // width))
        self._add(total, self.length)
        if len(self.starts) == 1:
            self.starts.append(0)
        self.number = len(self.starts) - 1

    def _add(self, end, length):
        """Adds columns of this number of calls each up to this call; the last column may have fewer."""
        self.starts.extend(range(self.starts[-1] + length, end, length))
        if self.starts[-1] < end:
            self.starts.append(end)

    def at(self, call):
        """The column of what happens after this number of calls."""
        return min(bisect_right(self.starts, call), self.number) - 1

    def place(self, call):
        """Where in the columns this number of calls has been made, as a fraction."""
        column = self.at(call)
        calls = self.starts[column + 1] - self.starts[column]
        return column + (call - self.starts[column]) / max(1, calls)
