"""What programs did in earlier runs, from which it is guessed what they do next.

A program does the same whenever it was answered the same, whatever the others do (docs/PROOFS.md, two worlds). So what was seen of it once is a good guess for
other schedules. It stays a guess: the machine says what is so, and one that is wrong only costs a run more.
"""
from typing import Dict, Iterable, List, Optional, Set, Tuple, Union

# A device as a program names it in what is remembered: its own by its number; one of the pool by its kind, and which of those that the program has it is.
Name = Union[int, Tuple[str, int]]

# What the last order of a stretch did: START, ANSWER, TAKE, GIVE or OVER, and the device or its kind.
What = Tuple[object, ...]

# A key of what is remembered: something of where a program is.
Key = Tuple[object, ...]


class Stretch:
    """A stretch of the orders of a program, up to one that the journal tells of: how many there are, and what the last one did. `needs` has the transfers that
    were waited for before an order, by how many of the stretch come before it; `words` are those of a transfer; and `busy` are the devices with whose transfers
    a question was answered 1, or None if it isn't answered so.
    """

    __slots__ = ("orders", "what", "needs", "words", "busy", "is_large")

    def __init__(self, orders: int, what: What) -> None:
        self.orders, self.what = orders, what
        self.needs: Dict[int, List[Name]] = {}
        self.words = 0
        self.busy: Optional[Set[Name]] = None
        self.is_large = False

    def answered(self, answer: int, flying: Set[Name]) -> None:
        """Takes an answer that was given while these transfers of the program were in flight."""
        self.is_large = answer > 1
        if answer == 1:
            self.busy = flying if self.busy is None else (self.busy & flying or flying)
        elif answer == 0 and self.busy is not None:
            self.busy = self.busy - flying

    def answer(self, flying: Set[Name]) -> int:
        """The answer to guess while these transfers are in flight; 2 is any that is larger than 1."""
        return 2 if self.is_large else int(bool(flying if self.busy is None else self.busy & flying))


class Memory:
    """The stretches of a program that were seen, by where it was at their beginning."""

    def __init__(self) -> None:
        self._seen: Dict[Key, Stretch] = {}

    @property
    def is_empty(self) -> bool:
        """Whether nothing was seen yet."""
        return not self._seen

    def learn(self, keys: Iterable[Key], orders: int, what: What) -> Iterable[Stretch]:
        """The stretches that are remembered for these keys, after one of so many orders that ended so was seen there."""
        for key in keys:
            stretch = self._seen.get(key)
            if stretch is None or stretch.orders != orders or stretch.what != what:
                stretch = self._seen[key] = Stretch(orders, what)
            yield stretch

    def next(self, keys: Iterable[Key], done: int) -> Optional[Stretch]:
        """The stretch to guess, of which so many orders are obeyed; that of the first key goes before the others. None if nothing like it was seen."""
        for key in keys:
            stretch = self._seen.get(key)
            if stretch is not None and stretch.orders > done:
                return stretch
        return None


class Memories:
    """The memories of programs by the lines of their slots."""

    def __init__(self) -> None:
        self._of: Dict[str, Memory] = {}

    def of(self, lines: str) -> Memory:
        """The memory of the program with these lines."""
        return self._of.setdefault(lines, Memory())
