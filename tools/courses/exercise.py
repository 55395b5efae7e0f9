"""What an exercise is, once its file is read."""
from typing import Dict, List, NamedTuple, Optional, Tuple

from courses.dues import Due
from courses.schedules import Plan


class Rules(NamedTuple):
    """What is taken from a hand-in, the decks of some slots and perhaps the schedule; the marks; the calls of a run; the most words of an image and the most
    orders that a program may obey, if there is such a limit; the orders that a deck has to use and those that it mustn't, by name; the schedules; and the kinds
    of questions that the page has beside it.
    """

    slots: Tuple[int, ...]
    takes_schedule: bool
    marks: int
    calls: int
    words: Optional[int]
    orders: Optional[int]
    uses: Tuple[str, ...]
    avoids: Tuple[str, ...]
    plans: Tuple[Plan, ...]
    questions: Tuple[str, ...] = ()


class Given(NamedTuple):
    """What a case gives: constants of the main part by name, the media of devices by number, and lines CLOCK and SWAP, each with the calls before it."""

    constants: Dict[str, str]
    media: Dict[int, List[str]]
    events: Tuple[Tuple[int, str], ...]


class Case(NamedTuple):
    """A case: its name, the line where it begins, what it gives, what is due, its schedules, and whether students see it."""

    name: str
    line: int
    given: Given
    dues: Tuple[Due, ...]
    plans: Tuple[Plan, ...]
    is_shown: bool


class Wrong(NamedTuple):
    """A wrong solution: what it does, its text, the line where it begins, and the remark that it gets."""

    name: str
    text: str
    line: int
    remark: str


class Exercise(NamedTuple):
    """An exercise: its file, number, name and title; the part that students get; the lines of its starting job; its rules, cases and
    hints; its solution, the line where that begins, what is said of it; the wrong solutions; and the SHA-256 of the word that opens the solution in a page, if
    there is one. What was handed out has no solution.
    """

    path: str
    number: int
    name: str
    title: str
    sheet: str
    job: Tuple[str, ...]
    rules: Rules
    cases: Tuple[Case, ...]
    hints: Tuple[str, ...]
    solution: str = ""
    solution_line: int = 1
    answers: str = ""
    wrong: Tuple[Wrong, ...] = ()
    opens: str = ""

    @property
    def runs(self) -> int:
        """How many runs a hand-in is judged by: each case under each of its schedules."""
        return sum(len(case.plans) for case in self.cases)
