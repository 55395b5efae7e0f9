"""What `save`, `resume` and `check` have to answer, worked out in another way: from the answers of `run` alone.

A text is a list of lines here. The last one has its end, or else the program takes it as if it had. `ask` is called with the text of a job
and answers with the status and the text that `run` has for it.
"""
import re
from typing import NamedTuple

JOURNAL, SEAL, END, ENDJOB = "JOURNAL", "SEAL", "ENDSNAPSHOT", "ENDJOB"
REPORT, CHECK, ENDREPORT = "KDF9 REPORT 1", "KDF9 CHECK", "ENDREPORT"
REFUSED, DECK, DIFFERS = 2, 3, 8

NUMBER = r"(?:0|[1-9][0-9]*)"
# The fields of each entry: the bits of a number, or the names.
FAILURES, KINDS = "LIV|NOUV|OUT|RESET|CLAIM", "TR|TP|CR|LP|MT"
ENTRIES = {
    "RAN": (8, 32), "START": (8, 8, 32), "ANSWER": (8, 64), "TAKE": (8, 8), "GIVE": (8, 8), "FAIL": (8, FAILURES), "ENDED": (8,), "LOV": (8, 16),
    "BUSY": (8, 8), "WAIT": (8, KINDS), "IDLE": (32,), "MOVE": (8, 16), "END": (8,), "CLOCK": (64,), "SWAP": (8, 8),
}


class Answer(NamedTuple):
    """A status, and the lines that are written."""

    status: int
    lines: list


def lines_of(text):
    """The lines of a text. After the last newline there is another one only if it isn't empty."""
    lines = text.split("\n")
    return lines if lines[-1] else lines[:-1]


def text_of(lines):
    """The text of some lines, each with its end."""
    return "".join(line + "\n" for line in lines)


def is_entry(line):
    """Whether a line is an entry as it is printed; its numbers have the ranges of their types, which are wider than what they can be."""
    word, *fields = line.split(" ")
    due = ENTRIES.get(word, ())
    return len(fields) == len(due) > 0 and all(map(is_field, fields, due))


def is_field(field, due):
    """Whether a field has this many bits, or is one of these names."""
    if isinstance(due, str):
        return re.fullmatch(due, field) is not None
    return re.fullmatch(NUMBER, field) is not None and len(field) < 21 and int(field) < 2**due


class ByRun:
    """The other way, by a program's `run`."""

    def __init__(self, ask):
        self._ask = ask

    def run(self, lines):
        """What `run` answers to these lines."""
        status, text = self._ask(text_of(lines))
        return Answer(status, lines_of(text))

    def front(self, lines):
        """The lines of the job at the front of a text, and what `run` answers to them. If the job has a fault, they are all lines.

        `run` finds the first faulty line. That is the one after the front job, where the lines before it are a job without a fault.
        """
        own = self.run(lines)
        if own.status == REFUSED:
            _, name, number = own.lines[0].split(" ")
            front = lines[:int(number) - 1]
            if name == "BadLine" and front[-1:] == [ENDJOB]:
                before = self.run(front)
                if before.status != REFUSED:
                    return front, before
        return lines, own

    def seal(self, front, report):
        """The lines that are sealed for a job with this report: its sections, and the words that aren't zero."""
        sections = report[len(entries_of(report)) + 1:-1]
        shown = self.run(with_all_words(front)).lines
        stores, slot = [], None
        for line in shown[len(entries_of(shown)) + 1:-1]:
            word, _, rest = line.partition(" ")
            if word == "SLOT":
                slot = rest
            elif word == "WORD" and rest.partition(" ")[2].strip("0"):
                stores.append(f"STORE {slot} {rest}")
        return [*sections, *stores]

    def save(self, lines):
        """What `save` answers."""
        ran = self.run(lines)
        if ran.status:
            return ran
        return Answer(0, [*lines, JOURNAL, *entries_of(ran.lines), SEAL, *self.seal(lines, ran.lines), END])

    def resume(self, lines):
        """What `resume` answers."""
        front, ran = self.front(lines)
        if ran.status == REFUSED:
            return ran
        rest, first = lines[len(front):], len(front) + 1
        if rest[:1] != [JOURNAL]:
            return snapshot("NoJournal", first)
        entries = rest[1:rest.index(SEAL)] if SEAL in rest else rest[1:]
        bad = next((at for at, line in enumerate(entries) if not is_entry(line)), len(entries))
        if bad < len(entries) or SEAL not in rest:
            return snapshot("BadEntry", first + 1 + bad)
        sealed_from = len(entries) + 2
        if END not in rest[sealed_from:]:
            return snapshot("NoEnd", first + len(rest))
        end = rest.index(END, sealed_from)
        return self._resume(front, ran, (first, entries, rest[sealed_from:end + 1], rest[end + 1:]))

    def _resume(self, front, ran, parts):
        """What `resume` answers to a snapshot that was split: the number of the line JOURNAL, the entries, what is sealed, and what goes on."""
        first, entries, sealed, more = parts
        joined = [*front[:-1], *more]
        whole = self.run(joined)
        if whole.status == REFUSED:
            _, name, number = whole.lines[0].split(" ")
            return Answer(REFUSED, [f"JOB {name} {first + len(entries) + len(sealed) + 2 + int(number) - len(front)}"])
        if ran.status:
            return ran
        own = entries_of(ran.lines)
        if entries != own:
            return snapshot("JournalDiffers", first + 1 + first_difference(entries, own))
        due = [*self.seal(front, ran.lines), END]
        if sealed != due:
            return snapshot("SealDiffers", first + len(entries) + 2 + first_difference(sealed, due))
        return whole

    def check(self, lines):
        """What `check` answers."""
        front, ran = self.front(lines)
        if ran.status:
            return ran
        return Answer(0, [CHECK, self.verdict(ran.lines, lines[len(front):]), ENDREPORT])

    def verdict(self, report, lines):
        """`YES` or `NO k` on these lines after a job with this report."""
        if lines[:1] != [REPORT]:
            return "NO 0"
        entries, own = entries_of(lines), entries_of(report)
        return "YES" if entries == own else f"NO {first_difference(entries, own) + 1}"


def entries_of(report):
    """The lines of a report after its first one and before its first section."""
    end = next((at for at, line in enumerate(report) if line.startswith("SLOT ")), len(report))
    return report[1:end]


def first_difference(one, other):
    """How many members two lists have in common before the first in which they differ."""
    return next((at for at, (a, b) in enumerate(zip(one, other)) if a != b), min(len(one), len(other)))


def snapshot(name, line):
    """The answer that tells a fault of a snapshot."""
    return Answer(DIFFERS, [f"SNAPSHOT {name} {line}"])


def with_all_words(lines):
    """A job that shows every word of each slot instead of those that this one shows."""
    written, at = [], 0
    while lines[at] != "SCHEDULE":
        end = lines.index("ENDDECK", at) + 1 if lines[at] == "DECK" else at + 1
        if not lines[at].startswith("SHOW "):
            written += lines[at:end]
        if lines[at] == "DECK":
            while lines[end].startswith(("SERVICE", "DEVICE ", "+", "=")):
                written.append(lines[end])
                end += 1
            written.append(f"SHOW 0 {int(lines[at - 1][6:]) - 1}")
        at = end
    return [*written, *lines[at:]]
