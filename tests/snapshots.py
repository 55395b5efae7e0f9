"""Saves jobs at every call and resumes them, changes characters of snapshots, and has changed reports checked. What is due each time is
worked out in another way, from the answers of `run` alone (by_run.py).
"""
import os
import subprocess
import sys
from concurrent.futures import ThreadPoolExecutor

from by_run import CHECK, ENDJOB, ENDREPORT, REPORT, Answer, ByRun, entries_of, lines_of, text_of
from toolkit import ROOT

# Jobs that are saved at every call: with transfers in flight, words that were moved, answers, exchanges, a pool and a service.
SAVED = [
    "examples/adds-cards-while-a-tape-is-copied", "examples/adds-cards", "examples/copies-a-tape-with-its-mark", "examples/two-programs-share-a-punch",
    "examples/waits-until-the-other-fails", "examples/computes-while-it-reads", "examples/lets-a-starved-program-in", "examples/asks-for-the-time",
    "examples/asks-the-service", "examples/fails-with-a-transfer-in-flight", "tests/cases/waits-while-another-is-quicker",
    "tests/cases/moves-three-and-four-of-ten-words", "tests/cases/asks-while-another-fails-after-its-punches",
]

# Jobs whose snapshots are changed, each with how many lines of its schedule come before the snapshot, and in what steps characters are chosen.
CHANGED = [
    ("examples/stops-after-four-orders", 1, 1), ("tests/cases/moves-three-and-four-of-ten-words", 2, 3), ("examples/two-programs-share-a-punch", 3, 7),
    ("examples/asks-the-service", 1, 5), ("examples/adds-cards-while-a-tape-is-copied", 9, 7),
]

# Jobs of more bytes, and reports of more lines, are left out.
MOST_BYTES, MOST_LINES = 500_000, 1_000

# How many of the cases that fail are told.
MOST_SHOWN = 50

# A deck may have any lines.
ODD = """KDF9 JOB 1
SLOT 0
STORE 32
DECK
PROGRAM; (
SCHEDULE
ENDJOB
JOURNAL
SEAL
ENDSNAPSHOT
KDF9 REPORT 1
) ZERO; OUT; FINISH;
ENDDECK
SCHEDULE
ORDERS 2
ENDJOB
"""

# What replaces a character that is changed: a digit or a letter, the one before it.
OTHERS = {"0": "1", "A": "B", "a": "b", " ": "_"}


def program():
    """The program: that of the variable KDF9, or else the one that ./kdf9 starts, which is built first if it has to be."""
    if "KDF9" in os.environ:
        return os.environ["KDF9"]
    subprocess.run([ROOT / "kdf9", "make", "0"], stdout=subprocess.DEVNULL, check=True)
    return ROOT / "crates" / "kdf9" / "out" / "kdf9"


PROGRAM = program()


def ask(command, text):
    """The status and the text that the program answers."""
    done = subprocess.run([PROGRAM, command], input=text.encode("latin-1"), stdout=subprocess.PIPE, check=False)
    return done.returncode, done.stdout.decode("latin-1")


def answer(command, lines):
    """What the program answers to these lines."""
    status, text = ask(command, text_of(lines))
    return Answer(status, lines_of(text))


BY_RUN = ByRun(lambda text: ask("run", text))


def differs(command, lines, due):
    """What is wrong with the answer to these lines, or None."""
    own = answer(command, lines)
    return None if own == due else f"{command} answers {own.status} {brief(own.lines)} in place of {due.status} {brief(due.lines)}"


def brief(lines):
    """A text in a line, or its beginning."""
    return ";".join(lines)[:200]


def job(name):
    """The lines of a job of this folder."""
    return lines_of((ROOT / f"{name}.job").read_text(encoding="latin-1"))


def start_of(lines):
    """The index of the first line of a job's schedule."""
    return len(lines) - lines[::-1].index("SCHEDULE")


def cuts(lines):
    """A job at each of its calls: the job up to there, and the further lines."""
    start, end = start_of(lines), len(lines) - 1
    yield [*lines[:start], ENDJOB], lines[start:]
    for at in range(start, end):
        word, _, number = lines[at].partition(" ")
        calls = int(number) if word == "ORDERS" else 1
        for before in range(1, calls):
            yield [*lines[:at], f"ORDERS {before}", ENDJOB], [f"ORDERS {calls - before}", *lines[at + 1:]]
        yield [*lines[:at + 1], ENDJOB], lines[at + 1:]


def goes_on(front, more, whole):
    """What is wrong with a snapshot of this job, or with the run that goes on from it; or None."""
    saved = answer("save", front)
    due = BY_RUN.save(front)
    if saved != due:
        return f"save answers {saved.status} {brief(saved.lines)} in place of {brief(due.lines)}"
    return differs("resume", [*saved.lines, *more], whole)


def jobs_are_saved_and_resumed():
    """Each job is saved at each of its calls and resumed with the rest: the report is that of the whole run."""
    for name in SAVED:
        lines = job(name)
        whole = answer("run", lines)
        for number, (front, more) in enumerate(cuts(lines)):
            yield f"{name} saved at its call {number}", goes_on, (front, more, whole)


def other(character):
    """Another character than this one."""
    return OTHERS.get(character, chr(ord(character) - 1))


def snapshots_are_changed():
    """A character of a snapshot is changed, and of the lines that go on from it: in every line, and in some at every place. Or a line is dropped
    or doubled.
    """
    for name, events, step in CHANGED:
        lines = job(name)
        start = start_of(lines) + events
        front, more = [*lines[:start], ENDJOB], lines[start:]
        saved = answer("save", front).lines
        sealed = range(len(front), len(saved) - 1)
        whole = [*saved, *more]
        for at, line in enumerate(whole):
            for column in range(at % min(step, len(line) or 1), len(line), step):
                changed = line[:column] + other(line[column]) + line[column + 1:]
                yield f"{name} with {changed} in line {at + 1}", is_told, ([*whole[:at], changed, *whole[at + 1:]], at + 1 if at in sealed else None)
            yield f"{name} without line {at + 1}", is_told, ([*whole[:at], *whole[at + 1:]], None)
            yield f"{name} with line {at + 1} twice", is_told, ([*whole[:at], line, *whole[at:]], None)


def is_told(lines, line):
    """What is wrong with the answer to a snapshot that was changed; or None. No two lines of a journal mean the same, and neither do two of what
    is sealed. So if only one line of those is another, of this number, it is the one that is told.
    """
    due = BY_RUN.resume(lines)
    if line and (due.status, due.lines[0].split(" ")[2:]) != (8, [str(line)]):
        return f"{brief(due.lines)} is due in line {line}"
    return differs("resume", lines, due)


def reports():
    """The jobs of the examples and the cases that have a report, with its lines."""
    for folder in ("examples", "tests/cases"):
        for path in sorted((ROOT / folder).glob("*.args")):
            if path.read_text(encoding="ascii") != "run\n" or path.with_suffix(".status").read_text(encoding="ascii") != "0\n":
                continue
            made = path.with_suffix(".make")
            text = subprocess.run([made], stdout=subprocess.PIPE, check=True).stdout if made.exists() else path.with_suffix(".job").read_bytes()
            report = lines_of(path.with_suffix(".report").read_text(encoding="latin-1"))
            if len(text) <= MOST_BYTES and len(report) <= MOST_LINES:
                yield path.stem, lines_of(text.decode("latin-1")), report


def changes(entries):
    """The entries of a journal with one that is changed, dropped, doubled, or exchanged with the next, and the like; each with what was done."""
    for at, entry in enumerate(entries):
        before, after = entries[:at], entries[at + 1:]
        for column in {entry.index(" ") + 1, len(entry) - 1}:
            yield "changed", [*before, entry[:column] + other(entry[column]) + entry[column + 1:], *after]
        yield "dropped", [*before, *after]
        yield "doubled", [*before, entry, entry, *after]
        if after:
            yield "exchanged", [*before, after[0], entry, *after[1:]]
            yield "as the last", [*before, entry]
        head, _, number = entry.rpartition(" ")
        if head.startswith(("RAN", "IDLE")):
            yield "in two", [*before, f"{head} 1", f"{head} {int(number) - 1}", *after]
        if number.isdecimal():
            yield "beyond 64 bits", [*before, f"{head} {2**64 + int(number)}", *after]
            yield "with a zero in front", [*before, f"{head} 0{number}", *after]


def is_judged(lines, report, entries):
    """What is wrong with the verdict on these entries of a job with this report, or None."""
    own = entries_of(report)
    due = Answer(0, [CHECK, BY_RUN.verdict(report, [REPORT, *entries]), ENDREPORT])
    return differs("check", [*lines, REPORT, *entries, *report[len(own) + 1:]], due)


def reports_are_checked():
    """The recorded report of each example is right. With a change in its entries it isn't, from the first on in which it differs."""
    every = list(reports())
    for (name, lines, report), (another, _, its) in zip(every, [*every[1:], every[0]]):
        yield f"the report of {name}", is_judged, (lines, report, entries_of(report))
        yield f"the report of {another} for {name}", is_judged, (lines, report, entries_of(its))
        for done, entries in changes(entries_of(report)):
            yield f"the report of {name} with an entry {done}", is_judged, (lines, report, entries)


def texts_are_cut():
    """A snapshot and a report after a job whose deck has all the lines that divide them, cut anywhere."""
    front = lines_of(ODD)
    report = answer("run", front).lines
    texts = {"resume": text_of([*answer("save", front).lines, "CLOCK 5", ENDJOB]), "check": text_of([*front, *report])}
    for command, text in texts.items():
        for end in range(0, len(text) + 1):
            yield f"{command} of {text[:end][-20:]!r}", cut_is_told, (command, text[:end])


def cut_is_told(command, text):
    """What is wrong with the answer to a text, of which the last line may lack its end; or None."""
    status, own = ask(command, text)
    due = getattr(BY_RUN, command)(lines_of(text))
    return None if (status, lines_of(own)) == due else f"{status} {own!r} in place of {brief(due.lines)}"


SUITES = (jobs_are_saved_and_resumed, snapshots_are_changed, reports_are_checked, texts_are_cut)


def main():
    cases = [case for suite in SUITES for case in suite()]
    with ThreadPoolExecutor(os.cpu_count()) as pool:
        wrong = list(pool.map(lambda case: case[1](*case[2]), cases))
    faults = [(what, why) for (what, _, _), why in zip(cases, wrong) if why]
    for what, why in faults[:MOST_SHOWN]:
        print(f"snapshots: {what}: {why}")
    print(f"snapshots: {len(cases) - len(faults)} passed, {len(faults)} failed")
    return 1 if faults else 0


if __name__ == "__main__":
    sys.exit(main())
