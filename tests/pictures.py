"""Tries the tool picture: what it counts agrees with the report, and each sign is where it should be."""
import collections
import re
import xml.etree.ElementTree

from toolkit import ROOT, example_report, kdf9

# A report of 60 calls: MOVEs of a transfer and of none, and the clock, twice at once.
MOVES = """KDF9 REPORT 1
RAN 0 8
START 0 3 8
BUSY 0 3
IDLE 19
MOVE 3 2
IDLE 9
MOVE 3 7
MOVE 3 4096
CLOCK 5
CLOCK 6
IDLE 9
END 3
MOVE 3 1
MOVE 4 1
RAN 0 14
SLOT 0
STATE LIVE
ORDERS 22
DEVICE 3 TR HELD PLACE 0 FLAG 0
ENDREPORT
"""

# The titles and the rows that its pictures have to have.
MOVES_TITLES = [
    "device 3 TR, call 29: up to 2 words moved by 1 MOVE", "device 3 TR, call 38: up to 4103 words moved by 2 MOVEs",
    "call 38: the clock was set to 5, and then up to 6", "slot 0, calls 9 to 46: held up for 38 calls by device 3 TR, which has a transfer",
]
MOVES_ROWS = [
    ("device 3 TR", "        " + "0" * 20 + "m" + "0" * 8 + "m" + "0" * 8 + " " * 14, "1 transfer, 3 MOVEs"),
    ("clock", " " * 37 + "c" + " " * 22, "set 2 times"),
]

# A report of 60 calls with exchanges of priorities: one at a time, two at once, and with an absent slot.
EXCHANGES = """KDF9 REPORT 1
RAN 0 10
SWAP 0 1
RAN 1 20
SWAP 1 0
SWAP 0 3
RAN 1 10
RAN 0 19
SWAP 2 2
RAN 0 1
SLOT 0
STATE LIVE
ORDERS 30
SLOT 1
STATE LIVE
ORDERS 30
ENDREPORT
"""
EXCHANGES_TITLES = [
    "call 11: SWAP 0 1; priorities, highest first: 1, 0",
    "call 31: SWAP 1 0 to SWAP 0 3; priorities, highest first: 1, 0",
    "call 60: SWAP 2 2; priorities, highest first: 1, 0",
]
EXCHANGES_ROW = f"\npriorities  |{'x':>11}{'x':>20}{'x':>29}| 4 exchanges, at the end 1, 0\n"

# The titles and the rows that the pictures of two programs with one punch of the pool have to have.
SHARED_TITLES = [
    "device 9 TP (pool), calls 7 to 43: lent to slot 0 for 37 calls", "device 9 TP (pool), calls 47 to 69: lent to slot 1 for 23 calls",
    "device 9 TP (pool), calls 51 to 68: a transfer for slot 1 during 18 calls; 1 transfer begun",
    "slot 1, calls 17 to 43: held up for 27 calls by the pool, whose devices of kind TP all have holders",
]
SHARED_ROWS = [
    ("slot 1", "." * 11 + "#" * 5 + "w" * 27 + ".." + "#" * 7 + "=" * 16 + "##E", "ENDED, 15 orders, held up 43, ready 13"),
    ("device 9 TP", " " * 10 + "0" * 16 + " " + "0" * 15 + " " * 8 + "1" * 18 + " " * 3, "3 transfers, lent 2 times"),
    ("pool 9 TP", " " * 6 + "0" * 37 + " " * 3 + "1" * 23 + " " * 2, "lent 2 times"),
]

# Here slot 1 waits for the punch, and goes on waiting when slot 0 is quicker to take it: the journal has no second WAIT.
QUICKER = "tests/cases/waits-while-another-is-quicker.report"
QUICKER_ROW = ("slot 1", "." * 10 + "###" + "w" * 12 + "." + "w" * 14 + "#" * 6 + "=" * 8 + "E", "ENDED, 10 orders, held up 34, ready 11")

# What a picture counts: the entries of a report for it, and the titles of what is drawn.
COUNTS = [
    ("orders", r"^RAN (?P<key>\d) (?P<number>\d+)$", r"^slot (?P<key>\d),.*obeyed (?P<number>\d+) order"),
    ("transfers", r"^START \d (?P<key>\d+) \d+$", r"^device (?P<key>\d+) .*?(?P<number>\d+) transfers? begun"),
    ("idle calls", r"^IDLE (?P<number>\d+)$", r": (?P<number>\d+) calls? idle"),
    ("failures", r"^FAIL (?P<key>\d) \w+$", r"^slot (?P<key>\d) failed at call \d+: \w+$"),
    ("ends", r"^ENDED (?P<key>\d)$", r"^slot (?P<key>\d) ended at call \d+$"),
]


def picture_is_wrong(report):
    """What is wrong with the pictures of a report: what they count is counted in the report; or None."""
    run, text = kdf9(["picture"], report), kdf9(["picture", "--text"], report)
    if run.status or run.err or text.status or text.err:
        return run.err + text.err
    titles = "\n".join(titles_of(run.out))
    for what, entry, title in COUNTS:
        due, seen = tally(entry, report), tally(title, titles)
        if due != seen:
            return f"{what}: {seen} in place of {due}"
    for slot, state, orders in re.findall(r"^SLOT (\d)\nSTATE (.*)\nORDERS (\d+)$", report, re.MULTILINE):
        if not re.search(rf"^slot {slot} .*\| {state}, {orders} orders?, held up \d+, ready \d+$", text.out, re.MULTILINE):
            return f"the text doesn't show slot {slot}: {text.out}"
    return None


def titles_of(picture):
    """The titles of a picture, in order."""
    return [title.text for title in xml.etree.ElementTree.fromstring(picture).iter("{http://www.w3.org/2000/svg}title")]


def idle_stretches_are_folded():
    report = "KDF9 REPORT 1\nRAN 0 20\nSTART 0 3 20\nBUSY 0 3\nIDLE 1000\nEND 3\nRAN 0 9\n" + MOVES[MOVES.index("SLOT 0"):]
    titles, text = titles_of(kdf9(["picture"], report).out), kdf9(["picture", "--text"], report).out
    yield "a folded stretch in a picture", None if "calls 22 to 1021: 1000 calls, folded" in titles else f"isn't in {titles}"
    due = "\nidle        |" + " " * 21 + "~~~" + " " * 9 + "| 1000 calls\n"
    yield "a folded stretch in a row", None if due in text and "a column is 1 call, ~ folded\n" in text else f"isn't in {text}"
    for answer, status in (("JOB BadLine 3\n", 2), ("DECK 0 NoFinish 0\n", 3), ("LARGE 4194304\n", 4), ("SNAPSHOT NoEnd 27\n", 8)):
        runs = [kdf9(words, answer) for words in (["picture"], ["picture", "--text"], ["json"])]
        yield f"no picture of {answer!r}", None if all(run == (status, "", answer) for run in runs) else f"{runs}"


def moves_and_clock_are_drawn():
    titles, text = titles_of(kdf9(["picture"], MOVES).out), kdf9(["picture", "--text"], MOVES).out
    for title in MOVES_TITLES:
        yield f"a picture with the title {title}", None if titles.count(title) == 1 else f"has {titles}"
    yield "a MOVE of no transfer isn't drawn", None if sum("moved by" in title for title in titles) == 2 else f"is in {titles}"
    for before, row, after in MOVES_ROWS:
        yield f"a picture's row of {before}", None if f"\n{before:<12}|{row}| {after}\n" in text else f"isn't in {text}"
    often = MOVES.replace("MOVE 3 2\n", "MOVE 3 1\n" * 200)
    run, row = kdf9(["picture"], often), "        " + "0" * 38 + " " * 14
    yield "many MOVEs in a title", None if "call 29: up to 200 words moved by 200 MOVEs" in run.out else "are missing"
    yield "many MOVEs in a row", None if f"|{row}| 1 transfer, 202 MOVEs" in kdf9(["picture", "--text"], often).out else "are drawn"


def exchanges_are_drawn():
    titles, text = titles_of(kdf9(["picture"], EXCHANGES).out), kdf9(["picture", "--text"], EXCHANGES).out
    for title in EXCHANGES_TITLES:
        yield f"a picture with the title {title}", None if titles.count(title) == 1 else f"has {titles}"
    yield "a picture's row of priorities", None if EXCHANGES_ROW in text else f"isn't in {text}"
    yield "a picture without exchanges", None if "priorities" not in kdf9(["picture"], MOVES).out else "has a row of them"


def lendings_are_drawn():
    report = example_report("two-programs-share-a-punch")
    titles, text = titles_of(kdf9(["picture"], report).out), kdf9(["picture", "--text"], report).out
    for title in SHARED_TITLES:
        yield f"a picture with the title {title}", None if titles.count(title) == 1 else f"has {titles}"
    for row in SHARED_ROWS:
        yield f"a picture's row of {row[0]} with a pool", row_is_missing(row, text)
    quicker = kdf9(["picture", "--text"], (ROOT / QUICKER).read_text(encoding="latin-1")).out
    yield "a picture's row of a program that waits on", row_is_missing(QUICKER_ROW, quicker)
    yield "a picture without a pool", None if "pool" not in kdf9(["picture"], MOVES).out else "has one"


def row_is_missing(row, text):
    """What is wrong with a picture for a terminal that has to have this row: its name, its characters, and what follows; or None."""
    before, characters, after = row
    return None if f"\n{before:<12}|{characters}| {after}\n" in text else f"isn't in {text}"


def tally(pattern, text):
    """The numbers that a pattern finds, added by their keys; where there is no number, each counts as one."""
    found = collections.Counter()
    for match in re.finditer(pattern, text, re.MULTILINE):
        parts = match.groupdict()
        found[parts.get("key")] += int(parts.get("number", 1))
    return found


SUITES = (idle_stretches_are_folded, moves_and_clock_are_drawn, exchanges_are_drawn, lendings_are_drawn)
