"""Tries the launcher and the tools: each fault of decks and of jobs, failed programs, hints, every example, bad input, and the largest texts."""
import json
import os
import re
import subprocess
import sys
import tempfile
from concurrent.futures import ThreadPoolExecutor

from builds import SUITES as BUILDS
from commands import SUITES as COMMANDS
from launcher import launcher_starts
from pictures import SUITES as PICTURES
from pictures import picture_is_wrong
from runs import SUITES as RUNS
from saved import SUITES as SAVED
from slips import SUITES as SLIPS
from statuses import SUITES as STATUSES
from stops import SUITES as STOPS
from toolkit import ENVIRONMENT, HEAD, PLAIN, ROOT, TAIL, document, example_report, examples, job_of_deck, kdf9, refused

# The name of a deck's fault, the deck, the line and the column in it, and how the sentence on the fault begins. The store has 32 words.
DECK_FAULTS = [
    ("BadByte", "PROGRAM;\n  ZERO;\t OUT;\nFINISH;", 2, 8, "This byte can't occur in a deck"),
    ("CommentOpen", "PROGRAM;\n ZERO; (adds\nFINISH;", 2, 8, "A `(` has no `)` after it."),
    ("NoSemicolon", "PROGRAM;\n  ZERO;\nFINISH", 3, 1, "There is text after the last `;`."),
    ("UnknownOrder", "PROGRAM; SET 5;\n(add) ADD; FINISH;", 2, 7, "This isn't a Usercode statement."),
    ("Floating", "PROGRAM;\n ZERO;\n +F; FINISH;", 3, 2, "This is a floating-point order of the KDF9"),
    ("BadNumber", "PROGRAM;\nSET 5; SET 40000;\nFINISH;", 2, 8, "A number is out of range, other than those of faults 7 and 8."),
    ("QRange", "PROGRAM;\n\n   Q16; FINISH;", 3, 4, "The number of a Q-store is above 15."),
    ("ConstantRange", "PROGRAM V1; V0 = 1;\nV1 = 140737488355328; FINISH;", 2, 1, "A constant is out of range, or has more than 8 characters."),
    ("BadHeading", "PROGRAM V0;\nZERO;\n V0=1; FINISH;", 3, 2, "The statement isn't allowed here: it is out of sequence"),
    ("NoFinish", "PROGRAM;\nZERO;", 3, 1, "There is no `FINISH`."),
    ("AfterFinish", "PROGRAM; ZERO;\nFINISH; ZERO;", 2, 9, "There is text after `FINISH`."),
    ("ReferenceTwice", "PROGRAM; 1; J1;\n  1; FINISH;", 2, 3, "This part already has this reference."),
    ("ReferenceMissing", "PROGRAM; 1;\n    J2; FINISH;", 2, 5, "The part that the target names doesn't have this reference."),
    ("PartTwice", "PROGRAM;\nP1; ZERO;\nP1; ZERO; FINISH;", 3, 1, "An earlier part has this number."),
    ("PartMissing", "PROGRAM;\n ZERO; JSP3; FINISH;", 2, 8, "A jump or a store names a part that the deck doesn't have."),
    ("VRange", "PROGRAM V1;\n  V2; FINISH;", 2, 3, "The part doesn't declare this V-store"),
    ("YRange", "Y1; PROGRAM;\nY0; YB0; FINISH;", 2, 5, "The deck doesn't declare this Y-store."),
    ("ShortLoopFar", "PROGRAM; 1;\nDC1; J1C1NZS; FINISH;", 2, 6, "Reference r of `JrCqNZS` isn't at the beginning of the word before its own."),
    ("TooLarge", "Y99;\nPROGRAM; FINISH;", 3, 1, "The image has more words than the store."),
]

# The most words of all programs together.
MOST_WORDS = json.loads((ROOT / "tables" / "job.json").read_text(encoding="utf-8"))["most"]["words"]

# The name of a job's fault, the job, the line and the column, and how the sentence on the fault begins.
JOB_FAULTS = [
    ("BadLine", HEAD + "PRINT 3\n" + TAIL, 7, 1, "this line isn't allowed here"),
    ("BadNumber", HEAD + "SCHEDULE\nMOVE 3 4097\nENDJOB\n", 8, 8, "a field that should be a number isn't one, or is out of range"),
    ("SlotOrder", HEAD + HEAD[11:] + TAIL, 7, 6, "the slot isn't higher than the slot before it"),
    ("SizeNotGroups", HEAD.replace("64", "65") + TAIL, 3, 7, "the store isn't a multiple of 32"),
    (
        "StoreFull", "KDF9 JOB 1\n" + "".join(HEAD[11:].replace("SLOT 0", f"SLOT {slot}").replace("64", "8192") for slot in range(4)) + TAIL,
        18, 7, f"the stores so far add up to more than {MOST_WORDS} words",
    ),
    ("DeviceTwice", HEAD + "DEVICE 3 TR\nDEVICE 3 TP\n" + TAIL, 8, 8, "an earlier device of the job has this number"),
    ("BadLabel", HEAD + "DEVICE 3 MT a\n" + TAIL, 7, 13, "the label isn't 1 to 8 characters of A to Z and 0 to 9"),
    ("LabelTwice", HEAD + "DEVICE 3 MT A\nDEVICE 4 MT A\n" + TAIL, 8, 13, "the slot already has a tape with this label"),
    ("BadMedium", HEAD + "DEVICE 3 TR\n+AB&D\n" + TAIL, 8, 4, "a byte isn't a character, the line is too long for its kind"),
    ("ShowRange", HEAD + "SHOW 3 2\n" + TAIL, 7, 6, "the first address is above the last"),
    ("ClockFalls", HEAD + "SCHEDULE\nCLOCK 10\nCLOCK 9\nENDJOB\n", 9, 7, "the time is earlier than the one before it"),
    ("TooManyOrders", HEAD + "SCHEDULE\nORDERS 20000000\nORDERS 1\nENDJOB\n", 9, 8, "the `ORDERS` lines so far add up to more than 20000000"),
    ("TooManyEvents", HEAD + "SCHEDULE\n" + "END 1\n" * 500001 + "ENDJOB\n", 500008, 1, "this is line 500,001 of the schedule"),
    ("PoolKind", HEAD + "POOL\nDEVICE 9 TR\n" + TAIL, 8, 10, "a device of the pool is neither a punch nor a printer"),
]

# Texts that aren't jobs, where the fault is, the text there, and what follows the sentence on the fault.
NO_JOBS = [
    (HEAD.replace("JOB 1", "JOB 2") + TAIL, "1:10", "KDF9 JOB 2", ""), ("", "1:1", "the job ends here", ""), ("no job\n", "1:1", "no job", ""),
    (" " + HEAD + TAIL, "1:1", " KDF9 JOB 1", ""), ("\x00" * 5000000, "1:1", "?" * 57 + "...", ""),
    ((HEAD + TAIL).replace("\n", "\r\n"), "1:11", "KDF9 JOB 1?", "; the line has a byte 13"),
]

# Where in a medium a job is wrong: its devices, and the line and the column.
MEDIA = [
    ("DEVICE 3 CR\n+" + "A" * 81 + "\n", 8, 82), ("DEVICE 3 MT A\n+\n", 8, 1), ("DEVICE 3 TR\n=A\n", 8, 1), ("DEVICE 3 LP\n+A\n", 8, 1),
    ("DEVICE 3 MT A\n=A\n+b\n", 9, 2), ("POOL\nDEVICE 3 LP\n+A\n", 9, 1), ("POOL\n+A\n", 8, 1),
]

# Where a line of an exchange is wrong: its fault and its column.
EXCHANGE_FAULTS = [("SWAP 0 4", "BadNumber", 8), ("SWAP 4 0", "BadNumber", 6), ("SWAP 0", "BadLine", 1), ("SWAP 0 1 2", "BadLine", 1)]

# A deck, and a part of the hint.
HINTS = [
    ("PROGRAM; zero; OUT; FINISH;", "write ZERO"),
    ("PROGRAM V0; V0=Pabc; FINISH;", "write V0=PABC"),
    ("PROGRAM; SET 5; SET 7\n+; ZERO; OUT; FINISH;", "a ; is missing at 5:22, after SET 7"),
    ("PROGRAM; ZERO (nothing) OUT; FINISH;", "a ; is missing at 5:14, after ZERO"),
    ("PROGRAM; ZERO;\r\nFINISH;", "byte 13"),
    ("PROGRAM;\tZERO; FINISH;", "this is a tab"),
    ("PROGRAM; SET 1; SET 1; DIV; FINISH;", "DIVI divides"),
    ("PROGRAM V1; V0 = PDIVIDEND V1 = 17; FINISH;", "a ; is missing at 5:27, after V0 = PDIVIDEND"),
    ("PROGRAM V0 SET 5; FINISH;", "a ; is missing at 5:11, after PROGRAM V0"),
    ("PROGRAM; SET 5; =K1; FINISH;", "it belongs to Director"),
    ("PROGRAM; W0; FINISH;", "use V-stores and Y-stores"),
    ("PROGRAM; ZERO; FINISH", "a ; is missing at 5:22"),
]

# What is wrong in the text of a job, and a part of the hint.
JOB_HINTS = [
    ((HEAD + TAIL).replace("ORDERS 10\n", "ORDERS 10\r\n"), "byte 13"),
    ((HEAD + TAIL).replace("SLOT", "slot"), "write SLOT 0\n"),
    (HEAD + "DEVICE 3 tr\n" + TAIL, "write DEVICE 3 TR\n"),
    (HEAD + "Device 3 " + "tr" * 9999 + TAIL, "write DEVICE 3 " + "TR" * 24 + "...\n"),
    ((HEAD + TAIL).replace("ORDERS 10", "swap 0 1"), "write SWAP 0 1\n"),
    ((HEAD + TAIL).replace("ORDERS 10", "ORDERS  10"), "exactly one space"),
    ((HEAD + TAIL).replace("ORDERS 10", "ORDERS 010"), "no leading zeros"),
    ((HEAD + TAIL).replace("ENDDECK\n", ""), "ENDDECK is missing"),
    ((HEAD + TAIL).replace("ENDJOB\n", ""), "ENDJOB is missing"),
    (HEAD + "DEVICE 3 TR\n+ab\n" + TAIL, "lowercase letters aren't characters"),
    (HEAD + "POOL\nDEVICE 9 TR\n" + TAIL, "the pool has punches and printers; a device of kind TR belongs to a slot, and comes before POOL"),
    (HEAD + "POOL\nPOOL\n" + TAIL, "the job already has a line POOL"),
    (HEAD + "POOL\n" + HEAD[11:] + TAIL, "POOL comes after the last slot and all its lines"),
    (HEAD + "POOL\nSHOW 0 0\n" + TAIL, "POOL comes after the last slot and all its lines"),
    (HEAD.replace("SLOT", "POOL\nSLOT") + TAIL, "POOL comes once, after the last slot and before SCHEDULE"),
    ((HEAD + TAIL).replace("ORDERS 10", "POOL"), "POOL comes once, after the last slot and before SCHEDULE"),
    (HEAD + "POOL 9\n" + TAIL, "the form of this line is POOL, with nothing after it"),
    (HEAD + "POOL\nDEVICE 9\n" + TAIL, "the form of this line is DEVICE d TP, or DEVICE d LP"),
    (HEAD + "POOL\n+A\n" + TAIL, "the devices of the pool begin empty, so they have no lines"),
    (HEAD + "POOL\nDEVICE 9 TP\nORDERS 9\n" + TAIL, "expected DEVICE or SCHEDULE"),
    (HEAD + "SERVICE\nSERVICE\n" + TAIL, "the slot already has a line SERVICE"),
    (HEAD + "SHOW 0 0\nSERVICE\n" + TAIL, "SERVICE comes once in a slot, directly after ENDDECK"),
    (HEAD + "SERVICE\nDEVICE 3 TP\nSERVICE\n" + TAIL, "SERVICE comes once in a slot, directly after ENDDECK"),
    (HEAD.replace("DECK\nPROGRAM", "SERVICE\nDECK\nPROGRAM") + TAIL, "SERVICE comes once in a slot, directly after ENDDECK"),
    (HEAD + "POOL\nSERVICE\n" + TAIL, "SERVICE comes once in a slot, directly after ENDDECK"),
    ((HEAD + TAIL).replace("ORDERS 10", "SERVICE"), "SERVICE comes once in a slot, directly after ENDDECK"),
    (HEAD + "SERVICE 1\n" + TAIL, "the form of this line is SERVICE, with nothing after it"),
    (HEAD + "SERVISE\n" + TAIL, "did you mean SERVICE?"),
    (HEAD + "Service\n" + TAIL, "write SERVICE\n"),
    (HEAD + "PRINT\n" + TAIL, "expected SERVICE, DEVICE, SHOW, SLOT, POOL or SCHEDULE"),
    (HEAD + "SERVICE\nPRINT\n" + TAIL, "expected DEVICE, SHOW, SLOT, POOL or SCHEDULE"),
]

# How a program fails, its deck, the line and the column of the failing order in the deck, and a part of what is said of it.
FAILURES = [
    ("LIV", "PROGRAM;\n ZERO; (to nowhere)\n =E9999; FINISH;", 3, 2, "LIV: its address is 9999; the store has words 0 to 31"),
    ("NOUV", "PROGRAM; SET 5;\n   +; FINISH;", 2, 4, "the nest has 1 word, which is too few for +"),
    ("OUT", "PROGRAM;\nSET 7; OUT;\nFINISH;", 2, 8, "OUT 7 isn't one of 0, 3, 4, 5, 6, 8 and 9"),
    ("RESET", "PROGRAM; SET -1;\n=LINK; EXIT; FINISH;", 2, 8, "the link is 8191/7, but a word has syllables 0 to 5"),
    ("CLAIM", "PROGRAM;\nZERO; =Q1;\n    PRQ1; FINISH;", 3, 5, "Q1 is 0/0/0, and its counter names device 0; the slot has no devices; did you forget =C1?"),
    ("LIVE", "PROGRAM; 1;\n  J1; FINISH;", 2, 3, "was live when the schedule ended, after 10 orders"),
]

# The words of a tool, what it reads, and how its line begins.
BAD_INPUT = [
    (["steps", "-", "1"], HEAD + TAIL, "-: the job has no slot 1; it has slot 0"),
    (["steps", "-", "0", "9"], HEAD.replace(PLAIN, "PROGRAM; ZERO; OUT; FINISH;") + TAIL, "-: the program obeys only 3 orders, so there is no order 9"),
    (["steps", "-"], HEAD.replace("J1", "ADD") + TAIL, "-:5:13: UnknownOrder: ADD: This isn't a Usercode statement. (docs/USERCODE.md, fault 4); + adds\n"),
    (["stats", "-"], HEAD.replace("64", "65") + TAIL, "-:3:7: SizeNotGroups: STORE 65: the store isn't a multiple of 32 (docs/JOB.md); the nearest are STORE 64 and STORE 96\n"),
    (["listing", "-"], HEAD, "-:7:1: BadLine: the job ends here: "),
    (["explore", "-", "--out", "README.md"], HEAD + TAIL, "README.md: this is a file, and no folder; name another one"),
    (["listing", "-", "3"], HEAD + TAIL, "-: the job has no slot 3"),
    (["listing", "no/such/file"], "", "no/such/file: No such file"),
    (["listing", "examples"], "", "examples: Is a directory"),
    (["explain", "no/such/file"], "", "no/such/file: No such file"),
    (["listing", "-"], "KDF9 JOB 1\n" + " " * 4194304, "-: the job has more than 4194304 bytes"),
    (["json"], "", "-:1: this isn't a report"),
    (["json"], "KDF9 REPORT 1\nRAN 0 01\nENDREPORT\n", "-:2: this line isn't allowed here: RAN 0 01"),
    (["json"], "KDF9 REPORT 1\nSLOT 0\nSTATE LIVE\nORDERS x\n", "-:4: this isn't a line of a report: ORDERS x"),
    (["json"], "KDF9 REPORT 1\nRAN 0 1\n", "-:2: the report ends without ENDREPORT"),
    (["json"], "KDF9 REPORT 1\nENDREPORT\n\n", "-:3: nothing may come after ENDREPORT"),
    (["report"], '{"text":', "-:1:9: this isn't JSON"),
    (["report"], "[]", "-: this JSON isn't a report"),
    (["report"], '{"text": "KDF9 REPORT 1", "journal": [{"entry": "RAN", "slot": 0}], "slots": []}', "-: this JSON isn't a report: 'orders' is missing"),
    (["report"], '{"text": "KDF9 REPORT 1", "journal": [{"entry": "IDLE", "calls": 1, "more": 2}], "slots": []}', "-: this JSON isn't a report"),
    (["picture"], "", "-:1: this isn't a report"),
    (["picture", "--text"], HEAD + TAIL, "-:1: this isn't a report: its first line isn't KDF9 REPORT 1; this is a job, whose report ./kdf9 run writes\n"),
    (["picture"], "KDF9 REPORT 1\r\nENDREPORT\r\n", "-:1: this isn't a report: its first line isn't KDF9 REPORT 1; the line has a byte 13, as Windows writes before each newline; remove them"),
    (["picture"], "KDF9 REPORT 1\nRAN 0 1\nSLEPT 0\nENDREPORT\n", "-:3: this isn't an entry of a journal: SLEPT 0"),
    (["picture"], "KDF9 REPORT 1\nRAN 0 one\nENDREPORT\n", "-:2: this isn't an entry of a journal: RAN 0 one"),
    (["picture"], f"KDF9 REPORT 1\nRAN 0 {'9' * 5000}\nENDREPORT\n", "-:2: this isn't an entry of a journal: RAN 0 999"),
    (["picture"], "KDF9 REPORT 1\nRAN 0 -1\nENDREPORT\n", "-:2: this isn't an entry of a journal: RAN 0 -1"),
    (["picture"], "KDF9 REPORT 1\nRAN 1 1\nSLOT 0\nSTATE LIVE\nENDREPORT\n", "-:2: the report has no slot or device 1"),
    (["picture"], "KDF9 REPORT 1\nRAN 0 1\nSLOT 0\nSTATE LIVE\n", "-:4: the report ends without ENDREPORT"),
    (["picture"], "KDF9 REPORT 1\nSLOT 0\nSTATE LIVE\nCOLOUR blue\nENDREPORT\n", "-:4: this isn't a line of a report: COLOUR blue"),
    (["picture"], "KDF9 REPORT 1\nSLOT 4\nSTATE LIVE\nENDREPORT\n", "-:2: this isn't a line of a report: SLOT 4"),
    (["picture"], "KDF9 REPORT 1\nSTART 1 3 1\nSLOT 0\nSTATE LIVE\nDEVICE 3 TR FREE PLACE 0 FLAG 0\nENDREPORT\n", "-:2: the report has no slot"),
    (["picture"], "KDF9 REPORT 1\nBUSY 0 9\nSLOT 0\nSTATE LIVE\nENDREPORT\n", "-:2: the report has no slot or device 9"),
    (["picture"], "KDF9 REPORT 1\nSLOT 0\nENDREPORT\n", "-:3: slot 0 has no line STATE"),
    (["picture"], "KDF9 REPORT 1\nSWAP 0 4\nSLOT 0\nSTATE LIVE\nENDREPORT\n", "-:2: the report has no slot or device 4"),
    (["picture"], "KDF9 REPORT 1\nSWAP 0\nENDREPORT\n", "-:2: this isn't an entry of a journal: SWAP 0"),
    (["picture"], "KDF9 REPORT 1\nTAKE 0 9\nSLOT 0\nSTATE LIVE\nENDREPORT\n", "-:2: the report has no slot or device 9"),
    (["picture"], "KDF9 REPORT 1\nGIVE 0 9\nSLOT 0\nSTATE LIVE\nPOOL 9 TP FREE PLACE 0 FLAG 0\nENDREPORT\n", "-:2: the report has no slot or device 9"),
]

# Two programs, of which the second fails, with what explain says of their priorities after the schedule.
TWO_LOOPS = HEAD + HEAD[11:].replace("SLOT 0", "SLOT 1")
FAILS_SECOND = TWO_LOOPS[::-1].replace("J1"[::-1], "+"[::-1], 1)[::-1]
TURNS = [
    (TWO_LOOPS, "ORDERS 5\nSWAP 0 1\n", ["  priorities at the end, highest first: 1, 0; the next turn is slot 1's\n"]),
    (TWO_LOOPS, "ORDERS 5\nSWAP 0 0\n", ["  priorities at the end, highest first: 0, 1; the next turn is slot 0's\n"]),
    (TWO_LOOPS, "ORDERS 19999999\nSWAP 0 2\nORDERS 1\n", ["  priorities at the end, highest first: 1, 0\n"]),
    (FAILS_SECOND, "SWAP 0 1\nORDERS 5\nSWAP 0 1\n", ["order 2; nest, top first: empty\n  priorities at that point, highest first: 1, 0\n"]),
]

# How many times as long as a quarter of a text the whole may take. It takes 4 times as long where the time grows as the text does, and 16 times where it grows as
# the square; a processor that has other work may take twice as long.
MOST_GROWTH = 10

# The pictures of the documents, and the examples whose reports they show.
PICTURED = {
    "picture.svg": "adds-cards-while-a-tape-is-copied", "exchange.svg": "lets-a-starved-program-in", "pool.svg": "two-programs-share-a-punch",
    "pool-fails.svg": "waits-until-the-other-fails",
}


def explained(text, head, parts):
    """What is wrong with what explain says of a job: its first line has to be that, and all parts have to be in it; or None."""
    own, run = kdf9(["run"], text), kdf9(["explain", "-"], text)
    if (run.status, run.out) != (own.status, own.out):
        return f"status {run.status} and {run.out[:60]!r} in place of the job's own"
    if head and not re.match(re.escape(head) + r"(: |$)", run.err.split("\n")[0]):
        return f"{run.err!r} in place of {head}"
    missing = [part for part in parts if part not in run.err]
    return f"{missing} is missing in {run.err!r}" if missing else None


def pointed(text, line, column):
    """The line of a text with the caret below the column, as explain writes them."""
    lines = text.split("\n")
    shown = re.sub(r"[^ -~]", "?", lines[line - 1] if line <= len(lines) else "")
    first, end = max(0, column - 61), column + 39
    part = ("..." if first else "") + shown[first + (3 if first else 0):end]
    return f"    {part[:-3] + '...' if end < len(shown) else part}\n    {' ' * (column - 1 - first)}^\n"


def faults_are_found():
    for name, deck, line, column, sentence in DECK_FAULTS:
        text = job_of_deck(deck)
        parts = [pointed(text, line + 4, column), f"\n  {sentence}", "(docs/USERCODE.md, fault "]
        yield f"fault {name} of a deck", explained(text, f"-:{line + 4}:{column}: {name}", parts)
    for name, text, line, column, sentence in JOB_FAULTS:
        parts = [pointed(text, line, column), f"\n  {sentence}", "(docs/JOB.md)"]
        yield f"fault {name} of a job", explained(text, f"-:{line}:{column}: {name}", parts)
    for text, place, subject, rest in NO_JOBS:
        due = f"-:{place}: Header: {subject}: line 1 is missing, or isn't `KDF9 JOB 1` (docs/JOB.md){rest}"
        for tool in ("explain", "listing", "steps"):
            run = kdf9([tool, "-"], text)
            yield f"{tool} of {text[:24]!r}", None if refused(run) and run.err.startswith(due) else f"{run} in place of {due}"
    for devices, line, column in MEDIA:
        yield f"the medium {devices[:24]!r}", explained(HEAD + devices + TAIL, f"-:{line}:{column}: BadMedium", [])


    for line, name, column in EXCHANGE_FAULTS:
        yield f"the line {line}", explained(HEAD + f"SCHEDULE\n{line}\nENDJOB\n", f"-:8:{column}: {name}", [])


def documents_have_no_other_faults():
    """Each fault of the documents is one of those that are looked for."""
    headings = re.findall(r"^### \d+ (\w+)$", document("USERCODE.md"), re.MULTILINE)
    rows = re.findall(r"^\| `([A-Z][a-z]\w+)` \| ", document("JOB.md").partition("## What is wrong with a snapshot\n")[0], re.MULTILINE)
    yield "the nineteen faults of decks", None if headings == [fault[0] for fault in DECK_FAULTS] else f"are {headings}"
    yield "the fifteen faults of jobs", None if rows == ["Header"] + [fault[0] for fault in JOB_FAULTS] else f"are {rows}"


def hints_are_given():
    for deck, part in HINTS:
        yield f"a hint on {deck!r}", explained(job_of_deck(deck), "", ["  hint: ", part])
    for text, part in JOB_HINTS:
        yield f"a hint on a job: {part}", explained(text, "", ["  hint: ", part])
    for order in re.search(r"^for name in (.*); do$", document("DIFFERENCES.md"), re.MULTILINE)[1].split():
        yield f"a hint on {order}", explained(job_of_deck(f"PROGRAM; {order}; FINISH;"), "", ["hint: the KDF9 has this order, but this machine leaves"])
    for deck in ("PROGRAM; NOSUCHORDER; FINISH;", "PROGRAM V0; V0 = PABCDEFGHIJ; FINISH;", "PROGRAM V1; V1 = 140737488355328; FINISH;"):
        yield f"no hint on {deck!r}", None if "hint" not in kdf9(["explain", "-"], job_of_deck(deck)).err else "a hint"


def failures_are_found():
    for kind, deck, line, column, part in FAILURES:
        text = job_of_deck(deck)
        yield f"failure {kind}", explained(text, f"-:{line + 4}:{column}: {kind}", [pointed(text, line + 4, column), part])
    for area, statement, column, hold in (("0/0/0", "J1", 66, "group 0"), ("0/32/32", "PRQ1", 62, "device 3")):
        deck = f"PROGRAM V0; V0=Q{area}; SET 2; SET 5; OUT; V0; =Q1; =C1; 1; PRQ1; J1; FINISH;"
        text = HEAD.replace(PLAIN, deck) + "DEVICE 3 TR\n+ABCDEFGHIJKLMNOPQ\nSCHEDULE\nORDERS 20\nENDJOB\n"
        yield f"a program that is held up by {hold}", explained(text, f"-:5:{column}: LIVE: {statement}", [f"held up by {hold}"])
    nowhere = explained(job_of_deck("PROGRAM; J1P1; P1; 1; FINISH;"), "", ["-: LIV: the next order of slot 0 is at syllable 0 of word 2"])
    yield "a program whose next order no statement wrote", nowhere


def examples_are_shown():
    with ThreadPoolExecutor() as pool:
        for cases in pool.map(lambda example: list(example_is_shown(*example)), examples()):
            yield from cases


def example_is_shown(name, text):
    """Each tool over one example."""
    own, is_job = kdf9(["run"], text), text.startswith("KDF9 JOB 1\n")
    if is_job:
        yield f"explain of {name}", explained(text, "", [])
    if own.status:
        runs = [kdf9([tool, "-"], text) for tool in ("listing", "steps", "explain")[:2 if is_job else 3]]
        yield f"tools that refuse {name}", None if all(map(refused, runs)) else f"aren't refused: {runs}"
        return
    for section in re.split(r"^SLOT ", own.out, flags=re.MULTILINE)[1:]:
        yield f"listing of {name}", listing_is_wrong(text, section[0])
        yield f"steps of {name}", steps_are_wrong(text, section[0])
    yield f"picture of {name}", picture_is_wrong(own.out)
    yield f"json of {name}", json_is_wrong(own.out)


def json_is_wrong(report):
    """What is wrong with a report as JSON: its words are those of the report, and the way back leads to it; or None."""
    run = kdf9(["json"], report)
    if run.status or run.err:
        return run.err
    record = json.loads(run.out)
    words = [f"{word['octal']} {word['number']}" for section in record["slots"] for word in section["words"]]
    due = [f"{word} {int(word, 8) - 2**48 if word[0] > '3' else int(word, 8)}" for word in re.findall(r"^WORD \d+ (\d+)$", report, re.MULTILINE)]
    if words != due or len(record["journal"]) != report[:report.index("\nSLOT ")].count("\n"):
        return f"words {words} in place of {due}, and {len(record['journal'])} entries"
    back = kdf9(["report"], run.out)
    again = kdf9(["json"], back.out)
    return None if back == (0, report, "") and again.out == run.out else f"back: {back}"


def listing_is_wrong(text, slot):
    """What is wrong with a listing, compared with that of the program: its syllables are put together to words again; or None."""
    run, own = kdf9(["listing", "-", slot], text), kdf9(["asm", slot], text)
    if run.status or run.err:
        return run.err
    words = [int(word, 8).to_bytes(6, "big") for word in re.findall(r"^WORD \d+ (\d+)$", own.out, re.MULTILINE)]
    image, seen = b"".join(words), bytearray(6 * len(words))
    for word, syllable, digits in re.findall(r"^.{6} +(\d+)/(\d) +((?:[0-9A-F]{2} )*[0-9A-F]{2}) ", run.out, re.MULTILINE):
        at = 6 * int(word) + int(syllable)
        seen[at:at + len(digits.split())] = bytes.fromhex(digits)
    for word, digits in re.findall(r"^.{6} +(\d+)  ([0-7]{16}) ", run.out, re.MULTILINE):
        seen[6 * int(word):6 * int(word) + 6] = int(digits, 8).to_bytes(6, "big")
    references = re.findall(r"^.{6} +(\d+)/(\d) {21}(\d+);$", run.out, re.MULTILINE)
    due = [(word, syllable, name) for name, word, syllable in re.findall(r"^REF \d+ (\d+) (\d+) (\d)$", own.out, re.MULTILINE)]
    if [(word, syllable, str(int(name))) for word, syllable, name in references] != due:
        return f"references {references} in place of {due}"
    return None if bytes(seen) == image else f"another image: {run.out}"


def steps_are_wrong(text, slot):
    """What is wrong with the steps of a program, compared with the output of its lone run; or None."""
    schedule = text.rindex("SCHEDULE\n")
    alone = kdf9(["alone", slot], text[:schedule] + "SCHEDULE\nORDERS 16\nENDJOB\n").out
    run = kdf9(["steps", "-", slot, "1", "16"], text)
    lines = run.out.split("\n")[1:-1]
    if run.status or run.err:
        return run.err
    orders, state, nest = (re.search(rf"^{word} (.*)$", alone, re.MULTILINE)[1] for word in ("ORDERS", "STATE", "NEST"))
    if [line.split()[0] for line in lines] != [str(order) for order in range(1, int(orders) + 1)]:
        return f"the orders aren't 1 to {orders}: {run.out}"
    if state != "LIVE" and not lines[-1].endswith(state):
        return f"the last line doesn't end with {state}: {lines[-1]}"
    shown = lines[-1][40:].split("  ")[0].split()
    due = [number_or_octal(word) for word in nest.split()[1:]] or ["empty"]
    return None if shown == due else f"the nest is {shown} in place of {due}"


def number_or_octal(digits):
    """A word of a report as steps shows it."""
    word = int(digits, 8)
    number = word - 2**48 if word >> 47 else word
    return str(number) if abs(number) < 10**9 else digits


def turns_are_told():
    for slots, schedule, parts in TURNS:
        yield f"whose turn it is after {schedule!r}", explained(f"{slots}SCHEDULE\n{schedule}ENDJOB\n", "", parts)
    yield "no turns without exchanges", None if "priorities" not in kdf9(["explain", "-"], TWO_LOOPS + TAIL).err else "are told"


def bad_input_is_refused():
    for words, text, line in BAD_INPUT:
        run = kdf9(words, text)
        good = refused(run) and run.err.startswith(line)
        yield f"bad input of {' '.join(words)}", None if good else f"{run.status} {run.out[:60]!r} {run.err[:200]!r} in place of {line!r}"


def large_jobs(share):
    """Jobs of this share of 4 MB, each with what it is of, the tools that read it, and the sizes that what they write may have."""
    head, tail = "KDF9 JOB 1\nSLOT 0\nSTORE 64\nDECK\nPROGRAM;\n", "\nZERO; OUT; FINISH;\nENDDECK\n" + TAIL
    room = 4194304 // share - len(head) - len(tail)
    fillings = {"comments": "()" * (room // 2), "stars": "*" * room, "lines": "\n" * room, "one statement": "SET 5 " * (room // 6)}
    for what, filling in fillings.items():
        yield what, [["explain", "-"], ["listing", "-"], ["steps", "-"]], head + filling + tail, range(2000000)
    yield "comments", [["same", "-"]], head + fillings["comments"] + tail, range(99)
    yield "comments", [["schedule", "-"]], head + fillings["comments"] + tail, range(room, 2 * room)
    references = "".join(f"{number};" for number in range(1, 10000))
    parts = "".join(f"P{part};{references}" for part in range(1, room // len(references)))
    yield "references", [["listing", "-"]], head + parts + tail, range(6 * room, 10 * room)
    yield "lines END", [["explain", "-"]], HEAD + "SCHEDULE\nORDERS 10\n" + "END 3\n" * (250000 // share) + "ENDJOB\n", range(10**7)


def large_texts(share):
    """Runs over jobs of this share of 4 MB and of a million entries of a journal: what it is, the words, the text, and the sizes of what is written."""
    for what, runs, text, sizes in large_jobs(share):
        for words in runs:
            yield f"{words[0]} of 4 MB of {what}", words, text, sizes
    rounds = (f"RAN {i % 4} 7\nSTART {i % 4} {i % 4} {i}\nBUSY {i % 4} {i % 4}\nIDLE 3\nEND {i % 4}\n" for i in range(200000 // share))
    sections = (
        f"SLOT {slot}\nSTATE LIVE\nORDERS 350000\nAT 1 0\nFLAGS 0 0\nNEST 0\nLINKS 0\nDEVICE {slot} TR HELD PLACE 0 FLAG 0\n" for slot in range(4)
    )
    report = "KDF9 REPORT 1\n" + "".join(rounds) + "".join(sections) + "ENDREPORT\n"
    for words in (["picture"], ["picture", "--text"], ["json"]):
        yield f"{' '.join(words)} of a million entries", words, report, range(10**8)


def large_texts_take_as_long_as_they_are():
    """Each is compared with a quarter of it; some run at once."""
    with ThreadPoolExecutor() as pool:
        names, *cases = zip(*large_texts(1))
        yield from zip(names, pool.map(grows_fast, *cases, [text for _, _, text, _ in large_texts(4)]))


def grows_fast(words, text, sizes, quarter):
    """What is wrong with the processor time of a run and of what it starts, by what a quarter of the text takes, or with what it writes; or None. Only a bar by
    the same machine in the same minute holds on each. Where others keep it from its pace in just one of the two runs, it is tried once more.
    """
    for _ in range(2):
        less, seconds, fault = spent(words, quarter, sizes)[0], *spent(words, text, sizes)
        if fault or seconds <= MOST_GROWTH * less:
            break
    return fault or (f"{seconds:.1f} seconds, and a quarter of it {less:.1f}" if seconds > MOST_GROWTH * less else None)


def spent(words, text, sizes):
    """The processor time of a run and of what it starts, and what is wrong with what it writes, or None."""
    with tempfile.TemporaryFile() as given, tempfile.TemporaryFile() as written, tempfile.TemporaryFile() as said:
        given.write(text.encode("latin-1"))
        given.seek(0)
        process = subprocess.Popen([ROOT / "kdf9", *words], stdin=given, stdout=written, stderr=said, cwd=ROOT, env=ENVIRONMENT)
        _, process.returncode, usage = os.wait4(process.pid, 0)
        size = written.seek(0, os.SEEK_END)
        said.seek(0)
        err = said.read(200)
    return usage.ru_utime + usage.ru_stime, f"{size} bytes, {err}" if size not in sizes or b"Traceback" in err else None


def documents_are_true():
    """Each run that docs/TOOLS.md shows is made again, and so is its picture."""
    for command, due in re.findall(r"^```\n\$ (.*)\n((?:.*\n)*?)```$", document("TOOLS.md"), re.MULTILINE):
        whole = ["bash", "-c", f"exec 2>&1; {command}"]
        done = subprocess.run(whole, cwd=ROOT, stdout=subprocess.PIPE, text=True, env=ENVIRONMENT, check=False)
        yield f"docs/TOOLS.md: {command}", None if done.stdout == due else f"gives {done.stdout}"
    job = re.search(r"^```job share.job\n(.*?)```$", document("TOUR.md"), re.MULTILINE | re.DOTALL)[1]
    named = re.findall(r"`([a-z0-9-]+)`(?=[^|]*\|[^|]*\|$)", document("EXAMPLES.md"), re.MULTILINE)
    there = {path.stem for path in (ROOT / "examples").iterdir() if path.is_file()}
    yield "docs/EXAMPLES.md", None if sorted(named) == sorted(there) else f"differs by {there ^ set(named)}"
    reports = {picture: example_report(name) for picture, name in PICTURED.items()}
    for picture, of in {**reports, "share.svg": kdf9(["run"], job).out}.items():
        yield f"docs/{picture}", None if kdf9(["picture"], of).out == document(picture) else "isn't the picture of its report"


SUITES = (
    launcher_starts, faults_are_found, documents_have_no_other_faults, hints_are_given, failures_are_found, bad_input_is_refused,
    turns_are_told, examples_are_shown, large_texts_take_as_long_as_they_are, documents_are_true, *BUILDS, *COMMANDS, *PICTURES, *RUNS, *SAVED, *SLIPS, *STATUSES, *STOPS,
)


def main():
    # The library is made first, if it has to be: afterwards no tool says so.
    subprocess.run([ROOT / "kdf9", "listing", ROOT / "examples/adds-5-and-7.job"], stdout=subprocess.DEVNULL, check=True)
    with ThreadPoolExecutor(len(SUITES)) as pool:
        cases = [case for suite in pool.map(lambda suite: list(suite()), SUITES) for case in suite]
    faults = [(what, why) for what, why in cases if why]
    for what, why in faults:
        print(f"tools: {what}: {why}")
    print(f"tools: {len(cases) - len(faults)} passed, {len(faults)} failed")
    return 1 if faults else 0


if __name__ == "__main__":
    sys.exit(main())
