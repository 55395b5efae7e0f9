"""What explain says of snapshots that are resumed, and of reports that are checked."""
import re

from toolkit import HEAD, PLAIN, ROOT, TAIL, document, kdf9

RESUMED, CHECKED, WHOLE = "goes-on-with-a-sum", "finds-a-changed-digit", "checks-a-report"
JOURNAL = "\nJOURNAL\n"

# What replaces what in the snapshot of a job, the place and the name of the fault, and parts of what is said.
SNAPSHOTS = [
    (JOURNAL, "\n", "-:11:1: NoJournal: RAN 0 4", ["the line after the front job isn't `JOURNAL`", "hint: the snapshot of this job has JOURNAL here"]),
    ("RAN 0 4", "RAN 0 04", "-:12:7: BadEntry: RAN 0 04", ["isn't an entry as a journal has it", "hint: the snapshot of this job has RAN 0 4 here"]),
    ("SEAL\n", "", "-:13:2: BadEntry: SLOT 0", ["hint: the snapshot of this job has SEAL here"]),
    ("ENDSNAPSHOT", "END", "-:28:1: NoEnd: the text ends here", ["no line after `SEAL` is `ENDSNAPSHOT`", "hint: ENDSNAPSHOT is missing"]),
    ("RAN 0 4", "RAN 0 3", "-:12:7: JournalDiffers: RAN 0 3", ["isn't that of the front job's journal", "hint: the snapshot of this job has RAN 0 4 here"]),
    ("RAN 0 4\n", "", "-:12:1: JournalDiffers: SEAL", ["hint: the snapshot of this job has RAN 0 4 here"]),
    ("NEST 1 0000000000000014", "NEST 1 0000000000000013", "-:19:23: SealDiffers: NEST 1 0000000000000013", ["hint: the snapshot of this job has NEST 1 0000000000000014 here"]),
    ("STORE 0 2 0435000000604441\n", "", "-:24:1: SealDiffers: ENDSNAPSHOT", ["hint: the snapshot of this job has STORE 0 2 0435000000604441 here"]),
    ("ORDERS 6", "ORDERS 19999997", "-:26:8: TooManyOrders: ORDERS 19999997", ["add up to more than 20000000"]),
    ("ORDERS 6", "SHOW 3 3", "-:26:1: BadLine: SHOW 3 3", ["hint: expected ORDERS, MOVE, END, CLOCK, SWAP or ENDJOB"]),
    ("ORDERS 6\nENDJOB\n", "", "-:26:1: BadLine: the job ends here", ["hint: ENDJOB is missing"]),
    ("SET 5", "SETT 5", "-:5:14: UnknownOrder: SETT 5", ["(docs/USERCODE.md, fault 4)"]),
    ("STORE 32", "STORE 33", "-:3:7: SizeNotGroups: STORE 33", ["(docs/JOB.md)"]),
    ("ORDERS 6", "ORDERS 1\nEND 7", "-:5:36: LIVE: ZERO", ["slot 0 was live when the schedule ended, after 5 orders"]),
    ("ORDERS 6", "ORDERS 6", "", []),
]

# What replaces what in a report, the place and the verdict, and what is said.
REPORTS = [
    ("RAN 0 8", "RAN 0 6", "-:12:7: NO 1: RAN 0 6", "entry 1 is line 2 of the report; it should be RAN 0 7"),
    ("RAN 0 8\n", "", "-:12:1: NO 1: ENDED 0", "entry 1 is line 2 of the report; it should be RAN 0 7"),
    ("RAN 0 8\nENDED 0\n", "RAN 0 7\n", "-:13:1: NO 2: the journal ends here", "entry 2 is missing: line 3 of the report should be ENDED 0"),
    ("RAN 0 8\nENDED 0\n", "RAN 0 7\nENDED 0\nIDLE 2\n", "-:14:1: NO 3: IDLE 2", "entry 3 is line 4 of the report; the journal of the job ends before it"),
    ("REPORT 1", "REPORT 2", "-:11:13: NO 0: KDF9 REPORT 2", "the line after the job should be KDF9 REPORT 1"),
    ("RAN 0 8", "RAN 0 7", "", ""),
    ("STORE 32", "STORE 33", "-:3:7: SizeNotGroups: STORE 33", "the store isn't a multiple of 32 (docs/JOB.md)"),
]

# A job with a transfer that nothing ends.
HELD = """KDF9 JOB 1
SLOT 0
STORE 64
DECK
PROGRAM V0; V0 = Q0/32/33; SET 2; SET 5; OUT; V0; =Q1; =C1; PRQ1; E32; ZERO; OUT; FINISH;
ENDDECK
DEVICE 2 TR
+ABCDEFGHIJKLMNOP
SCHEDULE
ORDERS 20
ENDJOB
"""


def text_of(name):
    """The text of the example of this name."""
    return (ROOT / "examples" / f"{name}.job").read_text(encoding="latin-1")


def explained(words, text, head, parts):
    """What is wrong with what explain says of a text: it has to begin so, or to be nothing, and has to have all parts; or None."""
    own, run = kdf9(words[:1] or ["run"], text), kdf9(["explain", "-", *words], text)
    if run[:2] != own[:2]:
        return f"status {run.status} and {run.out[:60]!r} in place of the command's own"
    good = run.err.split("\n")[0] == head and all(part in run.err for part in parts)
    return None if good else f"{run.err!r}"


def snapshots_are_explained():
    text = text_of(RESUMED)
    for old, new, head, parts in SNAPSHOTS:
        yield f"explain of a snapshot with {new!r} for {old!r}", explained(["resume"], text.replace(old, new), head, parts)
    job = text[:text.index(JOURNAL) + 1]
    yield "explain of a job to resume", explained(["resume"], job, "-:11:1: NoJournal: the text ends here", ["hint: this is only a job; ./kdf9 save writes its snapshot"])
    held = kdf9(["save"], HELD).out
    due = f"line {held.count(chr(10)) + 2}, END 3: no slot has device 3; did you mean END 2?"
    yield "explain of a further line", explained(["resume"], held + "CLOCK 5\nEND 3\nENDJOB\n", "-:5:67: LIVE: E32", [due])


def reports_are_explained():
    for old, new, head, part in REPORTS:
        yield f"explain of a report with {new!r} for {old!r}", explained(["check"], text_of(CHECKED).replace(old, new), head, [part])
    yield "explain of a right report", explained(["check"], text_of(WHOLE), "", [])
    for words, status in (([], 0), (["--strict"], 1)):
        run = kdf9(["explain", "-", *words], text_of(CHECKED))
        yield f"explain {' '.join(words)} of a wrong report", None if run.status == status else f"{run}"


def commands_are_told_by_what_follows():
    """Without a command, the line after the job says which one it is."""
    for name, text in ((RESUMED, text_of(RESUMED)), (CHECKED, text_of(CHECKED)), ("a changed first line", text_of(CHECKED).replace("REPORT 1", "REPORT 2"))):
        command = "resume" if name == RESUMED else "check"
        runs = [kdf9(["explain", "-", *words], text) for words in ([], [command])]
        yield f"explain of {name}", None if runs[0] == runs[1] else f"{runs}"
    other = text_of(RESUMED).replace(JOURNAL, "\nX\n")
    yield "explain of a job with a line after it", explained([], other, "-:11:1: BadLine: X", ["hint: expected the end of the job"])
    odd = HEAD.replace(PLAIN, "PROGRAM; (\nSCHEDULE\nENDJOB\nJOURNAL\n) 1; J1; FINISH;") + TAIL
    yield "explain of a job whose deck has these lines", explained([], odd, "-:9:6: LIVE: J1", [])


def documents_have_no_other_faults():
    """Each fault of a snapshot of the documents is one of those that are looked for."""
    part = document("JOB.md").partition("## What is wrong with a snapshot\n")[2].partition("\n## ")[0]
    rows = re.findall(r"^\| `([A-Z]\w+)` \| ", part, re.MULTILINE)
    known = list(dict.fromkeys(head.split(": ")[1] for _, _, head, _ in SNAPSHOTS if head))
    yield "the five faults of snapshots", None if rows and rows == known[:len(rows)] and len(rows) == 5 else f"are {rows}"


SUITES = (snapshots_are_explained, reports_are_explained, commands_are_told_by_what_follows, documents_have_no_other_faults)
