"""Compares facts with their schema and with what the program answers.

What is due is worked out in another way: from the journal and the sections of a report, from the listing of a deck, and from the line that tells a fault.
"""
import json
import os
import re
import subprocess
import sys
from concurrent.futures import ThreadPoolExecutor

from schema import Schema
from slips import CARDS, ENDS, KEEPS, READER, READS, RING, SERVICE, TAKES, job, pooled
from toolkit import ROOT, document, job_of_deck

sys.path.insert(0, str(ROOT / "tools"))
from kdf9.journal import calls_of  # noqa: E402
from kdf9.report import read_alone, read_report  # noqa: E402

TOLD = os.environ.get("KDF_TOLD", ROOT / "crates" / "kdf_told" / "out" / "kdf_told")
SCHEMA = Schema(json.loads((ROOT / "docs" / "schema" / "facts.json").read_text(encoding="utf-8")))

# The syllables of the jump in word 0, and the order, in hexadecimal, that fills a word.
SIZE_OF_JUMP, DUMMY = 3, "01"

# Jobs of more bytes are left out.
MOST_BYTES = 1_000_000

# The members of an entry, in the order in which its line has them, and the names of a device that a group of words has in common.
MEMBERS = {
    "RAN": ["slot", "orders"], "START": ["slot", "device", "order"], "ANSWER": ["slot", "answer"], "TAKE": ["slot", "device"], "GIVE": ["slot", "device"],
    "FAIL": ["slot", "kind"], "ENDED": ["slot"], "LOV": ["slot", "group"], "BUSY": ["slot", "device"], "WAIT": ["slot", "kind"], "IDLE": ["calls"],
    "MOVE": ["device", "words"], "END": ["device"], "CLOCK": ["time"], "SWAP": ["slot", "other"],
}
HOLDS = {"LOV": "group", "BUSY": "device", "WAIT": "pool"}

# A job that is made, and how many lines SHOW of a whole store make a report too long for its facts.
MADE, MANY_SHOWS = "7", 513

# Examples that are saved and resumed, and whose reports are checked.
AFTER_JOBS = ["adds-5-and-7", "adds-cards-while-a-tape-is-copied"]

# Decks with a fault, and what is told of it besides its name: the line and the column in the job, the text there, and of TooLarge the words and the store.
FAULTS = [
    ("PROGRAM;\nZERO; SET 40000;\nFINISH;", "BadNumber", 6, 7, "SET 40000"),
    ("PROGRAM; (\n\n) ERAZE; FINISH;", "UnknownOrder", 7, 3, "ERAZE"),
    ("PROGRAM; ZERO;\t FINISH;", "BadByte", 5, 15, "\t"),
    ("Y31; PROGRAM; FINISH;", "TooLarge", 6, 1, "", 33, 64),
    ("Y8191; PROGRAM; FINISH;", "TooLarge", 6, 1, "", None, None),
]

# Lines of a job with a fault, and the column of it.
COLUMNS = [
    ("KDF8 JOB 1\n", 4), ("KDF9 JOB 1\nSLOT 7\n", 6), ("KDF9 JOB 1\nSLOT 0\nSTORE 33\n", 7), ("KDF9 JOB 1\nSLOT 0\nSTORE 32\nSTACK\n", 1),
    ("KDF9 JOB 1\nSLOT 0\nSTORE 32\nDECK\nENDDECK\nDEVICE 1 MT a-b\n", 13), ("KDF9 JOB 1\nSLOT 0\nSTORE 32\nDECK\nENDDECK\nDEVICE 1 TR\n+AB#\n", 4),
    ("KDF9 JOB 1\nSLOT 0\nSTORE 32\nDECK\nENDDECK\nSHOW 3 99999\n", 8), ("KDF9 JOB 1\nSLOT 0\nSTORE 32\nDECK\nENDDECK\nPOOL\nDEVICE 1 TR\n", 10),
]

# A job without a fault whose lines the jobs below change, and its front up to the lines of its device.
HEAD = "KDF9 JOB 1\nSLOT 0\nSTORE 64\nDECK\nPROGRAM; FINISH;\nENDDECK\n"
TAIL = "SCHEDULE\nENDJOB\n"

# Decks with a fault, and the hint that is told of it: the name of its sentence, and the values in it.
HINTS_OF_DECKS = [
    ("PROGRAM;\t FINISH;", {"name": "tab"}),
    ("PROGRAM;\r FINISH;", {"name": "byte_13"}),
    ("PROGRAM; (\xc3\xa4) FINISH;", {"name": "letter", "letter": "\xe4"}),
    ("PROGRAM; (\xf0\x9f\x98\x80) FINISH;", {"name": "letter", "letter": "\U0001f600"}),
    ("PROGRAM; (\xe4) FINISH;", {"name": "no_letters"}),
    ("PROGRAM; +F; FINISH;", {"name": "floating"}),
    ("PROGRAM; FINISH (the end)", {"name": "semicolon_missing", "place": "5:16"}),
    ("PROGRAM; SET 40000; FINISH;", {"name": "largest", "number": 32767}),
    ("PROGRAM; 1; ZERO;\n 1; OUT; FINISH;", {"name": "first_reference", "number": 1, "part": "the main part", "place": "5:10"}),
    ("PROGRAM; 1; 2; 5; J7; FINISH;", {"name": "references", "part": "the main part", "numbers": "1, 2 and 5"}),
    ("PROGRAM; J7P2; P2; 3; OUT; FINISH;", {"name": "reference", "part": "part 2", "numbers": "3"}),
    ("PROGRAM; J7; FINISH;", {"name": "no_references", "part": "the main part", "numbers": ""}),
    ("PROGRAM; P2; P2; FINISH;", {"name": "first_part", "number": 2, "place": "5:10"}),
    ("PROGRAM; JSP3; P2; P4; FINISH;", {"name": "parts", "parts": "P2 and P4"}),
    ("PROGRAM; JSP3; FINISH;", {"name": "no_parts"}),
    ("PROGRAM V2; V3; FINISH;", {"name": "stores", "owner": "the main part has", "group": "V", "highest": 2}),
    ("PROGRAM; V0; FINISH;", {"name": "no_stores", "owner": "the main part has", "group": "V"}),
    ("PROGRAM; =V1P2; P2V0; FINISH;", {"name": "one_store", "owner": "part 2 has", "group": "V"}),
    ("PROGRAM V1; V0 = 1; V0 = 2; FINISH;", {"name": "constant_twice", "number": 0}),
    ("YB2; PROGRAM; YB3; FINISH;", {"name": "stores", "owner": "the deck declares", "group": "YB", "highest": 2}),
    ("Y31; PROGRAM; FINISH;", {"name": "image_size", "words": "33 words", "store": 64}),
    ("Y8191; PROGRAM; FINISH;", {"name": "image_too_large", "most": 8192}),
    ("PROGRAM; NO FINISH HERE;", None),
    ("PROGRAM; ERAZE; FINISH;", {"name": "meant", "names": "ERASE"}),
    ("PROGRAM; FNISH; FINISH;", {"name": "meant", "names": "FINISH"}),
    ("PROGRAM; DIV; FINISH;", {"name": "left_out", "nearest": "DIVI divides whole numbers", "names": "DIVI"}),
    ("PROGRAM; =K2; FINISH;", {"name": "left_out", "nearest": "it belongs to Director, which isn't a program here", "names": "=Q2 or =C2 or =I2"}),
    ("PROGRAM; BEGIN V3; FINISH;", {"name": "written_here", "said": "the main part begins with PROGRAM; or, if it has V-stores, with PROGRAM V0;"}),
    ("PROGRAM; dup; FINISH;", {"name": "capitals", "text": "DUP"}),
    ("PROGRAM; DUP (one) ERASE; FINISH;", {"name": "semicolon_lost", "place": "5:13", "text": "DUP"}),
    ("PROGRAM; 12: DUP; FINISH;", {"name": "reference_form", "text": "12"}),
]

# Jobs with a fault in a line, likewise.
HINTS_OF_JOBS = [
    ("KDF9 JOB 1\r\n", {"name": "byte_13"}),
    ("\xef\xbb\xbfKDF9 JOB 1\n", {"name": "byte_order_mark"}),
    ("kdf9 job 1\n", {"name": "capitals", "text": "KDF9 JOB 1"}),
    ("\n\nKDF9 JOB 1\n", {"name": "nothing_before"}),
    ("KDF8 JOB 1\n", None),
    ("KDF9 JOB 1\nSLOT 0\nSTORE 64\nDECK\nPROGRAM;\n", {"name": "missing_line", "line": "ENDDECK"}),
    (HEAD + "SCHEDULE\n", {"name": "missing_line", "line": "ENDJOB"}),
    (HEAD + "SCHEDULE\nORDERS 3\r\nENDJOB\n", {"name": "byte_13"}),
    (HEAD + "schedule\n", {"name": "capitals", "text": "SCHEDULE"}),
    (HEAD + "SCHEDULE\nORDERS  3\n", {"name": "one_space"}),
    (HEAD + "SCHEDULE\nORDERS 03\n", {"name": "leading_zeros"}),
    (HEAD + "SCHEDULE\nORDERS 0\n", {"name": "range", "least": 1, "most": 20000000}),
    (HEAD + "SCHEDULE\nMOVE 3 4097\n", {"name": "range", "least": 1, "most": 4096}),
    (HEAD + "DEVICE 16 CR\n" + TAIL, {"name": "range", "least": 0, "most": 15}),
    (HEAD + "SERVICE\nSERVICE\n" + TAIL, {"name": "service_twice"}),
    (HEAD + "DEVICE 1 TR\nSERVICE\n" + TAIL, {"name": "service_once"}),
    (HEAD + "POOL\nPOOL\n" + TAIL, {"name": "pool_twice"}),
    ("KDF9 JOB 1\nPOOL\n", {"name": "pool_once"}),
    (HEAD + "POOL\nSHOW 0 3\n" + TAIL, {"name": "pool_last"}),
    (HEAD + "POOL\nDEVICE 1\n" + TAIL, {"name": "form", "form": "DEVICE d TP, or DEVICE d LP"}),
    (HEAD + "POOL\nDEVICE 1 TR\n" + TAIL, {"name": "pool_kind", "kind": "TR"}),
    (HEAD + "SCHEDULE\nORDERS\n", {"name": "form", "form": "ORDERS n"}),
    (HEAD + "SCHEDULE 3\n", {"name": "form", "form": "SCHEDULE, with nothing after it"}),
    (HEAD + "SHEDULE\n", {"name": "meant", "names": "SCHEDULE"}),
    (HEAD + "SCHEDULE\nENDJOB\nX\n", {"name": "expected", "names": "the end of the job"}),
    (HEAD + "DEVICE 4 MT A\n12\n" + TAIL, {"name": "expected", "names": "+, =, DEVICE, SHOW, SLOT, POOL or SCHEDULE"}),
    (HEAD + "DEVICE 4 TP\n1\n" + TAIL, {"name": "expected", "names": "DEVICE, SHOW, SLOT, POOL or SCHEDULE"}),
    (HEAD + "1\n" + TAIL, {"name": "expected", "names": "SERVICE, DEVICE, SHOW, SLOT, POOL or SCHEDULE"}),
    ("KDF9 JOB 1\nX\n", {"name": "expected", "names": "SLOT"}),
    (HEAD + "SHOW 5 3\n" + TAIL, {"name": "show_falls", "first": 5, "last": 3}),
    (HEAD + "SHOW 3 64\n" + TAIL, {"name": "show_store", "last": 63}),
    ("KDF9 JOB 1\nSLOT 0\nSTORE 65\n", {"name": "whole_groups", "below": 64, "above": 96}),
    (HEAD + "DEVICE 4 TP\n+A\n" + TAIL, {"name": "kind_empty", "kind": "TP"}),
    (HEAD + "POOL\n+A\n" + TAIL, {"name": "pool_empty"}),
    (HEAD + "DEVICE 4 TR\n+Aa\n" + TAIL, {"name": "lowercase"}),
    (HEAD + "DEVICE 4 TR\n=A\n" + TAIL, {"name": "mark"}),
    (HEAD + "DEVICE 4 MT A\n+\n" + TAIL, {"name": "empty_block", "text": "a block of a tape"}),
    (HEAD + f"DEVICE 4 CR\n+{'A' * 81}\n" + TAIL, {"name": "too_long", "text": "a card", "most": 80, "characters": 81}),
    (HEAD + "DEVICE 4 TR\n+A#\n" + TAIL, {"name": "no_character", "character": "#"}),
]

# What a program's failure is told by: its deck, its devices, and the cause with its values.
BROKEN = [
    ("PROGRAM; =E9999; FINISH;", "", {"what": "nest short", "step": 2, "words": 0, "name": "=E9999"}),
    ("PROGRAM; ZERO; =E9999; FINISH;", "", {"what": "address", "step": 3, "address": 9999, "store": 64}),
    ("Y3; PROGRAM; SET 90; =M2; Y2M2; FINISH;", "", {"what": "address", "name": "Y2", "word": 5, "q": 2, "modifiers": [90], "address": 95, "store": 64}),
    ("PROGRAM; SET 200; =M2; M0M2H; FINISH;", "", {"what": "modifiers", "q": 2, "modifiers": [0, 100], "address": 100}),
    ("PROGRAM V0; V0 = Q3/9/5; V0; =Q1; TLOQ1; FINISH;", "", {"what": "area", "q": 1, "parts": [3, 9, 5], "first": 9, "last": 5}),
    ("PROGRAM V0; V0 = Q0/60/64; V0; SET 8; OUT; FINISH;", "", {"what": "area", "number": 8, "first": 60, "last": 64, "store": 64}),
    ("PROGRAM V3; V3 = 5; SET 4; =LINK; EXIT; FINISH;", "", {"what": "constant", "step": 1, "word": 4, "name": "V3 = 5"}),
    ("Y0; PROGRAM; SET 1; =Y0; FINISH;", "", {"what": "ran past", "step": 1, "word": 2, "name": "=Y0"}),
    ("YA1; Y0; PROGRAM; SET 4; =LINK; EXIT; FINISH;", "", {"what": "no order", "step": 1, "word": 4, "name": "YA0"}),
    ("PROGRAM; SET 64; =LINK; EXIT; FINISH;", "", {"what": "outside", "step": 1, "word": 64, "store": 64}),
    ("PROGRAM; EXIT; FINISH;", "", {"what": "no link", "step": 2, "links": 0}),
    ("PROGRAM; 1; JS1; FINISH;", "", {"what": "links full", "step": 2, "links": 16}),
    ("PROGRAM; 1; ZERO; J1; FINISH;", "", {"what": "nest full", "step": 2, "words": 16}),
    ("PROGRAM; SET 4; OUT; FINISH;", "", {"what": "nest short", "step": 2, "words": 1, "name": "OUT", "number": 4}),
    ("PROGRAM; SET -1; =LINK; EXIT; FINISH;", "", {"what": "link", "step": 3, "link": [8191, 7]}),
    ("PROGRAM; SET 5; SET -2; OUT; FINISH;", "", {"what": "call", "step": 3, "number": -2, "operand": 5, "meant": 5}),
    ("PROGRAM; SET 9; SET 5; OUT; FINISH;", "", {"what": "kind", "number": 5, "operand": 9}),
    ("PROGRAM V0; V0 = Q8/1/1; V0; SET 8; OUT; FINISH;", "", {"what": "stream", "number": 8, "stream": 8}),
    ("PROGRAM; SET 7; SETB100; OUT; FINISH;", "", {"what": "not served", "number": 64, "operand": 7}),
    ("PROGRAM; SET 7; SET 100; OUT; FINISH;", SERVICE, {"what": "call", "number": 100, "meant": 64}),
    ("PROGRAM; PRQ1; FINISH;", READER, {"what": "no device", "q": 1, "parts": [0, 0, 0], "device": 0}),
    ("PROGRAM; SET 2; =C1; PRQ1; FINISH;", READER, {"what": "not claimed", "q": 1, "device": 2, "kind": "TR"}),
    ("PROGRAM; SET 2; SET 5; OUT; =C1; LPQ1; FINISH;", READER, {"what": "wrong kind", "q": 1, "device": 2, "kind": "TR", "wanted": "LP", "name": "LPQ1"}),
    ("PROGRAM; SET 9; =C1; PWQ1; FINISH;", "POOL\nDEVICE 9 TP\n", {"what": "not taken", "q": 1, "device": 9, "kind": "TP"}),
    ("PROGRAM; SET 4; SET 5; OUT; FINISH;", READER, {"what": "none", "wanted": "CR"}),
    ("PROGRAM; SET 4; SET 5; OUT; SET 4; SET 5; OUT; FINISH;", CARDS, {"what": "none left", "wanted": "CR", "taken": [4]}),
    ("PROGRAM; SET 1; SET 5; OUT; SET 1; SET 5; OUT; FINISH;", "POOL\nDEVICE 9 TP\n", {"what": "none left", "wanted": "TP", "taken": [9]}),
    ("PROGRAM V0; V0 = PWATER; V0; SET 4; OUT; FINISH;", CARDS, {"what": "label", "label": "WATER"}),
    ("PROGRAM; SET 5; SET 4; OUT; FINISH;", CARDS, {"what": "label", "operand": 5, "meant": 5}),
    ("PROGRAM; SET 4; SET 6; OUT; FINISH;", CARDS, {"what": "not given", "device": 4}),
]

# Why programs are live still: the job, the slot, and the causes with values of theirs, in their sequence.
LIVE = [
    (job(READS, READER), 0, [{"what": "state", "order": 8, "stuck": True}, {"what": "group", "group": 1, "first": 32, "last": 63, "own": False}, {"what": "transfer", "transfer": 0, "device": 2, "call": 8}]),
    (job("PROGRAM V0; V0 = Q9/0/0; V0; =Q1; 1; DC1; J1C1NZ; 2; J2; FINISH;", schedule="ORDERS 10\n"), 0, [{"what": "state", "stuck": False}, {"what": "loop", "period": 2, "counters": [[1, 5, 6]]}]),
    (job("PROGRAM; ZERO; ZERO; ZERO; FINISH;", schedule="ORDERS 3\n"), 0, [{"what": "state", "order": 3}, {"what": "calls", "calls": 3}]),
    (job("PROGRAM; 1; M1; J1; FINISH;", schedule=""), 0, [{"what": "state", "order": 0}, {"what": "no turn", "slots": []}, {"what": "unset", "q": 1, "line": 5, "column": 13}]),
    (KEEPS, 1, [{"what": "state", "stuck": False}, {"what": "loan", "device": 9, "slot": 0, "call": 4, "kept": "going on"}]),
    (pooled(TAKES + ENDS, TAKES + ENDS, "ORDERS 40\n"), 1, [{"what": "state", "stuck": True}, {"what": "loan", "slot": 0, "kept": "transfer"}]),
    (
        RING, 0,
        [
            {"what": "state", "stuck": True}, {"what": "loan", "device": 4, "slot": 1, "kept": "pool"},
            {"what": "deadlock", "circle": [
                {"slot": 0, "pool": "LP", "holders": [{"device": 4, "slot": 1}]}, {"slot": 1, "pool": "TP", "holders": [{"device": 9, "slot": 0}]},
            ]},
        ],
    ),
]


def told(words, text):
    """The facts that these words ask for over a job."""
    done = subprocess.run([TOLD, *words], input=text.encode("latin-1"), stdout=subprocess.PIPE, check=True)
    return json.loads(done.stdout.decode("ascii"))


def program():
    """The program: that of the variable KDF9, or else the one that ./kdf9 starts, which is built first if it has to be."""
    if "KDF9" in os.environ:
        return os.environ["KDF9"]
    subprocess.run([ROOT / "kdf9", "make", "0"], stdout=subprocess.DEVNULL, check=True)
    return ROOT / "crates" / "kdf9" / "out" / "kdf9"


PROGRAM = program()


def answer(words, text):
    """The text that the program answers to these words over a job."""
    return subprocess.run([PROGRAM, *words], input=text.encode("latin-1"), stdout=subprocess.PIPE, check=False).stdout.decode("latin-1")


def entry_line(entry):
    """The line of an entry."""
    return " ".join([entry["entry"], *(str(entry[name]) for name in MEMBERS[entry["entry"]])])


def faults_of_run(facts, text):
    """What is wrong with the facts of a run, by the report."""
    report = read_report(text, "the report")
    lines = text.split("\n")[1:1 + len(facts["entries"])]
    if list(map(entry_line, facts["entries"])) != lines or len(report.entries) != len(lines):
        yield "the entries aren't those of the report"
        return
    calls = 0
    for entry, told_entry in zip(report.entries, facts["entries"]):
        if told_entry["call"] != calls:
            yield f"{entry_line(told_entry)}: call {told_entry['call']} for {calls}"
        calls += calls_of(entry)
    if facts["made"] != calls:
        yield f"there are {calls} calls, and not {facts['made']}"
    if facts["text"] != text:
        yield "the text isn't what the program prints"
    yield from faults_of_calls(facts, report, calls)
    yield from faults_of_transfers(facts, report)
    yield from faults_of_programs(facts, report)


def faults_of_calls(facts, report, calls):
    """What is wrong with what became of the calls."""
    for program_calls in facts["calls"]:
        slot, spent = program_calls["slot"], program_calls["calls"]
        if spent["running"] + spent["ready"] + sum(spent["held"].values()) + spent["over"] != calls:
            yield f"slot {slot}: the calls don't add up to {calls}"
        if spent["running"] != report.sections[slot].orders:
            yield f"slot {slot}: {spent['running']} calls for {report.sections[slot].orders} orders"
    if facts["idle"] != sum(entry[1] for entry in report.entries if entry[0] == "IDLE"):
        yield "idle calls differ"


def faults_of_transfers(facts, report):
    """What is wrong with the transfers, holds, questions and loans."""
    starts = [(slot, device, order) for kind, slot, device, order in (entry for entry in report.entries if entry[0] == "START")]
    if [(one["slot"], one["device"], one["order"]) for one in facts["transfers"]] != starts:
        yield "the transfers aren't those of the entries"
    for number, one in enumerate(facts["transfers"]):
        if one["statement"] is None:
            yield f"transfer {number} has no statement"
        if one["area"] and [one["area"][0] // 32, one["area"][1] // 32] != one["groups"]:
            yield f"transfer {number}: the area {one['area']} isn't in groups {one['groups']}"
        if one["area"] and one["words"] > one["area"][1] - one["area"][0] + 1 or one["moved"] > one["words"]:
            yield f"transfer {number}: too many words"
    for device in facts["devices"]:
        ends = [(one["ended"] or facts["made"]) - one["began"] for one in facts["transfers"] if one["device"] == device["device"]]
        if (device["transfers"], device["busy"]) != (len(ends), sum(ends)):
            yield f"device {device['device']}: its transfers don't add up"
    holds = [(entry[1], HOLDS[entry[0]], entry[2]) for entry in report.entries if entry[0] in HOLDS]
    if [(one["slot"], one["by"], one[one["by"]]) for one in facts["holds"]] != holds:
        yield "the holds aren't those of the entries"
    asks = [(entry[1], entry[2]) for entry in report.entries if entry[0] in ("ANSWER", "TAKE")]
    if [(one["slot"], one["answer"]) for one in facts["asks"]] != asks:
        yield "the questions aren't those of the entries"
    if len(facts["loans"]) != sum(entry[0] == "TAKE" for entry in report.entries):
        yield "the loans aren't those of the entries"


def faults_of_programs(facts, report):
    """What is wrong with how the programs ended."""
    for one in facts["programs"]:
        section = report.sections[one["slot"]]
        state = [one["state"], one["failure"]] if one["failure"] else [one["state"]]
        if (state, one["orders"], tuple(one["at"])) != (section.state, section.orders, tuple(section.at)):
            yield f"slot {one['slot']}: its end isn't that of its section"
        yield from faults_of_registers(f"slot {one['slot']}", one, section)
        yield from (f"slot {one['slot']}: {fault}" for fault in faults_of_why(facts, one))
    free = [one["slot"] for one in facts["programs"] if one["state"] == "LIVE" and one["lacks"]["what"] == "calls"]
    due = next((slot for slot in facts["priorities"] if slot in free), None)
    if facts["next"] != due:
        yield f"the next turn is that of {facts['next']}, and not of {due}"


def slots_of(text):
    """The slots of a job, by its lines."""
    lines, slots, at = text.split("\n"), [], 0
    while lines[at] != "SCHEDULE":
        kind, *rest = lines[at].split(" ")
        if kind == "SLOT":
            slots.append({"slot": int(rest[0]), "served": False, "shows": []})
        elif kind == "STORE":
            slots[-1]["store"] = int(rest[0])
        elif kind == "SERVICE":
            slots[-1]["served"] = True
        elif kind == "SHOW":
            slots[-1]["shows"].append(list(map(int, rest)))
        elif kind == "DECK":
            first, at = at + 1, lines.index("ENDDECK", at)
            slots[-1].update({"line": first + 1, "lines": at - first})
        at += 1
    return slots


def faults_of_why(facts, one):
    """What is wrong with why a program isn't over, by the rest of the facts."""
    causes = {cause["what"]: cause for cause in one["why"] or []}
    if (one["state"] == "ENDED") != (one["why"] is None) or (one["state"] == "FAILED") != ("step" in (one["why"] or [{}])[0]):
        yield f"{list(causes)} for {one['state']}"
    if causes and causes["state"]["order"] != one["orders"]:
        yield "another number of orders"
    if causes.get("state", {}).get("stuck", False) and one["lacks"]["what"] == "calls":
        yield "it isn't held up, and is stuck"
    if ("deadlock" in causes) != bool(one["lacks"] and one["lacks"].get("deadlock")):
        yield "the deadlock isn't that of what it lacks"
    for cause in one["why"] or []:
        transfer = facts["transfers"][cause["transfer"]] if "transfer" in cause else None
        if transfer and (transfer["ended"] is not None or (transfer["device"], transfer["began"]) != (cause["device"], cause["call"])):
            yield f"transfer {cause['transfer']} isn't that which goes on"
        loan = {"device": cause["device"], "slot": cause["slot"], "taken": cause["call"], "given": None} if cause["what"] == "loan" else None
        if loan and loan not in facts["loans"]:
            yield f"there is no loan {loan}"


def faults_of_registers(name, one, section):
    """What is wrong with the registers of a program, by its section."""
    q_stores = {q: tuple(parts) for q, parts in enumerate(one["q"]) if any(parts)}
    links = [f"{word}/{syllable}" for word, syllable in one["links"]]
    if (one["nest"], links, q_stores, (one["v"], one["tr"])) != (section.nest, section.links, section.q_stores, tuple(map(bool, section.flags))):
        yield f"{name}: its registers aren't those of its section"


def faults_of_listing(facts, text):
    """What is wrong with the facts of a deck, by its listing."""
    words = re.findall(r"^WORD \d+ ([0-7]{16})$", text, re.MULTILINE)
    references = [tuple(map(int, each)) for each in re.findall(r"^REF (\d+) (\d+) (\d+) (\d+)$", text, re.MULTILINE)]
    if facts["text"] != text:
        yield "the text isn't what the program prints"
    if facts["words"] != words:
        yield "the words aren't those of the listing"
    if [(one["part"], one["reference"], *one["at"]) for one in facts["references"]] != references:
        yield "the references aren't those of the listing"
    orders = [one for one in facts["statements"] if one["syllables"]]
    image = "".join(f"{int(word, 8):012x}" for word in words)
    for one in orders:
        at = 6 * one["at"][0] + one["at"][1]
        size = 1 + (int(image[2 * at:2 * at + 2], 16) >= 0x40) + (int(image[2 * at:2 * at + 2], 16) >= 0x80)
        if size != one["syllables"] or one["kind"] != "order":
            yield f"{one['text']}: a statement of kind {one['kind']} has {one['syllables']} syllables at {one['at']}, where {size} stand"
    due = [(number, at) for _, number, *at in references]
    if [(int(one["written"]), one["at"]) for one in facts["statements"] if one["kind"] == "reference"] != due:
        yield "the statements that are references aren't those of the listing"
    yield from faults_of_places(facts, image)


def faults_of_places(facts, image):
    """What is wrong with the stores of a deck and with where its statements stand: from the jump of word 0 to the last Y-store nothing is left out."""
    place, opened = SIZE_OF_JUMP, {one["offset"]: one for one in facts["parts"]}
    count = {one["part"]: one["count"] for one in facts["stores"]}
    for one in facts["statements"]:
        at = 6 * one["at"][0] + one["at"][1]
        if one["filled"] and image[2 * place:2 * (place + one["filled"])] != DUMMY * one["filled"]:
            yield f"{one['text']}: what stands before it is no filling"
        if one["kind"] not in ("constant", "reference"):
            if at != place + one["filled"]:
                yield f"{one['text']}: at {one['at']} for {place + one['filled']}"
            place = at + one["syllables"]
        if one["kind"] == "opening":
            part = opened[one["offset"]]
            place += 6 * count.get(part["part"], 0)
            if 6 * part["at"][0] + part["at"][1] != place:
                yield f"part {part['part']}: its first order isn't at {part['at']}"
        if " ".join(re.sub(r"\([^)]*\)?", " ", one["text"]).split()) != one["written"] or not one["text"][:one["length"]].endswith(one["written"][-1]):
            yield f"{one['text']!r}: {one['length']} bytes and {one['written']!r}"
    for one in facts["stores"] if facts["statements"] else []:
        if one["part"] is None:
            if 6 * one["address"] != place:
                yield f"{one['name']}0: its address isn't {one['address']}"
            place += 6 * one["count"]
    if place != 6 * len(facts["words"]) and facts["statements"]:
        yield f"the deck has {place} syllables in {len(facts['words'])} words"


def faults_of_watch(facts, text):
    """What is wrong with the facts of a watch, by its stops."""
    head, *lines = text.split("\n")
    stops = [int(line.split(" ")[1]) for line in lines if line.startswith("STOP ")]
    if (head, stops) != (f"KDF9 WATCH {facts['slot']} {facts['address']}", facts["stops"]):
        yield "the stops aren't those of the watch"


def faults_of_check(facts, text):
    """What is wrong with the facts of a check, by its verdict."""
    if text.split("\n")[1] != (f"NO {facts['entry']}" if facts["answer"] == "NO" else "YES"):
        yield f"the verdict isn't that of {text!r}"


def faults_of_alone(facts, text):
    """What is wrong with the facts of a program by itself, by its section."""
    one, number = facts["program"], facts["slot"]
    if facts["text"] != text:
        yield "the text isn't what the program prints"
    if one is None:
        if f"SLOT {number}\n" in text:
            yield "there is a program"
        return
    section = read_alone(text, number)
    state = [one["state"], one["failure"]] if one["failure"] else [one["state"]]
    if (state, one["orders"], tuple(one["at"])) != (section.state, section.orders, tuple(section.at)):
        yield "its end isn't that of its section"
    yield from faults_of_registers("alone", one, section)


def faults_of_snapshot(facts, text):
    """What is wrong with the facts of a snapshot, by its text: the job, the words of the stores, and the run."""
    lines = text.split("\n")
    words = [tuple(each) for each in facts["words"]]
    due = [(int(slot), int(address), word) for slot, address, word in (line.split(" ")[1:] for line in lines if re.match(r"STORE \d+ \d+ ", line))]
    if lines[facts["lines"]] != "JOURNAL":
        yield f"line {facts['lines'] + 1} isn't JOURNAL"
    if words != due:
        yield "the words aren't those of the snapshot"
    entries = lines[facts["lines"] + 1:lines.index("SEAL", facts["lines"])]
    if list(map(entry_line, facts["run"]["entries"])) != entries:
        yield "the entries aren't those of the snapshot"
    if facts["run"]["text"].split("\n")[:len(entries) + 1] != ["KDF9 REPORT 1", *entries]:
        yield "the text of the run isn't its report"


def faults_of_fault(facts, text):
    """What is wrong with the facts of a fault, by the line that tells it."""
    kind, *rest = text.split()
    if kind == "LARGE":
        if rest != [str(facts["limit"])]:
            yield f"the limit isn't that of {text.strip()}"
        return
    due = [facts["name"], str(facts["line"])] if kind in ("JOB", "SNAPSHOT") else [str(facts.get("slot")), facts["name"], str(facts.get("offset"))]
    if kind not in ("JOB", "SNAPSHOT", "DECK") or rest != due:
        yield f"{facts['name']} for {text.strip()}"
    pattern = rf"^\| `{facts['name']}` \| (.*?) \|$" if kind in ("JOB", "SNAPSHOT") else rf"^### {facts['number']} {facts['name']}\n\n(.*?)\n\n"
    found = re.search(pattern, document("JOB.md" if kind in ("JOB", "SNAPSHOT") else "USERCODE.md"), re.MULTILINE | re.DOTALL)
    if not found or " ".join(found[1].split()) != facts["sentence"]:
        yield f"{facts['name']}: the sentence isn't that of the documents"


CHECKS = {
    "run": faults_of_run, "listing": faults_of_listing, "fault": faults_of_fault, "watch": faults_of_watch, "check": faults_of_check, "alone": faults_of_alone,
    "snapshot": faults_of_snapshot,
}

# How facts are asked for: of each example and case in the first ways, and of the examples in the others too, since the program runs the job for each.
WAYS = [["run"], *(["asm", str(slot)] for slot in range(4))]
MORE_WAYS = [["watch", "0", "2"], *(["alone", str(slot)] for slot in (0, 1)), ["save"]]


def cases():
    """The examples and cases, and the words that facts are asked for with."""
    for folder in ("examples", "tests/cases"):
        for path in sorted((ROOT / folder).glob("*.job")):
            text = path.read_text(encoding="latin-1")
            if len(text) <= MOST_BYTES:
                for words in WAYS + (MORE_WAYS if folder == "examples" else []):
                    yield f"{path.stem}: {' '.join(words)}", words, text
    yield from cases_after_jobs()


def cases_after_jobs():
    """Snapshots that are resumed and reports that are checked: as they are, with another word in an entry, with one line left out, and with the front alone."""
    for name in AFTER_JOBS:
        job = (ROOT / "examples" / f"{name}.job").read_text(encoding="latin-1")
        saved, report = answer(["save"], job), job + answer(["run"], job)
        for words, text in ((["resume"], saved + "ORDERS 3\nENDJOB\n"), (["check"], report)):
            at = text.index("RAN ", len(job))
            line = text[at:text.index("\n", at) + 1]
            for what, changed in (("as it is", text), ("a word more", text[:at] + "RAN 3 1\n" + text[at:]), ("a line less", text[:at] + text[at + len(line):]), ("the job", job)):
                yield f"{name}: {words[0]}, {what}", words, changed


def faults_of_case(case):
    """What is wrong with the facts of a case."""
    name, words, text = case
    facts = told(words, text)
    faults = SCHEMA.faults(facts) or list(CHECKS[facts["kind"]](facts, answer(words, text)))
    if facts["kind"] == "run" and facts["slots"] != slots_of(text):
        faults.append(f"its slots are {facts['slots']}, and not {slots_of(text)}")
    return [f"{name}: {fault}" for fault in faults]


def faults_of_texts():
    """What is wrong with the text of a run where it is no report, or longer than facts carry."""
    facts = told(["make", MADE], "")
    if SCHEMA.faults(facts) or facts["text"] != answer(["make", MADE], ""):
        yield f"make {MADE}: the text isn't the summary"
    shows = "SHOW 0 8191\n" * MANY_SHOWS
    for words in (["run"], ["alone", "0"]):
        facts = told(words, f"KDF9 JOB 1\nSLOT 0\nSTORE 8192\nDECK\nPROGRAM; FINISH;\nENDDECK\n{shows}{TAIL}")
        if SCHEMA.faults(facts) or facts["text"] is not None:
            yield f"{words}: the text with millions of words isn't left out"


def faults_of_decks():
    """What is wrong with the facts of the faults of the tables above."""
    for deck, name, line, column, subject, *size in FAULTS:
        facts = told(["run"], job_of_deck(deck))
        found = [facts[member] for member in ("name", "line", "column", "text")] + [facts[member] for member in ("words", "store") if size]
        if found != [name, line, column, subject, *size]:
            yield f"{deck!r}: {found}"
    jobs = [(job_of_deck(deck), hint) for deck, hint in HINTS_OF_DECKS] + HINTS_OF_JOBS
    for job, hint in jobs:
        facts = told(["run"], job)
        if facts.get("hint", "none") != hint or SCHEMA.faults(facts):
            yield f"{job!r}: {facts.get('hint', 'no hint')} for {hint}, {SCHEMA.faults(facts)}"
    for job, column in COLUMNS:
        facts = told(["run"], job)
        if facts["column"] != column:
            yield f"{job!r}: column {facts['column']} for {column}"


def faults_of_causes():
    """What is wrong with the causes of the tables above."""
    for deck, devices, due in BROKEN:
        yield from faults_of_due(deck, told(["run"], job(deck, devices))["programs"][0]["why"][:1], [due])
    for text, slot, due in LIVE:
        program = next(one for one in told(["run"], text)["programs"] if one["slot"] == slot)
        yield from faults_of_due(text, program["why"], due)


def faults_of_due(name, causes, due):
    """What is wrong with causes that have to have these values."""
    found = [{member: cause.get(member) for member in one} for cause, one in zip(causes or [], due)]
    if found != due or len(causes) != len(due):
        yield f"{name!r}: {causes} for {due}"


def main():
    """Tries every case; the status is 0 where each passed."""
    if not os.path.exists(TOLD):
        print(f"facts: there is no {TOLD}: rt ci makes it, and so does rt run in crates/kdf_told")
        return 1
    with ThreadPoolExecutor() as pool:
        results = list(pool.map(faults_of_case, cases()))
    for suite in (faults_of_decks, faults_of_causes, faults_of_texts):
        results += [[fault] for fault in suite()] or [[]]
    faults = [fault for result in results for fault in result]
    print(*(f"facts: {fault}" for fault in faults[:50]), sep="\n", end="\n" if faults else "")
    print(f"facts: {sum(not result for result in results)} passed, {sum(map(bool, results))} failed")
    return 1 if faults else 0


if __name__ == "__main__":
    sys.exit(main())
