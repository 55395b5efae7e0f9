"""Tries what the page shows of slots that are served: in the job, in what came of it, call by call, and beside the lone run."""
from page_theorem import SEEN
from slips import SERVICE, job
from toolkit import ROOT

DECK = "PROGRAM; SET 7; SETB100; OUT; ZERO; OUT; FINISH;"

# Two slots, of which the first or the second is served; each has a device.
TWO = "KDF9 JOB 1\n" + "".join(f"SLOT {slot}\nSTORE 32\nDECK\n{DECK}\nENDDECK\n{{}}DEVICE {slot} TP\nSHOW 0 1\n" for slot in (0, 1)) + "SCHEDULE\nORDERS 20\nENDJOB\n"

# The boxes of the programs: which are ticked, and their labels.
BOXES = "[...document.querySelectorAll('.slot input[type=checkbox]')].map((it) => [it.checked, it.labels[0].textContent.trim()])"
LABEL = "OUT 64 asks the installation's service"

# What is said of each entry of the journal, and of those around a call.
ROWS = "[...document.querySelectorAll('#sections > details td')].map((it) => it.textContent)"
ENTRIES = "[...document.querySelectorAll('#replay .journal li')].map((it) => it.textContent)"


def tick(index):
    """Presses the box of the program with this index. A script."""
    return f"document.querySelectorAll('.slot input[type=checkbox]')[{index}].click()"


def boxes_are_ticked(shown):
    """A box says whether its slot is served, and a tick writes or removes the line SERVICE at its place."""
    for path in sorted(it for folder in ("examples", "tests/cases") for it in (ROOT / folder).glob("*.job")):
        text = path.read_text(encoding="latin-1")
        if "\nENDDECK\nSERVICE\n" in text:
            shown.write_job(text)
            shown.view("parts")
            job_shown, is_by_parts = shown.js("[kdf9.job(), document.querySelector('.notice').hidden]")
            due = [[part.startswith(SERVICE), LABEL] for part in text.split("\nENDDECK\n")[1:]]
            good = job_shown == text and (not is_by_parts or shown.js(BOXES) == due)
            yield f"the boxes of {path.stem}", None if good else f"{job_shown} {shown.js(BOXES)}"
    shown.write_job(TWO.format("", ""))
    shown.view("parts")
    for index, served in ((1, ("", SERVICE)), (0, (SERVICE, SERVICE)), (1, (SERVICE, "")), (0, ("", ""))):
        shown.js(tick(index))
        got, boxes = shown.js("kdf9.job()"), shown.js(BOXES)
        due = [[line != "", LABEL] for line in served]
        yield f"the box of program {index}", None if got == TWO.format(*served) and boxes == due else f"{boxes} {got}"
        status = shown.run("run")[1]
        yield f"the box of program {index}, and the job runs", None if status == 0 else f"status {status}"
    shown.js("[...document.querySelectorAll('.parts > button')].find((it) => it.textContent === 'Add a program').click()")
    yield "the box of a program that is added", None if shown.js(BOXES)[2:] == [[False, LABEL]] else f"{shown.js(BOXES)}"


def answers_are_shown(shown):
    """The answer is in the nest and in the journal; and where the slot isn't served, a hint is."""
    shown.write_job(job(DECK, SERVICE))
    text = shown.run("run")[0]
    said, rows = shown.js("document.querySelector('#sections').textContent"), shown.js(ROWS)
    yield "an answer of the service", None if "\nANSWER 0 117440512\n" in text and "program 0 asked, and was answered 117440512" in rows else f"{text} {rows}"
    yield "no hint where the slot is served", None if "Hint" not in said else said
    shown.write_job(job(DECK))
    text = shown.run("run")[0]
    said = shown.js("document.querySelector('#sections p').textContent")
    due = "Its next order is at word 2, syllable 0: OUT. Hint: OUT 64 asks the installation's service, and this slot isn't served: tick its box"
    yield "a hint where the slot isn't served", None if "\nFAIL 0 OUT\n" in text and due in said else f"{text} {said}"
    shown.write_job(job(DECK.replace("SETB100", "SET 7"), SERVICE))
    shown.run("run")
    said = shown.js("document.querySelector('#sections p').textContent")
    yield "no hint for another number", None if "failed (OUT)" in said and "Hint" not in said else said


def answers_are_looked_at(shown):
    """Call by call the journal has the answers of the service as it has all others."""
    shown.example("asks-the-service")
    shown.run("run")
    shown.click("look")
    shown.page.wait("document.querySelector('.programs') !== null")
    entries = shown.js(ENTRIES)
    due = [f"after call {call}: program 0 asked, and was answered {answer}" for call, answer in ((4, 83886083), (7, 335544360))]
    yield "the answers call by call", None if all(line in entries for line in due) else f"{entries}"


def lone_runs_are_answered_nought(shown):
    """Beside its lone run a program is compared up to the order that asks; and a program that is served isn't one that isn't."""
    shown.write_job(job(DECK, SERVICE))
    shown.run("run")
    shown.click("compare-alone")
    shown.idle()
    verdict = shown.js(SEEN)[0]["verdict"]
    due = "The same after 3 orders; order 4 asked, and was answered 117440512 in this run and 0 alone."
    yield "a program that asks the service, and alone", None if verdict == due else verdict
    shown.view("parts")
    shown.js(tick(0))
    shown.run("run")
    shown.click("compare-before")
    shown.idle()
    verdict = shown.js(SEEN)[0]["verdict"]
    yield "a program that isn't served any more", None if verdict.startswith("Not in the run before, since") and "SERVICE" in verdict else verdict


SUITES = boxes_are_ticked, answers_are_shown, answers_are_looked_at, lone_runs_are_answered_nought
