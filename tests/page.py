"""Tries the page in Chromium: every example and case with its Run button, where faults are shown and with which hints, and whatever else it does."""
import json
import pathlib
import re
import subprocess
import sys
import tempfile

import browser
from browser import Browser
from page_course import courses_in_pages, take_picture
from page_explore import SUITES as EXPLORED
from page_firefox import page_in_firefox
from page_help import SUITES as HELP, caret_at
from page_kept import SUITES as KEPT, reloads_lose_nothing
from page_looks import SUITES as LOOKS
from page_picture import SUITES as PICTURES
from page_pool import SUITES as POOL
from page_runs import orders_are_those_of_the_program, runs_are_looked_at, runs_are_those_of_the_program
from page_schedules import PAIR, SUITES as SCHEDULED
from page_seek import SUITES as SOUGHT
from page_service import SUITES as SERVED
from page_shipped import shipped_page_is_current
from page_theorem import SUITES as THEOREM, no_run_before
from page_verdicts import HELD, SUITES as VERDICTS, first_job_has_run
from page_watch import SUITES as WATCHED
from page_words import SUITES as WORDS
from page_worker import worker_alone
from shown import CTRL, Shown, id_of
from toolkit import HEAD, ROOT, TAIL, is_more, job_of_deck, kdf9
from tools import DECK_FAULTS, HINTS, JOB_FAULTS, JOB_HINTS

LOOP = "KDF9 JOB 1\nSLOT 0\nSTORE 32\nDECK\nPROGRAM;\n1; J1;\nFINISH;\nENDDECK\nSCHEDULE\nORDERS 20000000\nENDJOB\n"

# Makes the browser refuse the machine, like one whose memories have 32-bit addresses.
WITHOUT_MEMORY64 = "const validate = WebAssembly.validate; WebAssembly.validate = (bytes) => bytes[11] !== 4 && validate(bytes);"

# Makes the memory of each machine end at so many bytes.
LITTLE_MEMORY = """const LIMIT = `const grow = WebAssembly.Memory.prototype.grow;
WebAssembly.Memory.prototype.grow = function (pages) {
  if (this.buffer.byteLength + 65536 * Number(pages) > 6000000) throw new RangeError("no more");
  return grow.call(this, pages);
};`;
globalThis.Blob = class extends Blob {
  constructor(parts, how) { super(how?.type === "text/javascript" ? [LIMIT, ...parts] : parts, how); }
};"""
LONG_DECK = "PROGRAM; " + "DUMMY; " * 40000 + "FINISH;"

# Lines of devices and SHOW lines, the lines of the schedule, the label of the control that has the fault, and what is said there.
FAULTY_PARTS = [
    ("SHOW 3 99\n", "ORDERS 10", "Show the words from, to", "ShowRange: SHOW 3 99. The first address"),
    ("DEVICE 16 TR\n", "ORDERS 10", "Device", "BadNumber: DEVICE 16 TR. A field"),
    ("DEVICE 3 MT a\n", "ORDERS 10", "Label", "BadLabel: DEVICE 3 MT a. The label"),
    ("DEVICE 3 TR\n+OK\n+no\n", "ORDERS 10", "The characters on the tape", "Line 2, column 1: BadMedium: +no."),
    ("DEVICE 3 MT A\n+OK\n+no\n", "ORDERS 10", "The blocks, one to a line: + before each, or = if it has its mark", "Line 2, column 2: BadMedium: +no."),
    ("", "ORDERS 5\nMOVE 3 5000", "The lines of the schedule", "Line 2, column 8: BadNumber: MOVE 3 5000."),
    ("", "ORDERS 5\nPRINT", "The lines of the schedule", "Line 2, column 1: BadLine: PRINT."),
]

# The examples that are shown in a picture, each at a call.
PICTURED, PICTURED_CALL = "adds-cards-while-a-tape-is-copied", 37
SHARED, SHARED_CALL = "two-programs-share-a-punch", 20

# The schedule of the first of them is shuffled with this seed in a picture.
PICTURED_SEED = 18

# Schedules that write themselves: an example, what is typed into the two boxes and those of devices, and the arguments of the tool that writes the same.
SCHEDULES = [
    ("adds-cards", ("7", "", {"4": "30"}), ["--after", "7", "4=30"]),
    ("reads-tape", ("2", "", {}), ["--after", "2"]),
    ("adds-cards-while-a-tape-is-copied", ("25", "", {}), ["--after", "25"]),
    ("computes-while-it-reads", ("3", "5", {}), ["--after", "3", "--every", "5"]),
    ("adds-5-and-7", ("0", "", {}), ["--after", "0"]),
    (SHARED, ("9", "", {}), ["--after", "9"]),
]


def faults_stand_at_their_places(shown):
    """Each fault has its line, its column and its sentence, and the page gives each hint that the tools give."""
    for name, deck, line, column, sentence in DECK_FAULTS:
        yield f"fault {name} of a deck", wrong_fault(shown, job_of_deck(deck), (name, line + 4, column), sentence)
    for name, text, line, column, sentence in JOB_FAULTS:
        if len(text) < 100000:
            yield f"fault {name} of a job", wrong_fault(shown, text, (name, line, column), sentence)
    for text, part in [*((job_of_deck(deck), part) for deck, part in HINTS), *JOB_HINTS]:
        hint = (shown.js(f"kdf9.explain({json.dumps(text)})") or {}).get("hint") or ""
        part = re.sub(r"(\d+):(\d+)", lambda found: f"line {int(found[1]) - 4}, column {found[2]}", part).strip().removesuffix("...")
        yield f"hint: {part[:60]}", None if part in hint else f"is {hint[:100]!r}"


def wrong_fault(shown, text, due, sentence):
    """What is wrong with the fault that is found in a job, or None."""
    found = shown.js(f"kdf9.explain({json.dumps(text)})")
    place = found and (found["name"], found["line"], found["column"])
    begins = sentence.replace("`", "").casefold()
    return None if place == due and found["said"].casefold().startswith(begins) else f"is {found}"


def faults_are_shown(shown):
    """A fault is marked in the deck's editor, is explained, and is gone once the deck is right."""
    shown.example("adds-5-and-7")
    shown.view("parts")
    deck = shown.js("document.querySelector('.slot textarea').value")
    shown.type_into(".slot textarea", deck.replace("SET 7;", "ADD 7;"))
    shown.page.wait("document.querySelector('.fault') !== null")
    said = shown.js("document.querySelector('.fault').textContent")
    is_said = "Line 1, column 21: UnknownOrder: ADD 7." in said and "docs/USERCODE.md, fault 4" in said
    yield "a fault while it is written", None if is_said else said
    shown.click("run")
    shown.idle()
    state = shown.state()
    yield "the text of a fault", None if shown.js("kdf9.text()") == "DECK 0 UnknownOrder 20\n" else shown.js("kdf9.text()")
    yield "a fault is said", None if "Status 3: a deck has a fault. UnknownOrder, line 1 of the deck in slot 0." in state else state
    shown.js(f"{id_of('run')}.focus()")
    shown.click("to-fault")
    caret = shown.js("[document.activeElement.tagName, document.activeElement.selectionStart, document.activeElement.getAttribute('aria-invalid')]")
    yield "the caret goes to the fault", None if caret == ["TEXTAREA", 20, "true"] else f"{caret}"
    marked = shown.js("[document.querySelector('.painted .wrong').textContent, document.querySelector('.gutter .wrong').textContent]")
    yield "the fault is marked", None if marked == ["ADD 7", "▸1"] else f"{marked}"
    shown.type_into(".slot textarea", deck.replace("PROGRAM;", "PRAGRAM;"))
    shown.page.wait("document.querySelector('.fault')?.textContent.includes('PRAGRAM')")
    said = shown.js("document.querySelector('.fault').textContent")
    yield "a hint that asks", None if "did you mean PROGRAM? " in said else said
    shown.type_into(".slot textarea", deck.replace("SET 7;", "SET 70;"))
    shown.page.press("Enter", 13, CTRL)
    shown.idle()
    report, left = shown.js("kdf9.text()"), shown.js("document.querySelector('.fault') === null")
    yield "an edited deck runs by Ctrl and Enter", None if "WORD 3 0000000000000113" in report and left else f"{report} {left}"
    yield "there is no fault to go to", None if shown.js(f"{id_of('to-fault')}.hidden") else "there is"
    words = shown.js("document.querySelector('#sections table').innerText.split(/\\s+/).join(' ')")
    yield "words have names and are decimal too", None if words == "Words name address octal decimal Y0 3 0000000000000113 75" else words


def faults_stand_at_their_parts(shown):
    """By parts, a fault of the job is shown at the control that has it, and Go to it sets the focus there."""
    for devices, schedule, label, said in FAULTY_PARTS:
        shown.write_job(HEAD + devices + TAIL.replace("ORDERS 10", schedule))
        shown.view("parts")
        shown.run("run")
        got = shown.js("""[document.querySelector('[aria-invalid]').labels[0].textContent, document.querySelector('.fault').textContent,
            document.querySelectorAll('[aria-invalid]').length, (document.querySelector('.fault button').click(), document.activeElement.labels[0].textContent)]""")
        good = got[0] == got[3] == label and said in got[1] and got[2] == 1
        yield f"the part of {said}", None if good else f"{got}"


def parts_and_text_are_in_step(shown):
    """A change by parts is a change of the text, and the other way round; and a text without parts is shown whole."""
    for path in sorted((ROOT / "examples").glob("*.job")):
        text = path.read_text(encoding="ascii")
        if not text or is_more(path):
            continue
        shown.write_job(text)
        shown.view("parts")
        kept = shown.js("kdf9.job()")
        parts = shown.js("document.querySelectorAll('.slot').length")
        due = text.count("\nSLOT ") + text.count("\nPOOL\n") + 1
        yield f"parts of {path.stem}", None if kept == text and parts == due else f"{parts} parts"
    shown.example("reads-tape")
    shown.view("parts")
    shown.js("[...document.querySelectorAll('.devices > button')].at(-1).click()")
    shown.js("[...document.querySelectorAll('.parts > button')].find((it) => it.textContent === 'Add a program').click()")
    job = shown.js("kdf9.job()")
    yield "a device and a program are added", None if "\nDEVICE 0 TR\n" in job and "\nSLOT 1\nSTORE 32\nDECK\n" in job else job
    got = shown.run("run")
    yield "and the job runs", None if got[1] == 0 and "\nSLOT 1\n" in got[0] else f"{got}"
    text = (ROOT / "tests/cases/last-line-without-its-end.job").read_text(encoding="ascii")
    shown.write_job(text)
    shown.view("parts")
    shown.run("run")
    shown.click("look")
    shown.page.wait("document.querySelector('.programs') !== null")
    kept, hidden = shown.js("[kdf9.job(), document.querySelector('.notice').hidden]")
    yield "a last line without its end", None if (kept, hidden) == (text, True) else f"{hidden} {kept!r}"
    shown.write_job("KDF9 JOB 1\nSTORE 7\n")
    shown.view("parts")
    seen = shown.js("[document.querySelector('.notice').hidden, document.querySelector('.parts').hidden]")
    yield "a text without parts", None if seen == [False, True] else f"{seen}"
    got = shown.run("run")
    yield "and its fault", None if got == ("JOB BadLine 2\n", 2) else f"{got}"


def snapshots_are_resumed_and_reports_checked(shown):
    """A snapshot and a report after a job are shown whole, and are no fault of the job. A fault of the snapshot is marked."""
    shown.view("parts")
    for name, hidden in (("goes-on-with-a-sum", True), ("checks-a-report", True), ("lists-two-parts", False)):
        shown.example(name)
        shown.js(f"{id_of('command')}.onchange()")
        shown.js("new Promise((done) => setTimeout(done, 1500))")
        seen = shown.js(f"[document.querySelector('.parts').hidden, {id_of('value-field')}.hidden, document.querySelector('.fault') === null]")
        yield f"{name} as it is shown", None if seen == [hidden, hidden, True] else f"{seen}"
    shown.example("refuses-a-changed-snapshot")
    got = shown.run("resume")
    marked = shown.js("document.querySelector('.gutter .wrong').textContent")
    yield "a changed snapshot", None if got == ("SNAPSHOT SealDiffers 19\n", 8) and marked == "▸19" else f"{got} {marked}"
    state = shown.state()
    yield "its fault is said", None if "Status 8: the snapshot has a fault. SealDiffers, line 19 of the text. This is the first line" in state else state
    shown.example("goes-on-with-a-sum")
    shown.run("resume")
    words = shown.js("document.querySelector('#sections table').innerText.split(/\\s+/).join(' ')")
    yield "words of a resumed run have names", None if words == "Words name address octal decimal Y0 3 0000000000000014 12" else words


def schedules_write_themselves(shown):
    """The schedule is the one that the tool writes."""
    for name, fields, words in SCHEDULES:
        shown.example(name)
        for field, value in zip(("after", "every"), fields):
            shown.js(f"{id_of(field)}.value = {json.dumps(value)}")
        for device, calls in fields[2].items():
            shown.js(f"document.querySelector('#delays [data-device=\"{device}\"]').value = {json.dumps(calls)}")
        shown.click("schedule")
        shown.idle()
        due = kdf9(["schedule", f"examples/{name}.job", *words], "").out
        got = shown.js("kdf9.job()")
        yield f"schedule of {name}", None if got == due else f"is {got[-200:]!r} in place of {due[-200:]!r}"
    shown.js(f"{id_of('after')}.value = 'many'")
    shown.click("schedule")
    yield "no number of calls", None if "aren't numbers" in shown.state() else shown.state()


def runs_are_stopped(shown):
    """Stop ends a run at once, the page can be used during a run, and the next run is as usual."""
    shown.write_job(LOOP)
    shown.choose("command", "run")
    shown.click("run")
    running = shown.state()
    shown.page.press("Escape", 27)
    shown.idle()
    stopped = shown.state()
    shown.click("run")
    shown.example("reads-tape")
    shown.idle()
    got = shown.js("[kdf9.text(), kdf9.job() === " + json.dumps((ROOT / "examples/reads-tape.job").read_text(encoding="ascii")) + "]")
    yield "a run is stopped by another job", None if got == ["", True] else f"{got}"
    shown.write_job(LOOP)
    yield "a run is stopped by Escape", None if running == "Running." and "Stopped." in stopped else f"{running} {stopped}"
    got = shown.run("run")
    yield "and runs again", None if got[1] == 0 and "\nRAN 0 20000000\n" in got[0] else f"{got}"
    shown.write_job(LOOP.replace("1; J1;", "ZERO; OUT;").replace("STORE 32", "STORE 8192").replace("SCHEDULE", "SHOW 0 8191\n" * 500 + "SCHEDULE"))
    shown.choose("command", "run")
    shown.click("run")
    shown.idle()
    length, rest = shown.js(f"[kdf9.text().length, {id_of('rest')}.textContent]")
    yield "a report of 100 MB", None if length > 10 ** 8 and rest.startswith("The first 100,000 of") else f"{length} {rest} {shown.state()}"
    shown.write_job("KDF9 JOB 1\n" + " " * 4194304)
    got = shown.run("run")
    yield "a job that is too long", None if got == ("LARGE 4194304\n", 4) else f"{got[1]} {got[0][:50]}"


def opened_link(opened, link):
    """The page of a link, once it has said what it found in the link."""
    other = Shown(opened(link))
    other.page.wait(f"{id_of('state')}.textContent.includes('link')")
    return other


def links_hold_jobs(shown, opened, address):
    """A link has the job, and the page says so if a link is damaged."""
    shown.example("walks-over-a-table")
    shown.click("link")
    shown.page.wait(f"!{id_of('link-said')}.hidden")
    link = shown.js(f"{id_of('address')}.value")
    due = (ROOT / "examples/walks-over-a-table.job").read_text(encoding="ascii")
    other = opened_link(opened, link)
    yield "a link", None if other.js("kdf9.job()") == due and "job of the link. Done, in" in other.state() else other.state()
    other.page.close()
    yield "the address after a link was made", None if shown.js("location.href") == link else shown.js("location.href")
    other = Shown(opened(address))
    first = other.js("kdf9.job()")
    other.page.close()
    for damaged in (link[:-9], link[:60] + "AAAA" + link[64:], f"{address}#job=", f"{address}#job=%%"):
        other = opened_link(opened, damaged)
        is_first = other.js("kdf9.job()") == first
        yield f"a damaged link {damaged[-12:]}", None if "damaged" in other.state() and is_first else other.state()
        other.page.close()


def pages_are_made_with_jobs(opened, file):
    """`replay` makes a page that opens at the run of its job. If the job has a fault, the page shows it."""
    other = file.with_name("run.html")
    yield "a page with a job", None if make_page(other, "replay", "examples/reads-tape.job") else "isn't made"
    shown = Shown(opened(f"file://{other}"))
    shown.page.wait("document.querySelector('.programs') !== null")
    got = shown.js("[document.querySelector('#replay output').textContent, kdf9.text()]")
    due = ["0 of 15", (ROOT / "examples/reads-tape.report").read_text(encoding="ascii")]
    yield "its run", None if got == due else f"{got}"
    shown.page.close()
    yield "a page with a deck that is refused", None if make_page(other, "replay", "examples/missing-reference.job") else "isn't made"
    shown = Shown(opened(f"file://{other}"))
    shown.page.wait("document.querySelector('.fault') !== null")
    yield "its fault", None if "ReferenceMissing" in shown.state() else shown.state()
    shown.page.close()
    refused = kdf9(["replay", "nowhere.job"], "")
    yield "a page with no job", None if refused.status == 1 and refused.err == "nowhere.job: No such file or directory\n" else f"{refused}"


def browsers_with_short_addresses(opened, address):
    """If memories have no 64-bit addresses, the machine runs with 32-bit ones, and answers the same."""
    shown = Shown(opened(address, before=WITHOUT_MEMORY64))
    shown.idle()
    yield "what is said of short addresses", None if shown.state().startswith("Done, in") and shown.js("!document.getElementById('short-addresses').hidden") else shown.state()
    for path in sorted((ROOT / "examples").glob("*.args")):
        words, job = path.read_text(encoding="ascii").split("\n")[:-1], path.with_suffix(".job")
        if job.exists():
            got = shown.js(f"kdf9.ask({json.dumps(words)}, {json.dumps(job.read_text(encoding='latin-1'))}).then(({{ text }}) => text)")
            yield f"{path.stem} with short addresses", None if got == path.with_suffix(".report").read_text(encoding="latin-1") else f"is {got[:200]!r}"
    shown.write_job(job_of_deck(LONG_DECK).replace("STORE 32", "STORE 8192"))
    got = shown.run("run")
    yield "a long deck with short addresses", None if got[1] == 0 and "\nRAN 0 10\n" in got[0] else f"{got}"
    shown.page.close()


def browsers_without_the_machine(opened, address):
    """The examples are shown with their recorded reports, and the page says what the browser lacks."""
    shown = Shown(opened(address, before="delete globalThis.WebAssembly;"))
    yield "what is lacking", None if "it has no WebAssembly" in shown.state() else shown.state()
    shown.example("reads-tape")
    due = (ROOT / "examples/reads-tape.report").read_text(encoding="ascii")
    got = shown.js("[kdf9.text(), document.getElementById('run').disabled]")
    yield "a recorded report", None if got == [due, True] else f"{got}"
    shown.page.close()


def memory_comes_to_its_end(opened, address):
    """If there is no more memory, the page says so, and goes on with the next job."""
    shown = Shown(opened(address, before=LITTLE_MEMORY))
    shown.idle()
    small, large = job_of_deck("PROGRAM; ZERO; OUT; FINISH;"), job_of_deck(LONG_DECK).replace("STORE 32", "STORE 8192")
    for job, status, said in ((small, 0, "Done"), (large, 7, "Status 7: there was no memory."), (small, 0, "Done")):
        shown.write_job(job)
        got = shown.run("run")[1], shown.state()
        yield f"little memory, {len(job)} bytes", None if got[0] == status and said in got[1] else f"{got}"
    shown.page.close()


def controls_have_names(shown):
    """Each control has a name for a screen reader, no two elements have the same id, and nothing is wider than a narrow window."""
    for name in (PICTURED, SHARED):
        shown.example(name)
        shown.view("parts")
        shown.run("run")
        shown.click("look")
        shown.page.wait("document.querySelector('.programs') !== null")
        nameless = shown.js("""[...document.querySelectorAll('button, input, select, textarea')].filter((it) => !(it.textContent.trim() && it.tagName === 'BUTTON')
            && !it.getAttribute('aria-label') && !it.labels?.length).map((it) => it.outerHTML.slice(0, 80))""")
        yield f"names of controls, {name}", None if nameless == [] else f"are missing: {nameless}"
        twice = shown.js("[...document.querySelectorAll('[id]')].map((it) => it.id).filter((it, at, all) => all.indexOf(it) !== at)")
        yield f"ids, {name}", None if twice == [] else f"stand twice: {twice}"
        shown.page.send("Emulation.setDeviceMetricsOverride", width=360, height=800, deviceScaleFactor=1, mobile=False)
        width = shown.js("document.documentElement.scrollWidth")
        yield f"a narrow window, {name}", None if width <= 360 else f"is {width} wide"
        shown.page.send("Emulation.setDeviceMetricsOverride", width=1280, height=900, deviceScaleFactor=1, mobile=False)


def nothing_is_fetched(running, address):
    """In all that was done, the browser asked for nothing but the page, and no script failed."""
    asked = {event["params"]["request"]["url"].split("#")[0][:100] for event in running.events if event["method"] == "Network.requestWillBeSent"}
    foreign = [url for url in asked if url != address[:100] and not url.startswith(("data:", "blob:"))]
    yield "what is fetched", None if address[:100] in asked and not foreign else f"{asked}"
    thrown = [event["params"]["exceptionDetails"]["text"] for event in running.events if event["method"] == "Runtime.exceptionThrown"]
    logged = [event["params"]["entry"]["text"] for event in running.events if event["method"] == "Log.entryAdded"]
    yield "scripts", None if not thrown + logged else f"{thrown + logged}"


SUITES = (
    runs_are_looked_at, faults_are_shown, faults_stand_at_their_parts, parts_and_text_are_in_step, snapshots_are_resumed_and_reports_checked,
    schedules_write_themselves, runs_are_stopped, faults_stand_at_their_places, *VERDICTS, *PICTURES, *SCHEDULED, *EXPLORED, *SOUGHT, *KEPT, *WORDS, *HELP, *LOOKS, *POOL, *SERVED, *WATCHED, *THEOREM, controls_have_names,
    orders_are_those_of_the_program, runs_are_those_of_the_program,
)


def cases(file):
    """All cases for the page in this file."""
    address = f"file://{file}"
    size = file.stat().st_size
    yield "the size of the page", None if size <= 800000 else f"is {size}"
    yield from shipped_page_is_current(file)
    with Browser() as running:
        def opened(where, **how):
            return running.open(where, **how)
        yield from worker_alone(opened)
        shown = Shown(opened(address))
        shown.idle()
        for suite in SUITES:
            yield from suite(shown)
        yield from first_job_has_run(opened, address)
        yield from no_run_before(opened, address)
        yield from reloads_lose_nothing(opened, address)
        yield from links_hold_jobs(shown, opened, address)
        yield from browsers_with_short_addresses(opened, address)
        yield from browsers_without_the_machine(opened, address)
        yield from memory_comes_to_its_end(opened, address)
        yield from nothing_is_fetched(running, address)
        yield from pages_are_made_with_jobs(opened, file)
    yield from page_in_firefox(address)
    yield from courses_in_pages(file.parent)


def take_pictures(opened, address):
    """Takes the pictures of docs/PAGE.md."""
    docs = ROOT / "docs"
    shown = Shown(opened(address, width=1200, height=760))
    shown.choose("example", "The first hour/table")
    shown.run("run")
    shown.page.picture(docs / "page-run.png")
    deck = shown.js("document.querySelector('.slot textarea').value")
    shown.type_into(".slot textarea", deck.replace("=V1; ZERO;", "=V1 ZERO;"))
    shown.page.wait("document.querySelector('.fault') !== null")
    shown.js("document.querySelector('.fault button').click()")
    shown.page.picture(docs / "page-fault.png", whole=True, **around(shown, ".slot", 420))
    shown.write_job(HELD)
    shown.view("parts")
    shown.run("run")
    shown.page.picture(docs / "page-held.png", whole=True, **around(shown, "#results", 560))
    caret_at(shown, "PRQ1")
    shown.page.press("F1", 112)
    shown.page.picture(docs / "page-help.png", whole=True, **around(shown, ".slot", 620))
    shown.page.press("F1", 112)
    shown.page.send("Emulation.setDeviceMetricsOverride", width=390, height=760, deviceScaleFactor=1, mobile=False)
    shown.js("document.getElementById('verdicts').scrollIntoView()")
    shown.page.picture(docs / "page-phone.png")
    shown.page.send("Emulation.setDeviceMetricsOverride", width=1200, height=760, deviceScaleFactor=1, mobile=False)
    for name, call, file in ((PICTURED, PICTURED_CALL, "page-calls.png"), (SHARED, SHARED_CALL, "page-pool.png")):
        show_call(shown, name, call)
        shown.page.picture(docs / file)
    shown.example(PICTURED)
    shown.run("run")
    shown.js(f"{id_of('seed')}.value = {PICTURED_SEED}")
    shown.click("shuffle")
    shown.idle()
    top = shown.js(f"{id_of('theorem')}.getBoundingClientRect().top + scrollY")
    shown.page.picture(docs / "page-theorem.png", whole=True, x=0, y=top, width=1200, height=1110)
    shown.example(PICTURED)
    shown.run("run")
    shown.js("scrollTo(0, 0)")
    shown.page.picture(docs / "page-picture.png", whole=True, **around(shown, "#pictured", 1100))
    shown.js("document.querySelector('#what-if select').value = '6'")
    shown.js("[...document.querySelectorAll('#what-if button')].find((it) => it.textContent === 'Show').click()")
    shown.idle()
    shown.js("scrollTo(0, 0)")
    shown.page.picture(docs / "page-what-if.png", whole=True, **around(shown, "#what-if", 1600))
    shown.write_job(PAIR)
    shown.view("parts")
    shown.js(f"{id_of('scheduling')}.open = true")
    shown.click("try")
    shown.idle()
    shown.page.picture(docs / "page-many.png", whole=True, **around(shown, "#scheduling", 900))
    pictures_of_schedules(shown, docs)
    shown.page.close()


def pictures_of_schedules(shown, docs):
    """Takes the pictures of a schedule by speeds, and of all that can come of a job."""
    shown.example(PICTURED)
    shown.view("parts")
    shown.js(f"{id_of('scheduling')}.open = true")
    shown.choose("speeds", "kdf9")
    left, top, width, _ = shown.js("(({ left, top, width, height }) => [left, top + scrollY, width, height])(document.querySelector('.schedule').getBoundingClientRect())")
    bottom = shown.js(f"{id_of('schedule')}.getBoundingClientRect().bottom + scrollY")
    shown.page.picture(docs / "page-schedule.png", whole=True, x=left - 8, y=top - 8, width=width + 16, height=bottom - top + 16)
    shown.choose("speeds", "")
    shown.write_job((ROOT / "examples/study/deadlock.job").read_text(encoding="ascii"))
    shown.js(f"{id_of('exploring')}.open = true")
    shown.click("explore")
    shown.idle()
    shown.page.picture(docs / "page-explore.png", whole=True, **around(shown, "#exploring", 900))


def around(shown, selector, height):
    """The part of the page with an element, with a margin, and at most this height."""
    left, top, width, high = shown.js(f"""(() => {{ const {{ left, top, width, height }} = document.querySelector({json.dumps(selector)}).getBoundingClientRect();
        return [left, top + scrollY, width, height]; }})()""")
    return {"x": left - 8, "y": top - 8, "width": width + 16, "height": min(high + 16, height)}


def show_call(shown, name, call):
    """Runs an example and shows it after a call."""
    shown.example(name)
    shown.run("run")
    shown.click("look")
    shown.page.wait("document.querySelector('.programs') !== null")
    shown.js(f"(() => {{ const it = document.querySelector('#replay input'); it.value = {call}; it.dispatchEvent(new Event('input')); }})()")
    shown.page.wait(f"{id_of('state')}.textContent.startsWith('After call {call}:')")
    shown.js("document.getElementById('replay').scrollIntoView()")


def make_page(file, *words):
    """Makes the page in this file with these arguments. Returns whether it could be made."""
    with open(file, "wb") as written:
        return subprocess.run([ROOT / "kdf9", *words], stdout=written, check=False).returncode == 0


def main(words):
    if browser.PROGRAM is None:
        print("page: not run, since there is no chromium")
        return 0
    with tempfile.TemporaryDirectory() as folder:
        file = pathlib.Path(folder) / "kdf9.html"
        if not make_page(file, "page"):
            print("page: the page could not be made")
            return 1
        if words == ["--pictures"]:
            with Browser() as running:
                take_pictures(running.open, f"file://{file}")
                take_picture(running.open, file.with_name("course.html"), ROOT / "docs" / "page-course.png")
            return 0
        all_cases = list(cases(file))
    faults = [(what, why) for what, why in all_cases if why]
    for what, why in faults:
        print(f"page: {what}: {why}")
    print(f"page: {len(all_cases) - len(faults)} passed, {len(faults)} failed")
    return 1 if faults else 0


if __name__ == "__main__":
    sys.exit(main(sys.argv[1:]))
