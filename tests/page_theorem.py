"""Tries what the page shows of the theorem: each program beside its lone run and beside the run before, and other schedules at random."""
import json
import pathlib
import re
import sys
import tempfile

from page_runs import job_of
from shown import Shown, id_of
from slips import RING
from toolkit import ROOT, job_of_deck, kdf9

sys.path.insert(0, str(ROOT / "tools"))
from kdf9.job import read_lines, read_slots
from kdf9.schedule import job_with, read_schedule

# The jobs whose programs are compared with their lone runs: plain ones, and some that ask, are held up, share a pool, fail with a transfer in flight, or are cut.
PATHS = [f"examples/{name}" for name in (
    "adds-5-and-7", "subroutine", "reads-tape", "computes-while-it-reads", "waits-for-its-printer", "stops-after-four-orders", "asks-for-the-time",
    "asks-the-service", "fails-with-a-transfer-in-flight", "adds-to-nothing", "adds-cards-while-a-tape-is-copied", "copies-a-tape-with-its-mark", "lets-a-starved-program-in",
    "two-programs-share-a-punch", "waits-until-the-other-fails",
)] + [f"tests/cases/{name}" for name in (
    "slots-1-and-3", "sees-a-word-that-was-moved", "moves-three-and-four-of-ten-words", "is-cut-while-it-waits", "asks-while-another-fails-after-its-punches",
    "least-number-of-the-kind", "second-program-waits-for-the-common-punch", "waits-while-another-is-quicker", "spools-to-stream-8", "swaps-of-three",
    "stores-fill-all-there-is", "reads-nothing-after-the-end-of-the-tape",
)]

# The jobs that are shuffled, and the seeds.
TWO, SHARED, ASKS = (f"examples/{name}" for name in ("adds-cards-while-a-tape-is-copied", "two-programs-share-a-punch", "asks-for-the-time"))
SEEDS = 0, 1, 7, 4711, 999999

# What is shown of each program: its heading, the verdict, the names of the columns, the rows of the table, and what is said of the other words.
SEEN = """[...document.querySelectorAll('#theorem .programs > section')].map((it) => ({
    name: it.querySelector('h3').textContent, verdict: it.querySelector('.verdict').textContent,
    columns: [...it.querySelectorAll('thead th')].slice(1).map((cell) => cell.textContent),
    rows: [...it.querySelectorAll('tbody tr')].map((row) => [...row.children].map((cell) => cell.textContent)),
    rest: it.querySelector('details > p')?.textContent ?? '' }))"""

# The rows of the tables of both journals and of both schedules.
BOTH = """[...document.querySelectorAll('#compared > details')].map((it) =>
    [...it.querySelectorAll('tbody tr')].map((row) => [...row.children].map((cell) => cell.textContent)))"""

# Which buttons of the panel can't be pressed.
DISABLED = "['see', 'compare-alone', 'compare-before', 'shuffle', 'neighbours'].map((name) => document.getElementById(name).disabled)"

# A job that runs for some time.
LOOP = job_of_deck("PROGRAM; 1; J1; FINISH;").replace("ORDERS 10\n", "ORDERS 20000000\n")

IN_FLIGHT = re.compile(r", except for the transfer in flight of device")


def text_of(path):
    return (ROOT / f"{path}.job").read_text(encoding="ascii")


def run(shown, text):
    """Runs a job with the Run button."""
    shown.write_job(text)
    return shown.run("run")


def compared(shown, button):
    """What is shown after a button of the panel was pressed."""
    shown.click(button)
    shown.idle()
    return shown.js(SEEN)


def said_by_tool(now, before=None):
    """What `same` says of each program of a job, alone or in another job, as the page says it; and the status."""
    with tempfile.TemporaryDirectory() as folder:
        files = [pathlib.Path(folder) / name for name in ("now", "before")[:1 if before is None else 2]]
        for file, text in zip(files, (now, before)):
            file.write_text(text, encoding="latin-1")
        done = kdf9(["same", *map(str, files)], "")
    text = done.out
    for file, name in zip(files, ("this run", "the run before")):
        text = text.replace(f"of {file}", f"of {name}").replace(f"in {file}", f"in {name}")
    return [line.split(": ", 1) for line in text.splitlines()], done.status


def wrong_verdicts(shown, seen, now, before=None):
    """What is wrong with what the page says of each program, or None. The line that is read aloud has to say it too."""
    due, status = said_by_tool(now, before)
    said = [[each["name"], each["verdict"]] for each in seen]
    lines = [[name_by_page(name), sentence(verdict)] for name, verdict in due]
    # The page also says why a program can't be compared.
    said = [[name, "Not in the run before." if verdict.startswith("Not in the run before, since") else verdict] for name, verdict in said]
    aloud = all(f"{name}: {verdict[0].lower()}{verdict[1:-1]}" in shown.state() for name, verdict in lines)
    return None if status == 0 and said == lines and aloud else f"{said} in place of {lines}; aloud {shown.state()}"


def name_by_page(name):
    return re.sub(r", which is slot (\d) of the run before", r", which was program \1 in the run before", name.replace("slot", "Program", 1))


def sentence(verdict):
    return f"{verdict[0].upper()}{verdict[1:]}."


def wrong_marks(seen):
    """What is wrong with the marks of what differs. A row is marked if its two cells differ, and only transfers in flight may differ."""
    for each in seen:
        for name, *cells in each["rows"]:
            if name.startswith("≠ ") != (cells[0] != cells[1]):
                return f"{each['name']}: {name} {cells}"
        is_marked = any(name.startswith("≠ ") for name, *_ in each["rows"]) or "differ" in each["rest"]
        if is_marked != bool(IN_FLIGHT.search(each["verdict"])):
            return f"{each['name']}: {each['verdict']} {each['rest']}"
    return None


def programs_are_compared_with_lone_runs(shown):
    """The verdict on each program is that of `same`, and the sections are those of the program's own reports."""
    jobs = {path: job_of(ROOT / f"{path}.status").decode("latin-1") for path in PATHS}
    for path, text in {**jobs, "two that wait for each other": RING}.items():
        run(shown, text)
        seen = compared(shown, "compare-alone")
        yield f"{path} and alone", wrong_verdicts(shown, seen, text) or wrong_marks(seen)
    for path in (TWO, SHARED, "examples/waits-for-its-printer"):
        text = text_of(path)
        run(shown, text)
        for slot, each in enumerate(compared(shown, "compare-alone")):
            yield f"the sections of program {slot} of {path}", wrong_sections(each, slot, text)


def wrong_sections(seen, slot, text):
    """What is wrong with the two sections of a program that has ended, or None: they are those of the reports with the whole store."""
    lines = read_lines(text)
    slots = read_slots(lines)
    whole = job_with(slots, read_schedule(lines), slots)
    for column, words in enumerate((["run"], ["alone", str(slot)])):
        lines = kdf9(words, whole).out.split(f"SLOT {slot}\n")[1].split("\nSLOT")[0].split("\nENDREPORT")[0].split("\n")
        state = [line.partition(" ")[2] for line in lines if line.startswith(("STATE", "ORDERS"))]
        octals = {line.split(" ")[2] for line in lines if line.startswith("WORD")}
        rows = {name: cells[column] for name, *cells in seen["rows"]}
        shown_words = {cell.split(" ")[0] for cell in rows.values() if re.match(r"[0-7]{16} ", cell)}
        blocks = [line for line in lines if line.startswith(("BLOCK", "LAST"))]
        shown_blocks = [line for cell in rows.values() for line in cell.split("\n") if line.startswith(("BLOCK", "LAST"))]
        if [rows["State"], rows["Orders"]] != state or not shown_words <= octals or not shown_words or blocks != shown_blocks:
            return f"{seen['columns'][column]}: {rows} in place of {lines}"
    return None if seen["columns"] == ["in this run", "alone"] else f"{seen['columns']}"


def schedules_are_shuffled(shown):
    """A seed gives another schedule of the same job, always the same one; and the programs come to the same as in the run before."""
    for path in (TWO, SHARED, ASKS):
        text = text_of(path)
        run(shown, text)
        before, made = text, []
        for seed in SEEDS:
            shown.js(f"{id_of('seed')}.value = {seed}")
            seen = compared(shown, "shuffle")
            now = shown.js("kdf9.job()")
            is_another = now not in (text, before) and now.split("\nSCHEDULE\n")[0] == text.split("\nSCHEDULE\n")[0]
            yield f"{path}, seed {seed}", wrong_verdicts(shown, seen, now, before) or wrong_marks(seen) or wrong_journals(shown, now, before)
            yield f"the schedule of {path}, seed {seed}", None if is_another and f"with seed {seed}." in shown.state() else f"{now} {shown.state()}"
            before = now
            made.append(now)
        shown.js(f"{id_of('seed')}.value = {SEEDS[0]}")
        compared(shown, "shuffle")
        yield f"{path}, the first seed again", None if shown.js("kdf9.job()") == made[0] and len(set(made)) == len(SEEDS) else "gives another schedule"
    shown.example(TWO.split("/")[1])
    shown.js(f"{id_of('seed')}.value = ''")
    compared(shown, "shuffle")
    seed, first = re.search(r"seed (\d+)", shown.state())[1], shown.js("kdf9.job()")
    yield "a job that wasn't run before", wrong_verdicts(shown, shown.js(SEEN), first, text_of(TWO))
    shown.example(TWO.split("/")[1])
    shown.js(f"{id_of('seed')}.value = {seed}")
    compared(shown, "shuffle")
    yield "a seed at random", None if shown.js("kdf9.job()") == first else f"seed {seed} gives another schedule"
    plain = text_of("examples/adds-5-and-7")
    run(shown, plain)
    shown.click("shuffle")
    shown.idle()
    yield "nothing to shuffle", None if "nothing to shuffle" in shown.state() and shown.js("kdf9.job()") == plain else shown.state()
    shown.write_job("KDF9 JOB 1\nSTORE 7\n")
    shown.click("shuffle")
    shown.idle()
    yield "a job with a fault isn't shuffled", None if "BadLine, line 2" in shown.state() else shown.state()
    shown.js(f"{id_of('seed')}.value = 'many'")
    shown.click("shuffle")
    yield "no seed", None if "A seed is a number" in shown.state() else shown.state()


def wrong_journals(shown, now, before):
    """What is wrong with the tables of both journals and both schedules, or None: each has the lines of both, and marks those that only one has."""
    for rows, lists in zip(shown.js(BOTH), (None, [text.split("\nSCHEDULE\n")[1].split("\n")[:-2] for text in (before, now)])):
        marks = [name.startswith("≠ ") for name, *_ in rows]
        if marks != [one != other for _, one, other in rows]:
            return f"{rows}"
        columns = [[cell for cell in column if cell] for column in list(zip(*rows))[1:]]
        if lists and columns != lists:
            return f"{columns} in place of {lists}"
    entries = [len(re.findall(r"^(?!KDF9)", kdf9(["run"], text).out.split("\nSLOT")[0], re.MULTILINE)) for text in (before, now)]
    shown_entries = [sum(bool(row[at]) for row in shown.js(BOTH)[0]) for at in (1, 2)]
    return None if entries == shown_entries else f"{shown_entries} entries in place of {entries}"


def decks_of_neighbours_are_changed(shown):
    """The programs whose decks are as they were are compared with the run before, also in another slot."""
    text = text_of(TWO)
    run(shown, text)
    shown.view("parts")
    deck = shown.js("document.querySelectorAll('.slot textarea')[0].value")
    shown.type_into(".slot textarea", deck.replace("ZERO; OUT; FINISH;", "DUMMY; DUMMY; ZERO; OUT; FINISH;"))
    now = shown.js("kdf9.job()")
    shown.run("run")
    seen = compared(shown, "compare-before")
    yield "another deck", wrong_verdicts(shown, seen, now, text) or wrong_marks(seen)
    verdicts = [each["verdict"][:20] for each in seen]
    yield "its neighbour is the same", None if verdicts == ["Not in the run befor", "The same."] else f"{verdicts}"
    run(shown, text)
    shown.js(f"{id_of('kept')}.value = '1'; {id_of('seed')}.value = 7")
    seen = compared(shown, "neighbours")
    now = shown.js("kdf9.job()")
    yield "neighbours at random", wrong_verdicts(shown, seen, now, text) or wrong_marks(seen)
    verdicts = [each["verdict"][:20] for each in seen]
    is_changed = re.sub("(DUMMY; )+", "", now) == text and now != text
    yield "the program that stays", None if verdicts == ["Not in the run befor", "The same."] and is_changed else f"{verdicts} {now}"
    plain = text_of("examples/adds-5-and-7")
    run(shown, plain)
    shown.js(f"{id_of('kept')}.value = '0'")
    shown.click("neighbours")
    shown.idle()
    yield "no neighbours", None if "no program in slot 0 with a neighbour" in shown.state() and shown.js("kdf9.job()") == plain else shown.state()
    moved = plain.replace("SLOT 0", "SLOT 1")
    run(shown, moved)
    seen = compared(shown, "compare-before")
    yield "another slot", wrong_verdicts(shown, seen, moved, plain) or wrong_marks(seen)
    run(shown, text)
    seen = compared(shown, "compare-before")
    yield "another job", None if {each["verdict"][:21] for each in seen} == {"Not in the run before"} else f"{seen}"


def panel_is_for_everybody(shown):
    """With the panel filled, each control has a name, no two elements have the same id, and nothing is wider than a narrow window."""
    run(shown, text_of(SHARED))
    shown.js(f"{id_of('seed')}.value = 7")
    compared(shown, "shuffle")
    nameless = shown.js("""[...document.querySelectorAll('#theorem button, #theorem input, #theorem [tabindex], #theorem section')]
        .filter((it) => !(it.textContent.trim() && it.tagName === 'BUTTON') && !it.getAttribute('aria-label') && !it.labels?.length).map((it) => it.outerHTML.slice(0, 80))""")
    yield "names in the panel", None if nameless == [] else f"are missing: {nameless}"
    twice = shown.js("[...document.querySelectorAll('[id]')].map((it) => it.id).filter((it, at, all) => all.indexOf(it) !== at)")
    yield "ids in the panel", None if twice == [] else f"stand twice: {twice}"
    shown.js("document.querySelectorAll('#theorem details').forEach((it) => { it.open = true; })")
    shown.page.send("Emulation.setDeviceMetricsOverride", width=360, height=800, deviceScaleFactor=1, mobile=False)
    width = shown.js("document.documentElement.scrollWidth")
    yield "the panel in a narrow window", None if width <= 360 else f"is {width} wide"
    shown.page.send("Emulation.setDeviceMetricsOverride", width=1280, height=900, deviceScaleFactor=1, mobile=False)
    shown.js(f"{id_of('shuffle')}.focus()")
    shown.page.press("Enter", 13, text="\r")
    shown.idle()
    kept = shown.js("[document.querySelectorAll('#theorem .verdict').length, document.activeElement.id]")
    yield "the panel by keyboard", None if kept == [2, "shuffle"] else f"{kept}"
    run(shown, text_of(SHARED))
    seen = compared(shown, "see")
    focus = shown.js("document.activeElement.id")
    is_there = [each["verdict"] for each in seen] == ["The same."] * 2 and focus == "theorem"
    yield "the button above leads to the panel", None if is_there else f"{focus} {seen}"
    shown.example("reads-tape")
    left = shown.js(f"[{id_of('compared')}.childElementCount, {DISABLED}]")
    yield "another job clears the panel", None if left == [0, [True, True, True, False, False]] else f"{left}"
    shown.write_job(LOOP)
    shown.click("shuffle")
    shown.page.press("Escape", 27)
    shown.idle()
    stopped = [shown.state(), shown.js(DISABLED)]
    yield "a shuffle is stopped", None if stopped == ["▸ Stopped.", [True, True, True, False, False]] else f"{stopped}"


def no_run_before(opened, address):
    """After the first run, that of the job with which it opens, the page compares with the lone runs; after the second with the run before too; and without a run nothing."""
    shown = Shown(opened(address))
    shown.idle()
    for due in ([False, False, True, False, False], [False] * 5):
        seen = shown.js(DISABLED)
        yield f"buttons of the panel: {json.dumps(due)}", None if seen == due else f"are {seen}"
        shown.run("run")
    shown.example("adds-5-and-7")
    seen = shown.js(DISABLED)
    yield "buttons of the panel without a run", None if seen == [True, True, True, False, False] else f"are {seen}"
    shown.page.close()


SUITES = programs_are_compared_with_lone_runs, schedules_are_shuffled, decks_of_neighbours_are_changed, panel_is_for_everybody
