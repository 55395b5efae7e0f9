"""Tries "All that can come of it": the page finds what the tool explore does, line by line, each outcome opens as a job, and Stop tells what was found so far."""
import json

import small_jobs
from shown import id_of
from slips import job
from toolkit import ROOT, kdf9, side_by_side

STUDY = ROOT / "examples" / "study"

# The jobs of docs/STUDY.md and others: asks, a pool that deadlocks and three that don't, one that asks nothing, one in which a program starves, and some that fail. Then
# jobs that chance makes: with asks, a pool and a clock, by their seeds.
NAMED = [
    STUDY / "race.job", STUDY / "deadlock.job", STUDY / "same-order.job", STUDY / "one-more.job", STUDY / "gives-back-first.job",
    *(ROOT / "examples" / f"{name}.job" for name in ("adds-cards", "lets-a-starved-program-in", "two-programs-share-a-punch", "asks-for-the-time", "waits-until-the-other-fails")),
]
SEEDS = range(1, 15)

# A program that asks three times during each of twelve transfers: it has millions of results.
ENDLESS = job(f"PROGRAM V0; V0 = Q3/32/33;\n  SET 2; SET 5; OUT; V0; =Q1;\n  {'PRQ1; BUSYQ1; BUSYQ1; BUSYQ1; ' * 12}ZERO; OUT; FINISH;", "DEVICE 3 TR\n+" + "AB" * 400 + "\n", "ORDERS 400\n")

LINES = "[...document.querySelectorAll('#explored .line')].map((it) => it.textContent)"
OPENS = "[...document.querySelectorAll('#explored button')].map((it) => it.getAttribute('aria-label'))"


def explored(shown, text, calls=60, runs=2000):
    """The lines that the page tells of a job."""
    shown.write_job(text)
    shown.js(f"{id_of('explored-calls')}.value = '{calls}'; {id_of('explored-runs')}.value = '{runs}'")
    shown.click("explore")
    shown.idle()
    return shown.js(LINES)


def outcomes_are_those_of_the_tool(shown):
    """What is told of small jobs is what the tool tells of them."""
    jobs = [(path.stem, path.read_text(encoding="ascii")) for path in NAMED] + [(f"small job {seed}", small_jobs.job(seed)) for seed in SEEDS]
    told = side_by_side([(["explore", "-"], text) for _, text in jobs])
    for (name, text), run in zip(jobs, told):
        due, got = run.out.split("\n")[:-1], explored(shown, text)
        yield f"all that can come of {name}", None if got == due and run.status == 0 else f"{[line for line in got if line not in due]} in place of {[line for line in due if line not in got]} {shown.state()}"
    yield "jobs are explored", None if len(jobs) > 20 else f"{len(jobs)}"
    for calls, runs in ((20, 2000), (60, 3), (60, 5)):
        text = (STUDY / "deadlock.job").read_text(encoding="ascii")
        due = kdf9(["explore", "-", "--calls", str(calls), "--runs", str(runs)], text).out.split("\n")[:-1]
        got = explored(shown, text, calls, runs)
        yield f"a search of {calls} calls and {runs} runs", None if got == due else f"{got} in place of {due}"


def outcomes_open(shown):
    """Each outcome opens as the job that shows it, also one after the other; a job that was changed isn't replaced."""
    shown.view("parts")
    text = (STUDY / "deadlock.job").read_text(encoding="ascii")
    explored(shown, text)
    names = shown.js(OPENS)
    yield "the outcomes that open", None if len(names) == 5 and "deadlock after 25 calls" in names[2] else f"{names}"
    for at, due in ((2, "deadlock"), (0, "Program 0 has ended"), (3, "deadlock"), (4, "Done, in")):
        shown.js(f"document.querySelectorAll('#explored button')[{at}].click()")
        shown.idle()
        yield f"the outcome {names[at]}", None if due in shown.state() else shown.state()
    is_shown = "END 8" in shown.js("kdf9.job()")
    shown.js(f"{id_of('offer')}.querySelector('button').click()")
    yield "the schedule of an outcome", None if is_shown else shown.js("kdf9.job()")
    shown.write_job(text.replace("SCHEDULE\n", "SCHEDULE\nSWAP 0 1\n"))
    shown.js("document.querySelector('#explored button').click()")
    yield "an outcome of another job", None if "has been changed since it was explored" in shown.state() else shown.state()
    for typed, name in (("0", "explored-calls"), ("1001", "explored-calls"), ("a", "explored-runs")):
        shown.js(f"{id_of('explored-calls')}.value = '60'; {id_of('explored-runs')}.value = '2000'; {id_of(name)}.value = {json.dumps(typed)}")
        shown.click("explore")
        yield f"{typed} in {name}", None if "can have 1 to 1000 calls" in shown.state() else shown.state()
    shown.js(f"{id_of('explored-calls')}.value = '60'; {id_of('explored-runs')}.value = '2000'")


def searches_are_stopped(shown):
    """Stop ends a search, and what was found so far is told, with what was left out. A job with a fault isn't explored."""
    shown.write_job(ENDLESS)
    shown.js(f"{id_of('explored-calls')}.value = '300'; {id_of('explored-runs')}.value = '20000'")
    shown.click("explore")
    shown.page.wait(f"!{id_of('exploring-runs')}.hidden && {id_of('exploring-runs')}.value > 3")
    shown.click("stop")
    shown.idle()
    lines, hidden = shown.js(LINES), shown.js(f"{id_of('exploring-runs')}.hidden")
    yield "a search that is stopped", None if hidden and lines and lines[-1].startswith("not whole: the search was stopped, with ") else f"{hidden} {lines} {shown.state()}"
    for text, due in ((small_jobs.job(1).replace("FINISH;", "ADD 7; FINISH;", 1), "Status 3: a deck has a fault. UnknownOrder"), ("KDF9 JOB 1\nSTORE 7\n", "Status 2: the job has a fault. BadLine")):
        lines, marked = explored(shown, text), shown.js("document.querySelector('.fault') !== null")
        yield f"no search: {due}", None if due in shown.state() and marked and not lines else f"{shown.state()} {lines}"


SUITES = outcomes_are_those_of_the_tool, outcomes_open, searches_are_stopped
