"""Tries what the page's machine answers: each example and case, runs call by call, and the examples of the orders."""
import importlib.machinery
import importlib.util
import json
import re
import subprocess
import sys
import threading

from shown import id_of
from toolkit import ROOT, kdf9

sys.path.insert(0, str(ROOT / "tools"))
from kdf9.job import read_lines, read_slots
from kdf9.report import read_report
from kdf9.schedule import cut_before_next, job_with, read_schedule

COMMAND = re.compile(r"run|save|resume|check|(?:alone|asm|make)\n\d+|watch\n\d+\n\d+")

# A longer job comes as a file, and a text of more bytes is left out.
LONGEST_WRITTEN, LONGEST_GIVEN = 100_000, 100_000_000

# Runs that are looked at call by call; of a longer one only every so many calls.
LOOKED_AT = (
    "adds-5-and-7", "subroutine", "walks-over-a-table", "reads-tape", "computes-while-it-reads", "two-parts", "waits-for-its-printer", "asks-for-the-time",
    "asks-the-service", "adds-to-nothing", "fails-with-a-transfer-in-flight", "two-programs-share-a-punch", "waits-until-the-other-fails",
)
FEW_CALLS, STEP = 80, 9

# What is shown of each program at a call: the paragraph on its orders, the registers, and how many words have changed.
SHOWN_PROGRAMS = """[...document.querySelectorAll('.programs > section')].map((it) => [it.querySelector('p').textContent,
    [...it.querySelector('table').querySelectorAll('tbody tr')].map((row) => [...row.children].map((cell) => cell.textContent)),
    [...it.querySelectorAll('table')].slice(1).flatMap((words) => [...words.querySelectorAll('tbody th')])
        .filter((name) => name.textContent.startsWith('•')).length])"""


def stored(path, kind):
    return path.with_suffix(f".{kind}").read_bytes()


def job_of(path):
    """The bytes of the job of an example or a case."""
    made = path.with_suffix(".make")
    return subprocess.run([made], capture_output=True, check=True).stdout if made.exists() else stored(path, "job")


def runs_are_those_of_the_program(shown):
    """Each example and case, by the Run button where the job can be written into the editor, and else by the machine itself."""
    for path in sorted(it for folder in ("examples", "tests/cases") for it in (ROOT / folder).glob("*.status")):
        job, words, due = job_of(path), stored(path, "args").decode(), stored(path, "report").decode("latin-1")
        if len(job) > LONGEST_GIVEN:
            continue
        status = int(stored(path, "status"))
        is_typed = COMMAND.fullmatch(words.rstrip("\n")) and job.isascii() and b"\r" not in job and b"\0" not in job
        if is_typed:
            if len(job) < LONGEST_WRITTEN:
                shown.write_job(job.decode("ascii"))
            else:
                shown.open_file(path.stem, job)
            got = shown.run(*words.split())
            yield f"run of {path.stem}", None if got == (due, status) else f"gives {got[1]} {got[0][:200]!r}"
        else:
            numbers = json.dumps(list(job)) if len(job) < 100000 else f"Array({len(job)}).fill({job[0]})" if len(set(job)) == 1 else None
            given = [bytes(it, "ascii").decode("unicode_escape") for it in words.split("\n")[:-1]]
            if numbers is None or any(it and ord(it) > 126 for word in given for it in word):
                continue
            got = shown.js(f"kdf9.ask({json.dumps(given)}, new Uint8Array({numbers})).then(({{ text, status }}) => [text, status])")
            yield f"answer to {path.stem}", None if got == [due, status] else f"gives {got[1]} {got[0][:200]!r}"


def runs_are_looked_at(shown):
    """At each call what is shown is the report of the job cut there, with the whole stores shown, as the program gives it."""
    for name in LOOKED_AT:
        text = (ROOT / f"examples/{name}.job").read_text(encoding="ascii")
        shown.example(name)
        shown.choose("command", "run")
        shown.click("run")
        shown.idle()
        shown.click("look")
        shown.page.wait("document.querySelector('.programs') !== null")
        total, reports = shown.js("Number(document.querySelector('#replay input').max)"), {}
        wrong = [why for call in range(0, total + 1, 1 if total <= FEW_CALLS else STEP) for why in wrong_at(shown, text, call, reports)]
        yield f"{name} call by call", "; ".join(wrong[:3]) or None
    shown.js("document.querySelector('#replay').dispatchEvent(new KeyboardEvent('keydown', { key: 'b', bubbles: true }))")
    shown.page.wait(f"{id_of('state')}.textContent.startsWith('After call {total - 1}:')")
    yield "a call back by its key", None


def cut_report(text, call, reports):
    """The report of a job cut after a call, as the program gives it."""
    if call not in reports:
        lines = read_lines(text)
        slots = read_slots(lines)
        schedule = cut_before_next(read_schedule(lines), call)
        reports[call] = read_report(kdf9(["run"], job_with(slots, schedule._replace(calls=call), slots)).out, "the report")
    return reports[call]


def wrong_at(shown, text, call, reports):
    """What is shown wrongly at a call."""
    shown.js(f"(() => {{ const it = document.querySelector('#replay input'); it.value = {call}; it.dispatchEvent(new Event('input')); }})()")
    shown.page.wait(f"{id_of('state')}.textContent.startsWith('After call {call}:')")
    now, before = (cut_report(text, each, reports).sections for each in (call, max(call - 1, 0)))
    for (orders, registers, changed), section in zip(shown.js(SHOWN_PROGRAMS), now.values(), strict=True):
        signed = [f"{word - 2 ** 48 if word >> 47 else word}" for word in section.nest]
        due = ["  ".join(signed) or "empty", "  ".join(section.links) or "empty", ", ".join(map(str, section.flags))]
        q_stores = {row[0].removeprefix("• "): row[1] for row in registers[3:]}
        due_q_stores = {f"Q{number}": "/".join(map(str, parts)) for number, parts in section.q_stores.items()}
        others = sum(word != before[section.number].words[address] for address, word in section.words.items())
        seen = [row[1] for row in registers[:3]], {name: parts for name, parts in q_stores.items() if parts != "0/0/0"}, changed
        if not orders.startswith(f"After {section.orders} order") or seen != (due, due_q_stores, others):
            yield f"call {call}, slot {section.number}: {orders} {seen} in place of {section.orders} {(due, due_q_stores, others)}"


def orders_are_those_of_the_program(shown):
    """The examples of the orders, each by the page's machine."""
    suite = suite_of_orders()
    lock = threading.Lock()

    def answer(words, job):
        with lock:
            status, text = shown.js(f"kdf9.ask({json.dumps(words)}, {json.dumps(job)}).then(({{ status, text }}) => [status, text])")
        if status:
            raise suite.Wrong(f"the page answers {text.strip()} to this job:\n{job}")
        return text.split("\n")

    suite.answer = answer
    yield "the orders", "differ" if suite.main() else None


def suite_of_orders():
    """The script tests/orders, whose questions can be sent elsewhere."""
    loader = importlib.machinery.SourceFileLoader("orders", str(ROOT / "tests/orders"))
    suite = importlib.util.module_from_spec(importlib.util.spec_from_loader("orders", loader))
    sys.modules["orders"] = suite
    loader.exec_module(suite)
    return suite
