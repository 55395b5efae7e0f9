"""Tries schedules without lines: what if a device were faster, and many schedules by their seeds."""
import json
import re

from shown import id_of
from slips import job, pooled
from toolkit import ROOT, kdf9

# A program that reads a tape three times, and then punches as often; each transfer takes 30 calls.
BOTH = job("PROGRAM V1; V0 = Q3/32/33; V1 = Q5/32/33;\n  SET 2; SET 5; OUT; V0; =Q1; SET 1; SET 5; OUT; V1; =Q2;\n  PRQ1; E32; ERASE; PRQ1; E32; ERASE; PWQ2; E32; ERASE; ZERO; OUT; FINISH;",
           "DEVICE 3 TR\n+" + "AB" * 40 + "\nDEVICE 5 TP\n", "ORDERS 400\n")

# Two programs, each of which takes a punch and a printer of the pool, but in another sequence.
PAIR = pooled(*(f"PROGRAM; SET {one}; SET 5; OUT; SET {other}; SET 5; OUT; ZERO; OUT; FINISH;" for one, other in ((1, 3), (3, 1))))

# A job, the set of speeds that is chosen, what is typed for devices in the two columns, and the words of the tool for the same.
SPEEDY = [
    (BOTH.replace("ORDERS 400", "ORDERS 400000"), "kdf9", {}, {}, ["--speeds", "kdf9"]),
    (BOTH.replace("ORDERS 400", "ORDERS 400000"), "kdf9", {"3": "40"}, {}, ["3=40", "--speeds", "kdf9"]),
    (BOTH.replace("ORDERS 400", "ORDERS 9000"), "kdf9", {"5": "20"}, {"5": "9", "3": "77"}, ["--speeds", "kdf9", "--speed", "5=20+9", "--speed", "3=0+77"]),
    (BOTH, "", {"5": "13"}, {"3": "11"}, ["--after", "20", "5=13", "--speed", "3=0+11"]),
    ((ROOT / "examples/study/day.job").read_text(encoding="ascii").replace("ORDERS 2000000\n", "ORDERS 60000\n"), "kdf9", {}, {}, ["--speeds", "kdf9"]),
]

EMPTY = "document.querySelectorAll('#delays input').forEach((it) => { it.value = ''; })"
ROW = """Object.fromEntries([...document.querySelectorAll('#what-if .sums tbody tr')].map((row) => [row.cells[0].textContent, [...row.cells].slice(1).map((cell) => cell.textContent)]))"""
OUTCOMES = "[...document.querySelectorAll('#outcomes details')].map((it) => [it.querySelector('summary').textContent, [...it.querySelectorAll('button')].map((each) => each.textContent)])"


def faster_devices_are_shown(shown):
    """What if a device were twice as fast: one number gives both runs and what changed, as a schedule that is written with half the calls has it."""
    shown.write_job(BOTH)
    shown.js(f"{id_of('after')}.value = '30'; {id_of('every')}.value = ''")
    shown.click("schedule")
    shown.idle()
    shown.run("run")
    before = shown.js("kdf9.job()")
    shown.js("document.querySelector('#what-if select').value = '3'")
    shown.js("[...document.querySelectorAll('#what-if button')].find((it) => it.textContent === 'Show').click()")
    shown.idle()
    rows, pictures = shown.js(f"[{ROW}, document.querySelectorAll('#what-if svg').length]")
    busy = rows["device 3 TR: busy"]
    good = pictures == 2 and busy[0] == "60" and busy[2] == "30" and busy[4] == "-30" and rows["device 5 TP: busy"][4] == "0" and int(rows["all calls"][4]) == -30
    yield "a tape that is twice as fast", None if good else f"{pictures} {rows}"
    yield "what is said of it", None if "If device 3 TR were 2 times as fast, the last program was over at call" in shown.state() else shown.state()
    yield "the job stays", None if shown.js("kdf9.job()") == before else shown.js("kdf9.job()")
    shown.js("[...document.querySelectorAll('#what-if button')].find((it) => it.textContent.startsWith('Put this')).click()")
    shown.idle()
    taken = shown.js("kdf9.job()")
    shown.write_job(BOTH)
    shown.view("parts")
    shown.js("document.querySelector('#delays [data-device=\"3\"]').value = '15'")
    shown.click("schedule")
    shown.idle()
    yield "the schedule of the faster tape", None if shown.js("kdf9.job()") == taken else f"{taken[-200:]} {shown.js('kdf9.job()')[-200:]}"
    shown.run("run")
    for typed in ("", "0", "a", "1e9"):
        shown.js(f"document.querySelector('#what-if input').value = {json.dumps(typed)}")
        shown.js("[...document.querySelectorAll('#what-if button')].find((it) => it.textContent === 'Show').click()")
        yield f"{typed!r} times as fast", None if "has to be a number" in shown.state() else shown.state()
    shown.example("adds-5-and-7")
    shown.run("run")
    yield "no devices", None if shown.js("document.querySelector('#what-if').childElementCount") == 0 else "there is a question"


def speeds_are_those_of_the_tool(shown):
    """Devices have speeds by name, or calls and calls for each word: the schedule is the one that the tool writes, and its lines are folded."""
    shown.view("parts")
    for text, name, calls, words, asked in SPEEDY:
        shown.write_job(text)
        shown.view("parts")
        shown.js(f"{id_of('after')}.value = '20'; {id_of('every')}.value = ''")
        shown.choose("speeds", name)
        shown.js(EMPTY)
        for column, typed in (("device", calls), ("word", words)):
            for device, number in typed.items():
                shown.js(f"document.querySelector('#delays [data-{column}=\"{device}\"]').value = {json.dumps(number)}")
        shown.click("schedule")
        shown.idle()
        due, got = kdf9(["schedule", "-", *asked], text).out, shown.js("kdf9.job()")
        yield f"the schedule of {' '.join(asked)}", None if due and got == due else f"is {got[-200:]!r} in place of {due[-200:]!r} {shown.state()}"
    lines, ends = got.partition("\nSCHEDULE\n")[2].split("\n")[:-2], got.count("\nEND ")
    said, is_open = shown.js("[document.querySelector('.schedule summary').textContent, document.querySelector('.schedule details').open]")
    yield "what is said of the schedule", None if f"60,000 calls, {len(lines)} lines, of them {ends} END" in said and not is_open else f"{said} {is_open}"
    shown.write_job(BOTH.replace("ORDERS 400", "ORDERS 400\nEND x"))
    shown.view("parts")
    shown.run("run")
    yield "a fault in the folded lines", None if shown.js("document.querySelector('.schedule details').open") else "they are folded"
    shown.write_job(BOTH)
    shown.view("parts")
    for typed in ("a", "999999999"):
        shown.js(f"document.querySelector('#delays [data-word=\"3\"]').value = {json.dumps(typed)}")
        shown.click("schedule")
        yield f"{typed} calls for each word", None if "aren't numbers of calls" in shown.state() else shown.state()
    shown.choose("speeds", "")
    shown.js(EMPTY)


def many_schedules_are_tried(shown):
    """Many schedules by their seeds: how many end, and who waits for whom in those that don't; each seed opens the schedule of which that is said."""
    shown.write_job(PAIR)
    shown.js(f"{id_of('schedules')}.value = '40'; {id_of('first-seed')}.value = '1'")
    shown.click("try")
    shown.idle()
    state, found = shown.state(), shown.js(OUTCOMES)
    said = re.fullmatch(r"(?:(\d+) ended; )?(\d+) deadlock \(seed (\d+): program (\d) waits for (\w+) (\d+), held by (\d), which waits for (\w+) (\d+), held by \4\)\.", state.removeprefix("▸ "))
    yield "what is said of forty schedules", None if said and int(said[1] or 0) + int(said[2]) == 40 and {said[5], said[8]} == {"printer", "punch"} else state
    lists = {summary.split(":")[0]: seeds for summary, seeds in found}
    good = sum(map(len, lists.values())) == 40 and len(lists["deadlock"]) == int(said[2]) and lists["deadlock"][0] == said[3]
    yield "the lists of seeds", None if good else f"{lists}"
    for kind, due in (("deadlock", "deadlock"), ("ended", "Done, in")):
        if kind not in lists:
            continue
        seed = lists[kind][-1]
        shown.js(f"document.querySelector('#outcomes button[aria-label=\"Open seed {seed}\"]').click()")
        shown.idle()
        yield f"seed {seed} opens", None if due in shown.state() else shown.state()
    shown.js(f"{id_of('offer')}.querySelector('button').click()")
    shown.write_job(PAIR.replace("SCHEDULE\n", "SCHEDULE\nCLOCK 5\n"))
    shown.js("document.querySelector('#outcomes button')?.click()")
    yield "seeds of another job", None if "has been changed since these" in shown.state() else shown.state()
    for typed in ("0", "1001", "a"):
        shown.js(f"{id_of('schedules')}.value = {json.dumps(typed)}")
        shown.click("try")
        yield f"{typed} schedules", None if "There can be 1 to 1000 schedules" in shown.state() else shown.state()
    shown.js(f"{id_of('schedules')}.value = '1000'")
    shown.click("try")
    shown.page.wait(f"!{id_of('tried')}.hidden && {id_of('tried')}.value > 3")
    shown.click("stop")
    shown.idle()
    yield "trials are stopped", None if "Stopped after" in shown.state() and shown.js(f"{id_of('tried')}.hidden") else shown.state()
    shown.js(f"{id_of('schedules')}.value = '100'")


SUITES = faster_devices_are_shown, speeds_are_those_of_the_tool, many_schedules_are_tried
