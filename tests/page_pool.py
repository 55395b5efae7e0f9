"""Tries what the page shows of the pool: in the job, in what came of it, and call by call."""
import json
import re
import sys
from collections import Counter

from page_runs import cut_report
from shown import id_of
from slips import RING
from toolkit import HEAD, ROOT, TAIL, kdf9

sys.path.insert(0, str(ROOT / "tools"))
from kdf9.job import read_lines, read_slots
from kdf9.journal import Chart, calls_of
from kdf9.report import read_report
from kdf9.said import waiting_calls
from journals import HOLDS, in_flight, lent, timed

SHARED, FAILS = "examples/two-programs-share-a-punch", "examples/waits-until-the-other-fails"
QUICKER = "tests/cases/waits-while-another-is-quicker"

# Two punches. Program 0 has one of them and waits for the other.
ONE_MORE = """KDF9 JOB 1
SLOT 0
STORE 32
DECK
PROGRAM; SET 1; SET 5; OUT; SET 1; SET 5; OUT; ZERO; OUT; FINISH;
ENDDECK
SLOT 1
STORE 32
DECK
PROGRAM; SET 1; SET 5; OUT; SET 6; OUT; ZERO; OUT; FINISH;
ENDDECK
POOL
DEVICE 9 TP
DEVICE 4 TP
SCHEDULE
ORDERS 4
SWAP 0 1
ORDERS 4
SWAP 0 1
ORDERS 12
ENDJOB
"""

# Lines of devices and of the pool, the label of the control that has the fault, and what is said there.
FAULTS = [
    ("POOL\nDEVICE 9 TR\n", "Kind", "PoolKind: DEVICE 9 TR. A device of the pool is neither a punch nor a printer. (docs/JOB.md) Hint: the pool has"),
    ("POOL\nDEVICE 9 MT OUT\n", "Kind", "PoolKind: DEVICE 9 MT OUT."),
    ("POOL\nDEVICE 9 MT a\n", "Label", "BadLabel: DEVICE 9 MT a."),
    ("POOL\nDEVICE 16 TP\n", "Device", "BadNumber: DEVICE 16 TP."),
    ("DEVICE 3 TR\n+OK\nPOOL\nDEVICE 4 TP\nDEVICE 3 LP\n", "Device", "DeviceTwice: DEVICE 3 LP."),
    ("POOL\nDEVICE 4 TP\nDEVICE 4 LP\n", "Device", "DeviceTwice: DEVICE 4 LP."),
    ("POOL\nDEVICE 3 LP\n+A\n", "What is on it", "Line 1, column 1: BadMedium: +A."),
]

# Other jobs with a fault that has to do with the pool.
MORE_FAULTS = [
    HEAD + "POOL\n+A\n" + TAIL, HEAD + "POOL\nPOOL\n" + TAIL, HEAD + "POOL 9\n" + TAIL, HEAD + "POOL\nDEVICE 9\n" + TAIL, HEAD + "pool\n" + TAIL,
    HEAD + "POOL\nSHOW 0 0\n" + TAIL, HEAD + "POOL\nDEVICE 9 TP\nORDERS 9\n" + TAIL, HEAD + "POL\nDEVICE 9 TP\n" + TAIL, HEAD + "DEVICE 9 XX\nPOOL\n" + TAIL,
    "KDF9 JOB 1\nPOOL\nDEVICE 9 TP\n" + TAIL, (HEAD + TAIL).replace("ORDERS 10", "POOL"), HEAD + "POOL\nDEVICE 9 tp\n" + TAIL,
]

# The control that has a fault: its label, the part in which it stands, what is said, how many there are, and the label of the control that Go to it leads to.
FAULTY = """(() => {
    const it = document.querySelector('[aria-invalid]'), said = document.querySelector('.fault').textContent;
    const heading = it.closest('section').querySelector('h3').textContent, count = document.querySelectorAll('[aria-invalid]').length;
    document.querySelector('.fault button').click();
    const labels = [it, document.activeElement].map((control) => control.labels[0]?.textContent ?? control.getAttribute('aria-label'));
    return [labels[0], heading, said, count, labels[1]];
})()"""

# What is shown at a call: for each program its heading, and its stints with their blocks; and the lines on the pool.
SHOWN_POOL = """[[...document.querySelectorAll('.programs > section')].map((it) => [it.querySelector('h3').textContent,
    [...it.querySelectorAll('p')].filter((said) => /^(• )?Pool device/.test(said.textContent)).map((said) => [said.textContent, said.nextSibling?.textContent ?? ''])]),
    [...document.querySelectorAll('section[aria-label=Pool] li')].map((it) => it.textContent)]"""

# The calls to which a key leads, one after another, from the beginning of the run to its end.
CALLS_OF_KEY = """(() => {
    const it = document.querySelector('#replay'), slider = it.querySelector('input'), seen = [];
    slider.value = 0;
    slider.dispatchEvent(new Event('input'));
    while (seen.at(-1) !== Number(slider.max)) {
        it.dispatchEvent(new KeyboardEvent('keydown', { key: KEY, bubbles: true }));
        seen.push(Number(slider.value));
    }
    return seen;
})()"""

# What the bars of the picture say.
DRAWN = "[...document.querySelectorAll('#replay .bar > title')].map((it) => it.textContent).join('\\n')"

NAMES = {"TP": "punch", "LP": "printer"}
STATES = {"LIVE": "held", "ENDED": "held until the program ended", "FAILED": "held until the program failed"}


def jobs():
    """The jobs that are looked at call by call, by their names."""
    texts = {path: (ROOT / f"{path}.job").read_text(encoding="ascii") for path in (SHARED, FAILS, QUICKER)}
    return {**texts, "two that wait for each other": RING, "one that wants one more": ONE_MORE, "one with a reader too": with_reader(texts[SHARED])}


def with_reader(text):
    """A job whose first program also has a device of its own."""
    return text.replace("ENDDECK\nSLOT 1\n", "ENDDECK\nDEVICE 2 TR\n+ABC\nSLOT 1\n")


def pool_is_edited(shown):
    """A job with a pool is shown by parts as it is; and a pool is added, changed and removed."""
    for path in sorted(it for folder in ("examples", "tests/cases") for it in (ROOT / folder).glob("*.job")):
        text = path.read_text(encoding="latin-1")
        if "\nPOOL\n" in text:
            shown.write_job(text)
            shown.view("parts")
            seen = shown.js("[kdf9.job(), document.querySelector('.notice').hidden, [...document.querySelectorAll('.slot h3')].at(-2).textContent]")
            yield f"the pool of {path.stem}", None if seen == [text, True, "Pool"] else f"{seen}"
    plain = (ROOT / "examples/reads-tape.job").read_text(encoding="ascii")
    shown.write_job(plain)
    shown.view("parts")
    own = re.findall(r"^DEVICE (\d+)", plain, re.MULTILINE)
    first, second = [number for number in map(str, range(16)) if number not in own][:2]
    for step, script, pool in (
        ("a pool is added", press("Add a pool"), f"POOL\nDEVICE {first} TP\n"),
        ("a device is added to the pool", press("Add a device to the pool"), f"POOL\nDEVICE {first} TP\nDEVICE {second} TP\n"),
        ("it becomes a printer", change("select", 1, "LP", "change"), f"POOL\nDEVICE {first} TP\nDEVICE {second} LP\n"),
        ("the first has another number", change("input", 0, "13", "input"), f"POOL\nDEVICE 13 TP\nDEVICE {second} LP\n"),
        ("the first is removed", press("Remove device"), f"POOL\nDEVICE {second} LP\n"),
        ("the other is removed", press("Remove device"), "POOL\n"),
        ("the pool is removed", press("Remove the pool"), ""),
    ):
        shown.js(script)
        got, focus = shown.js("[kdf9.job(), document.activeElement.tagName]")
        due = plain.replace("SCHEDULE\n", f"{pool}SCHEDULE\n")
        yield step, None if got == due and focus != "BODY" else f"{focus} {got}"
        status = shown.run("run")[1]
        yield f"{step}, and the job runs", None if status == 0 else f"status {status}"


def press(name):
    """Presses the first button whose label, or else whose text, begins so; of the buttons of devices only those of the pool. A script."""
    return f"""[...document.querySelectorAll('.parts button')].filter((it) => (it.getAttribute('aria-label') ?? it.textContent).startsWith({json.dumps(name)})
        && (!it.closest('fieldset') || it.closest('section').querySelector('h3').textContent === 'Pool'))[0].click()"""


def change(control, index, value, event):
    """Gives another value to the pool's control of this kind and index. A script."""
    return f"""(() => {{ const pool = [...document.querySelectorAll('.slot')].find((it) => it.querySelector('h3').textContent === 'Pool');
        const it = pool.querySelectorAll({json.dumps(control)})[{index}]; it.focus(); it.value = {json.dumps(value)};
        it.dispatchEvent(new Event({json.dumps(event)})); }})()"""


def faults_of_the_pool_are_shown(shown):
    """A fault of the pool is shown at the control that has it, and is what `explain` says."""
    texts = [HEAD + lines + TAIL for lines, _, _ in FAULTS]
    for text, (_, label, said) in zip(texts, FAULTS):
        shown.write_job(text)
        shown.view("parts")
        shown.run("run")
        got = shown.js(FAULTY)
        good = got[:2] == [label, "Pool"] and said in got[2] and got[3:] == [1, label]
        yield f"at its place: {said[:40]}", None if good else f"{got}"
    shown.write_job(MORE_FAULTS[9])
    shown.view("parts")
    shown.run("run")
    got = shown.js(FAULTY)
    yield "a pool without a program", None if got[0] == "Remove the pool" and "BadLine: POOL." in got[2] else f"{got}"
    for text in [*texts, *MORE_FAULTS]:
        yield f"explained: {text.removeprefix(HEAD)[:24]!r}", wrong_explanation(shown, text)


def wrong_explanation(shown, text):
    """What the page says of a fault in another way than `explain`, or None."""
    said = kdf9(["explain", "-"], text).err
    head, hint = said.split("\n")[0], re.search(r"^  hint: (.*)$", said, re.MULTILINE)
    got = shown.js(f"kdf9.explain({json.dumps(text)})")
    seen = f"-:{got['line']}:{got['column']}: {got['name']}: {got['subject']}", got["hint"]
    return None if seen == (head, hint and hint[1]) else f"is {seen} in place of {said}"


def stints_are_in_the_results(shown):
    """What came of a job has the stints of each program, in the order of taking."""
    all_jobs = jobs()
    for name, words, due in (
        (SHARED, ["run"], ["given back, place 2, flag 0|PROGRAM0\nPROGRAM0", "given back, place 1, flag 0|PROGRAM1"]),
        (FAILS, ["run"], ["held until the program failed, place 1, flag 0|PROGRAM0", "held until the program ended, place 1, flag 0|PROGRAM1"]),
        (SHARED, ["alone", "1"], ["given back, place 1, flag 0|PROGRAM1"]),
        ("one with a reader too", ["alone", "0"], ["given back, place 2, flag 0|PROGRAM0\nPROGRAM0"]),
    ):
        shown.write_job(all_jobs[name])
        shown.run(*words)
        seen = shown.js("""[...document.querySelectorAll('#sections p')].filter((it) => it.textContent.startsWith('Pool device'))
            .map((it) => `${it.textContent}|${it.nextSibling.textContent}`)""")
        due = [f"Pool device 9, TP: {stint}" for stint in due]
        yield f"stints of {name}, {' '.join(words)}", None if seen == due else f"{seen}"
    shown.write_job(all_jobs[SHARED])
    report = read_report(shown.run("run")[0], "the page's report")
    rows = shown.js("[...document.querySelectorAll('#sections > details td')].map((it) => it.textContent)")
    for said in (
        "program 0 took device 9 from the pool", "program 1 is held up by the pool, of which every punch has a holder",
        "program 0 gave device 9 back to the pool",
    ):
        yield f"the journal: {said}", None if rows.count(said) == 1 else f"{rows}"
    due = [f"{calls}" for calls, _ in timed(report.entries)]
    yield "the journal: calls before each entry", None if rows[1::2] == due else f"{rows[1::2]} in place of {due}"


def pool_is_looked_at(shown):
    """Call by call, the stints, the holders and those who wait are those of the journal up to that call; and so are the keys and the picture."""
    for name, text in jobs().items():
        shown.write_job(text)
        shown.choose("command", "run")
        shown.click("run")
        shown.idle()
        report = read_report(shown.js("kdf9.text()"), "the page's report")
        shown.click("look")
        shown.page.wait("document.querySelector('.programs') !== null")
        total, reports = shown.js("Number(document.querySelector('#replay input').max)"), {}
        wrong = [why for call in range(total + 1) for why in wrong_pool_at(shown, text, call, reports)]
        yield f"the pool in {name}, call by call", "; ".join(wrong[:3]) or None
        for key, due in (("h", calls_of_holds(report)), ("e", calls_of_events(report))):
            seen = shown.js(CALLS_OF_KEY.replace("KEY", json.dumps(key)))
            due = sorted({*due, total} - {0})
            yield f"the key {key} in {name}", None if seen == due else f"leads to {seen} in place of {due}"
        yield f"the picture of {name}", wrong_picture(shown, report, total)


def calls_of_holds(report):
    """The calls that found a program held up."""
    return [calls + 1 for calls, entry in timed(report.entries) if entry[0] in HOLDS]


def calls_of_events(report):
    """The calls after which something happened."""
    return [calls + calls_of(entry) for calls, entry in timed(report.entries) if entry[0] not in ("RAN", "IDLE")]


def wrong_picture(shown, report, total):
    """What is wrong with the calls of the lent devices and of the waits in the picture of a run, or None."""
    chart = Chart(report, "the report", total)
    due = sum((lane.total() for lane in chart.lent_lanes.values()), Counter()), sum(waiting_calls(lane.total()) for lane in chart.slot_lanes.values())
    said, lendings = shown.js(DRAWN), Counter()
    for slot, calls in re.findall(r"lent to slot (\d) for (\d+) call", said):
        lendings[int(slot)] += int(calls)
    seen = lendings, sum(int(calls) for calls in re.findall(r"held up for (\d+) calls? by the pool", said))
    return None if seen == due else f"has {seen} in place of {due}"


def wrong_pool_at(shown, text, call, reports):
    """What is shown wrongly of the pool at a call."""
    shown.js(f"(() => {{ const it = document.querySelector('#replay input'); it.value = {call}; it.dispatchEvent(new Event('input')); }})()")
    shown.page.wait(f"{id_of('state')}.textContent.startsWith('After call {call}:')")
    now, before = (cut_report(text, each, reports) for each in (call, max(call - 1, 0)))
    pool = next(iter(read_slots(read_lines(text)).values())).pool_kinds()
    programs, lines = shown.js(SHOWN_POOL)
    waits = {number: wait for number in now.sections if (wait := wait_of(now, number, pool))}
    for (heading, stints), (number, section) in zip(programs, now.sections.items(), strict=True):
        due = f"Program {number}: {said_of_wait(now, number, pool, *waits[number])}" if number in waits else "no pool"
        if heading != due if number in waits else "of the pool" in heading:
            yield f"call {call}: {heading} in place of {due}"
        due = [[line, "\n".join(stint.blocks)] for line, stint in zip(said_of_stints(now, before, number), section.stints)]
        if stints != due:
            yield f"call {call}, slot {number}: {stints} in place of {due}"
    due = [*said_of_pool(now, before, pool)] + [f"Program {number} has waited for a {NAMES[kind]} since call {since}." for number, (kind, since) in waits.items()]
    if lines != due:
        yield f"call {call}: {lines} in place of {due}"


def wait_of(report, number, pool):
    """The kind of device for which a program waits at the end of a report, and since which call; or None."""
    holds = [(calls, entry) for calls, entry in timed(report.entries) if entry[0] in ("RAN", *HOLDS) and entry[1] == number]
    if report.sections[number].state != ["LIVE"] or not holds or holds[-1][1][0] != "WAIT":
        return None
    calls, (_, _, kind) = holds[-1]
    is_held = all(device in lent(report.entries) for device, each in pool.items() if each == kind)
    return (kind, calls + 1) if is_held else None


def said_of_wait(report, number, pool, kind, since):
    """Why a program waits, as the page says it."""
    holders = [(device, *lent(report.entries)[device]) for device in sorted(pool) if pool[device] == kind]
    had = [f"{'it has itself' if slot == number else f'program {slot} has'} had device {device} since call {call}" for device, slot, call in holders]
    return f"held up since call {since}: it waits for a {NAMES[kind]} of the pool, and {', and '.join(had)}"


def said_of_stints(now, before, number):
    """The stints of a program, as the page shows them."""
    old = [(stint, before.sections[number].state) for stint in before.sections[number].stints]
    for at, stint in enumerate(now.sections[number].stints):
        state = now.sections[number].state
        is_held = stint.state.startswith("HELD")
        is_changed = at >= len(old) or old[at][0] != stint or (is_held and old[at][1] != state)
        slot, begun = in_flight(now.entries).get(stint.number, (None, 0))
        transfer = f"; a transfer since call {begun}, 0 words moved by MOVE" if is_held and slot == number else ""
        place = stint.state.split(" ")[2]
        said = STATES[state[0]] if is_held else "given back"
        yield f"{'• ' if is_changed else ''}Pool device {stint.number}, {stint.kind}: {said}, place {place}{transfer}."


def said_of_pool(now, before, pool):
    """The devices of the pool and their holders, as the page shows them."""
    holders, old = lent(now.entries), lent(before.entries)
    for number, kind in pool.items():
        said = "program {} has had it since call {}".format(*holders[number]) if number in holders else "nobody has it"
        yield f"{'• ' if holders.get(number) != old.get(number) else ''}Device {number}, {kind}: {said}."


SUITES = pool_is_edited, faults_of_the_pool_are_shown, stints_are_in_the_results, pool_is_looked_at
