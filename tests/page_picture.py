"""Tries the picture of a run: it is that of the tool `picture`, says to what the calls went, and one finds one's way in it and takes it away."""
import base64
import json
import re
import struct
import sys
import xml.etree.ElementTree

from slips import job
from toolkit import ROOT, kdf9

sys.path.insert(0, str(ROOT / "tools"))
from kdf9.drawing import svg  # noqa: E402
from kdf9.measures import HELD_BY, of_device, of_program, of_run  # noqa: E402
from kdf9.spent import facts_of  # noqa: E402
from kdf9.journal import Chart  # noqa: E402
from kdf9.machine import sound_facts  # noqa: E402
from kdf9.report import read_report  # noqa: E402

# How many columns a picture has, whether it is the page's or the tool's.
COLUMNS = 440
SVG = "{http://www.w3.org/2000/svg}"
BY_KEYS = "adds-cards-while-a-tape-is-copied"

# What the bars of the picture say, and the rows of the table beside it.
TITLES = "[...document.querySelectorAll('#pictured .bar > title')].map((it) => it.textContent)"
SUMS = "Object.fromEntries([...document.querySelectorAll('#pictured .sums tbody tr')].map((row) => [row.cells[0].textContent, Number(row.cells[1].textContent.replaceAll(',', ''))]))"
SAID = "document.querySelector('#pictured .told').textContent"
NUMBERS = "[...document.querySelectorAll('#pictured text[text-anchor]')].map((it) => it.textContent).filter((text) => /^[\\d,]{2,}$/.test(text))"

CELLS = "[...document.querySelectorAll('#pictured .sums tbody tr')].map((row) => [...row.cells].map((cell) => cell.textContent))"

# The jobs whose numbers are compared with those that ./kdf9 stats writes.
STATED = [ROOT / "examples" / "adds-cards-while-a-tape-is-copied.job", ROOT / "examples" / "two-programs-share-a-punch.job",
          *(ROOT / "examples" / "study" / f"{name}.job" for name in ("convoy", "deadlock", "lists-first", "computes-first", "convoy-short-first"))]

# Keeps what is saved as files and copied.
KEEP = """globalThis.saved = []; URL.createObjectURL = (blob) => { saved.push(blob); return 'data:,'; };
navigator.clipboard.writeText = async (text) => { globalThis.copied = text; }; 0"""

# A program that loops for a million calls, and reads a tape meanwhile, over and over.
LONG = job("PROGRAM V0; V0 = Q3/32/33;\n  SET 2; SET 5; OUT; V0; =Q1;\n1; PRQ1; SET 40; 2; NEG; NOT; DUP; J2GTZ; ERASE; J1; FINISH;", "DEVICE 3 TR\n+" + "AB" * 4000 + "\n",
           "".join("ORDERS 2500\nEND 3\n" for _ in range(400)))


def examples_of_runs():
    """The examples, and the cases with what few of them have, that are runs: the name of each, its job and its report."""
    for folder in ("examples", "tests/cases"):
        for path in sorted((ROOT / folder).glob("*.report")):
            report, deck = path.read_text(encoding="latin-1"), path.with_suffix(".job")
            if folder != "examples" and not re.search(r"^(?:SWAP|MOVE|CLOCK|WAIT|FAIL) ", report, re.MULTILINE):
                continue
            if report.startswith("KDF9 REPORT") and deck.exists() and path.with_suffix(".args").read_text(encoding="ascii") == "run\n" and len(report) < 20000:
                yield path.stem, deck.read_text(encoding="latin-1"), report


def rows_due(text):
    """The rows of the table that a job has to have, as the tool stats reckons them."""
    facts = facts_of(sound_facts(text))
    run, due = of_run(facts), {}
    rows = {"calls": "all calls", "throughput": "programs that ended or failed, for each 1,000 calls", **{
        name: f"processor: {said}" for name, said in (("running", "running"), ("overlapped", "running during a transfer"), ("held up", "finding a program held up"), ("idle", "idle"))}}
    due.update({row: run[name] for name, row in rows.items()})
    for number, device in facts.devices.items():
        named = f"device {number} {device.kind}{' (pool)' if device.is_of_pool else ''}"
        due.update({f"{named}: {name}": value for name, value in of_device(device, facts.calls).items() if name not in ("kind", "share busy")})
    for slot, program in facts.programs.items():
        due.update({f"program {slot}: {name.replace('held', 'held up')}": value for name, value in of_program(program).items() if name != "state" and not name.startswith(HELD_BY)})
        due.update({f"program {slot}: held up by {cause}": calls for cause, calls in program.held.items()})
    return due


def pictures_are_those_of_the_tool(shown):
    """The picture of each example of a run has the bars of the tool's, each with what it says; and the table beside it says what the tool stats does."""
    tried = 0
    for name, text, report in examples_of_runs():
        read = read_report(report, "the report")
        chart = Chart(read, "the report", COLUMNS)
        if not 0 < chart.total <= COLUMNS or chart.columns.folds:
            continue
        shown.write_job(text)
        shown.run("run")
        shown.js("[...document.querySelectorAll('#pictured button')].find((it) => it.textContent === 'All calls').click()")
        drawn = xml.etree.ElementTree.fromstring("\n".join(svg(chart)))
        due, seen = sorted(title.text for title in drawn.iter(f"{SVG}title")), sorted([*shown.js(TITLES), next(drawn.iter(f"{SVG}title")).text])
        yield f"the picture of {name}", None if seen == due else f"{[each for each in seen if each not in due][:3]} in place of {[each for each in due if each not in seen][:3]}"
        sums = shown.js(SUMS)
        yield f"the table of {name}", None if sums == rows_due(text) else f"{sums} in place of {rows_due(text)}"
        tried += 1
    yield "pictures are tried", None if tried > 20 else f"{tried}"


def numbers_are_those_of_stats(shown):
    """Each number that ./kdf9 stats tells of a job stands in the table, and each share beside its number; no other number does."""
    for path in STATED:
        text = path.read_text(encoding="ascii")
        run = kdf9(["stats", "-", "--json"], text)
        shown.write_job(text)
        shown.run("run")
        seen = {row: (float(value.replace(",", "")), share) for row, value, share in shown.js(CELLS)}
        due = dict(numbers_due(json.loads(run.out)[0]))
        wrong = [(row, seen.get(row), number) for row, number in due.items() if row not in seen or seen[row][0] != number[0] or number[1] is not None and abs(float(seen[row][1].rstrip(" %")) - 100 * number[1]) > 0.051]
        yield f"the numbers of stats of {path.stem}", None if run.status == 0 and not wrong and {*seen} == {*due} else f"{wrong} {({*seen}) ^ ({*due})}"


def numbers_due(record):
    """The rows that a record of stats calls for, each with its number, and with its share if the record has one."""
    rows = {"calls": "all calls", "running": "processor: running", "overlapped": "processor: running during a transfer", "held_up": "processor: finding a program held up",
            "idle": "processor: idle", "throughput": "programs that ended or failed, for each 1,000 calls"}
    for name, row in rows.items():
        yield row, (record[name], record.get(f"share_{name}"))
    for device in record["devices"]:
        named = f"device {device['device']} {device['kind']}{' (pool)' if 'lent' in device else ''}"
        for name in device.keys() - {"device", "kind", "share_busy"}:
            yield f"{named}: {name.replace('_', ' ')}", (device[name], device.get(f"share_{name}"))
    for slot in record["slots"]:
        for name in slot.keys() - {"slot", "state", "held_by"}:
            yield f"program {slot['slot']}: {name.replace('held', 'held up')}", (slot[name], None)
        for cause, calls in slot["held_by"].items():
            yield f"program {slot['slot']}: held up by {cause}", (calls, None)


def pictures_are_taken_away(shown):
    """The picture is saved as SVG, with all that the tool's has, and as PNG; the table is copied as CSV."""
    shown.example(BY_KEYS)
    shown.run("run")
    shown.js(KEEP)
    for name in ("Save as SVG", "Save as PNG", "Copy the table"):
        shown.js(f"[...document.querySelectorAll('#pictured button')].find((it) => it.textContent === {json.dumps(name)}).click()")
    shown.page.wait("saved.length === 2 && globalThis.copied")
    types = shown.js("saved.map(({ type }) => type)")
    yield "the kinds of files", None if types == ["image/svg+xml", "image/png"] else f"{types}"
    drawn = xml.etree.ElementTree.fromstring(shown.js("saved[0].text()"))
    due = xml.etree.ElementTree.fromstring((ROOT / "docs/picture.svg").read_text(encoding="utf-8"))
    texts, due_texts = (sorted(text.text for text in each.iter(f"{SVG}text")) for each in (drawn, due))
    yield "the words of the SVG", None if texts == due_texts else f"{[each for each in due_texts if each not in texts]}"
    shades, due_shades = ({box.get("fill") for box in each.iter(f"{SVG}rect")} - {None} for each in (drawn, due))
    yield "the shades of the SVG", None if shades == due_shades else f"{shades} in place of {due_shades}"
    png = base64.b64decode(shown.js("saved[1].arrayBuffer().then((bytes) => btoa(String.fromCharCode(...new Uint8Array(bytes).slice(0, 30))))"))
    size = struct.unpack(">II", png[16:24])
    yield "the PNG", None if png.startswith(b"\x89PNG") and size == tuple(2 * int(float(drawn.get(each))) for each in ("width", "height")) else f"{png} {size}"
    lines = shown.js("copied").split("\n")
    yield "the table as CSV", None if lines[:2] == ['"","number","share"', '"all calls",304,"100.0 %"'] else f"{lines[:2]}"


def ways_lead_through_pictures(shown):
    """By keys one goes from bar to bar and from row to row, closer and further, and to the call of a bar; a screen reader finds what the picture shows."""
    shown.example(BY_KEYS)
    shown.run("run")
    label = shown.js("document.querySelector('#pictured svg').getAttribute('aria-label')")
    yield "the text for a screen reader", None if "304 calls, 218 of them idle; 9 transfers. slot 0: ENDED: 49 orders, held up for 192 calls" in label and "device 6 MT: 3 transfers" in label else label
    shown.js("document.querySelector('#pictured .timeline > div').focus()")
    for key, code, due in ((("ArrowRight", 39, "slot 0, calls 1 to 14: obeyed 14 orders")), ("ArrowDown", 40, "slot 1, calls 1 to 15: ready for 15 calls while another ran"),
                           ("ArrowRight", 39, "slot 1, calls 16 to 29: obeyed 14 orders"), ("ArrowDown", 40, "device 4 CR, calls 15 to 60: a transfer for slot 0 during 46 calls; 1 transfer begun")):
        shown.page.press(key, code)
        yield f"{key} to {due[:20]}", None if shown.js(SAID) == due else shown.js(SAID)
    shown.page.press("Enter", 13)
    shown.page.wait("document.querySelector('#replay output')?.textContent === '14 of 304'")
    yield "Enter goes to the call", None
    shown.js("document.querySelector('#pictured .timeline > div').focus()")
    for key, due in (("+", "Calls 77 to 228 of 304."), ("]", "Calls 115 to 266 of 304."), ("[", "Calls 77 to 228 of 304."), ("-", "All calls."), ("+", "Calls 77 to 228 of 304."), ("0", "All calls.")):
        shown.page.press(key, ord(key), text=key)
        yield f"the key {key} of a picture", None if shown.js(SAID) == due else shown.js(SAID)


def pictures_of_a_million_calls(shown):
    """In a run of a million calls one zooms until single calls are seen, pans, and goes to a call by a click, each time at once."""
    shown.write_job(LONG)
    shown.run("run")
    yield "a picture of a million calls", None if shown.js(NUMBERS)[-1] == "1,000,000" else f"{shown.js(NUMBERS)}"
    taken = shown.js("""(() => { const it = document.querySelector('#pictured .timeline > div'), began = performance.now();
        for (let at = 0; at < 15; at += 1) it.dispatchEvent(new KeyboardEvent('keydown', { key: '+', bubbles: true }));
        return performance.now() - began; })()""")
    numbers = shown.js(NUMBERS)
    yield "single calls of a million", None if numbers[0].startswith("499,98") or numbers[0].startswith("499,99") else f"{numbers}"
    yield "the time of fifteen steps", None if taken < 15000 else f"{taken:.0f} ms"
    drag = """(() => { const it = document.querySelector('#pictured .timeline > div'), { left, top, width } = it.querySelector('svg').getBoundingClientRect(), y = top + 60;
        const send = (name, share, buttons) => it.dispatchEvent(new PointerEvent(name, { clientX: left + width * share, clientY: y, buttons, bubbles: true }));
        send('pointerdown', 0.8, 1); send('pointermove', 0.5, 1); send('pointerup', 0.5, 0); send('click', 0.5, 0); })()"""
    shown.js(drag)
    moved = shown.js(NUMBERS)
    yield "a picture that is dragged", None if moved[0] > numbers[0] and not shown.js("document.querySelector('#replay output')") else f"{moved} after {numbers}"
    shown.js("document.querySelector('#pictured svg').dispatchEvent(new MouseEvent('click', { bubbles: true, clientX: (({ left, width }) => left + width * 0.6)(document.querySelector('#pictured svg').getBoundingClientRect()) }))")
    shown.page.wait("document.querySelector('#replay output')?.textContent.includes('of 1,000,000')")
    at = shown.js("document.querySelector('#replay output').textContent")
    yield "a click at a call of a million", None if at.startswith("500,0") else at


SUITES = pictures_are_those_of_the_tool, numbers_are_those_of_stats, pictures_are_taken_away, ways_lead_through_pictures, pictures_of_a_million_calls
