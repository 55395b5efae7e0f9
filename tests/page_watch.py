"""Tries the watch of a word on the page: its stops, the calls to which they lead, and the names of the words."""
import json
import re

from page_pool import CALLS_OF_KEY
from page_runs import cut_report
from shown import id_of
from toolkit import kdf9

DECK = "PROGRAM; SET 4; =C1; *; 1; DC1; *; 2; J1C1NZ; ZERO; 3; OUT; FINISH;"
JOB = "KDF9 JOB 1\n" + "".join(f"SLOT {slot}\nSTORE 32\nDECK\n{DECK}\nENDDECK\n" for slot in (0, 1)) \
    + "SCHEDULE\nORDERS 9\nSWAP 0 1\nORDERS 9\nSWAP 0 1\nORDERS 60\nENDJOB\n"

# The places of the deck that can be watched, as they are offered, and what is said of others.
PLACES = [["P0", "word 1"], ["1P0", "word 2"], ["2P0", "word 3"]]
NO_PLACES = [("3p0", "3P0 is at word 3, syllable 4, and only syllable 0"), ("9P0", "no place 9P0"), ("P1", "no place P1"), ("LOOP", "no place LOOP")]

STOPS = "[...document.querySelectorAll('.stops button')].map((it) => it.textContent)"
OFFERED = "[...document.querySelectorAll('#places option')].map((it) => [it.value, it.textContent])"
CALL = "Number(document.querySelector('#replay input').value)"

# The calls to which the key p leads, one after another, from the end of the run to its beginning.
BACK = """(() => {
    const it = document.querySelector('#replay'), slider = it.querySelector('input'), seen = [];
    slider.value = slider.max;
    slider.dispatchEvent(new Event('input'));
    while (seen.at(-1) !== 0) {
        it.dispatchEvent(new KeyboardEvent('keydown', { key: 'p', bubbles: true }));
        seen.push(Number(slider.value));
    }
    return seen;
})()"""


def stops_lead_to_their_calls(shown):
    """The text is that of the program, and each stop leads to the call of that order, after which the program is at the word."""
    shown.write_job(JOB)
    got, due = shown.run("watch", "1", "1P0"), kdf9(["watch", "1", "2"], JOB).out
    orders = [int(order) for order in re.findall(r"^STOP (\d+)$", due, re.MULTILINE)]
    yield "a watch by the name of its word", None if got == (due, 0) and orders else f"{got} in place of {due}"
    seen, due = shown.js(STOPS), [f"after {order} order{'' if order == 1 else 's'}" for order in orders]
    yield "the stops of a watch", None if seen == due else f"{seen} in place of {due}"
    calls, reports = [], {}
    for at, order in enumerate(orders):
        shown.js(f"document.querySelectorAll('.stops button')[{at}].click()")
        call = shown.js(CALL)
        shown.page.wait(f"{id_of('state')}.textContent.startsWith('After call {call}:')")
        before, now = (cut_report(JOB, each, reports).sections[1] for each in (call - 1, call))
        seen = before.orders, now.orders, list(now.at)
        yield f"stop {at + 1} of a watch", None if seen == (order - 1, order, [2, 0]) else f"call {call}: {seen}"
        calls.append(call)
    total = shown.js("Number(document.querySelector('#replay input').max)")
    seen = shown.js(CALLS_OF_KEY.replace("KEY", json.dumps("n"))), shown.js(BACK)
    yield "the keys of a watch", None if seen == ([*calls, total], [*calls[::-1], 0]) else f"{seen} in place of {calls}"
    seen = shown.js("document.querySelectorAll('#replay .stop').length")
    yield "the stops in the picture", None if seen == len(orders) else f"are {seen}"
    shown.run("run")
    shown.click("look")
    seen = shown.js("[...document.querySelectorAll('#replay button')].map((it) => it.textContent)")
    yield "a run without a watch", None if "Next hold" in seen and "Next stop" not in seen else f"{seen}"


def places_have_names(shown):
    """The places of the deck are offered, and what can't be watched is said."""
    shown.write_job(JOB)
    shown.choose("command", "watch")
    shown.js(f"{id_of('place')}.focus()")
    shown.page.wait("document.querySelector('#places option') !== null")
    seen = shown.js(OFFERED)
    yield "the places that are offered", None if seen == PLACES else f"{seen}"
    for place, due in NO_PLACES:
        shown.choose("command", "watch")
        shown.js(f"{id_of('place')}.value = {json.dumps(place)}")
        shown.click("run")
        shown.idle()
        yield f"a watch of {place}", None if due in shown.state() else shown.state()
    got = shown.run("watch", "3", "1P0"), shown.js("document.querySelector('#sections p').textContent")
    yield "a watch of no slot", None if got == ((kdf9(["watch", "3", "0"], JOB).out, 0), "The job has no slot 3.") else f"{got}"
    got = shown.run("watch", "0", "8192")
    yield "a watch of no word", None if got == (kdf9(["watch", "0", "8192"], JOB).out, 1) else f"{got}"


SUITES = stops_lead_to_their_calls, places_have_names
