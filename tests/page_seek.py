"""Tries how calls of a run are found: by breakpoints, by the caret of a deck, and by the last change of a word; and what is said of an order that failed."""
import json

from page_help import caret_at
from shown import id_of
from slips import job

# A loop that adds 3, 2 and 1 into YA0. J1C1NZ begins no word: it comes next after calls 8, 14 and 20. DUMMY begins one, and comes next after call 26. YA0 changes
# with calls 7, 13 and 19.
DECK = "YA1;\nPROGRAM; SET 3; =C1;\n1; YA0; C1; +; =YA0;\n  DC1; J1C1NZ;\n*; DUMMY;\n  ERASE; FINISH;"
JUMPS, DUMMY, CHANGES = (8, 14, 20), 26, (7, 13, 19)
CALL = "Number(document.querySelector('#replay input').value)"


def press(shown, key, call):
    """Presses a key in the part of the page with the run; what is wrong if it doesn't lead to this call, or None."""
    shown.js(f"document.querySelector('#replay').dispatchEvent(new KeyboardEvent('keydown', {{ key: {json.dumps(key)}, bubbles: true }}))")
    shown.page.wait(f"{id_of('state')}.textContent.startsWith('After call {call}:')", 10)


def calls_are_found(shown):
    """F9 sets a breakpoint, and keys lead to all calls at which the program comes to it, also if it begins no word; F8 runs to the caret; w leads to the last change of a word."""
    shown.write_job(job(DECK))
    shown.view("parts")
    shown.run("run")
    caret_at(shown, "J1C1NZ")
    shown.page.press("F9", 120)
    yield "the breakpoint is marked", None if shown.js("document.querySelector('.gutter .break')?.textContent") == "●4" else shown.js("document.querySelector('.gutter').textContent")
    shown.click("look")
    shown.page.wait("document.querySelector('#replay .programs') !== null")
    for call in JUMPS:
        yield f"the breakpoint at call {call}", press(shown, "N", call)
    shown.js("document.querySelector('#replay').dispatchEvent(new KeyboardEvent('keydown', { key: 'N', bubbles: true }))")
    shown.page.wait(f"{id_of('state')}.textContent.includes('No program comes to a breakpoint')", 10)
    yield "no breakpoint after the last", None
    yield "the breakpoint before", press(shown, "B", JUMPS[-2])
    caret_at(shown, "DUMMY")
    shown.page.press("F8", 119)
    shown.page.wait(f"{CALL} === {DUMMY}", 10)
    yield "F8 runs to the caret", None
    shown.js("document.querySelector('#replay input[placeholder]').value = 'YA0'")
    yield "the last change of YA0", press(shown, "w", CHANGES[-1])
    for call in (JUMPS[1], CHANGES[1]):
        yield f"back to call {call}", press(shown, "B" if call in JUMPS else "w", call)
    shown.js("document.querySelector('#replay input[placeholder]').value = 'YA9'")
    shown.js("document.querySelector('#replay').dispatchEvent(new KeyboardEvent('keydown', { key: 'w', bubbles: true }))")
    shown.page.wait(f"{id_of('state')}.textContent.includes('has no word YA9')", 10)
    yield "no such word", None
    last = shown.js("Number(document.querySelector('#replay input').max)")
    shown.js(f"(() => {{ const it = document.querySelector('#replay input'); it.value = {last}; it.dispatchEvent(new Event('input')); }})()")
    shown.page.wait(f"{id_of('state')}.textContent.startsWith('After call {last}:')", 10)
    yield "the statement that failed", None if "program 0 failed at ERASE: NOUV" in shown.state() else shown.state()
    shown.type_into(".slot textarea", DECK.replace("J1C1NZ", "J1C1Z"))
    yield "no breakpoint at another statement", None if shown.js("document.querySelector('.gutter .break')") is None else "it is still there"


SUITES = (calls_are_found,)
