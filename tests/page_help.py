"""Tries the help at the caret of a deck: what a statement is, where its jumps lead, how it may go on, and find and replace."""
import json
import re

from shown import CTRL
from slips import job
from toolkit import document, job_of_deck

ALT_CTRL = 3
DECK = "YA2;\nPROGRAM V3; V0 = 7;\n1; V0; =YA1M2; SHAC3; SET-4; M1M2QH; LPQ1;\n  J1C2NZ; JSP7; J9; ZERO; OUT;\nP7V1; V1; EXIT; J1P0;\nFINISH;\n"
TEXTAREA = "document.querySelector('.slot textarea')"
HELP = "[...document.querySelector('.help').children].map((it) => it.textContent)"

# A statement of the deck, the order whose entry it has, and more that is said.
HELPS = [
    ("V0;", "En", ""), ("=YA1M2", "=En", ""), ("SHAC3", "SHA", ""), ("SET-4", "SET", ""),
    ("M1M2QH", "MkMq", ""), ("LPQ1", "LPQq", ""), ("J1C2NZ", "JrCqNZ", "It jumps to line 3."), ("JSP7", "JSr", "It jumps to line 5."), ("J9", "Jr", "no place 9P0"),
    ("EXIT", "EXITn", ""), ("OUT", "OUT", ""), ("J1P0", "Jr", "It jumps to line 3."),
]

# What is typed after this deck, what is offered first, and how the deck goes on if that is taken.
BEGUN = "YA1;\nPROGRAM V2;\n7; "
OFFERS = [("MFR", "MFRQ1"), ("J", "J7"), ("V2", None), ("=YA", "=YA0"), ("C3TOQ", "C3TOQ1"), ("SHAD", None), ("DU", "DUMMY")]


def caret_at(shown, what):
    """Puts the caret at the first place of a text in the deck, as somebody does with the mouse."""
    shown.js(f"(() => {{ const it = {TEXTAREA}, at = it.value.indexOf({json.dumps(what)}); it.focus(); it.setSelectionRange(at, at);"
             " it.dispatchEvent(new PointerEvent('pointerup')); })()")


def statements_are_explained(shown):
    """F1 shows the entry of docs/ORDERS.md for the statement at the caret, with its examples, and what the deck says of it."""
    shown.write_job(job(DECK))
    shown.view("parts")
    shown.run("run")
    orders = document("ORDERS.md")
    caret_at(shown, "ZERO")
    shown.page.press("F1", 112)
    for what, name, more in HELPS:
        caret_at(shown, what)
        seen = " ".join(shown.js(HELP))
        body = re.search(rf"^### `{re.escape(name)}`\n\n(.*?)\n\n", orders, re.MULTILINE | re.DOTALL)[1]
        said, examples = " ".join(body.replace("`", "").split()), shown.js("document.querySelectorAll('.help tbody tr').length")
        yield f"help for {what}", None if said in seen and more in seen and examples else f"{seen[:300]}"
    for what, part in (("YA2", "YLn, where L is a letter"), ("V0 = 7", "octal digits, below 2^48"), ("1; V0", "The jumps in lines 4, 5 lead here."), ("P7V1", "The jumps in line 4 lead here.")):
        caret_at(shown, what)
        yield f"help for {what}", None if part in " ".join(shown.js(HELP)) else f"{shown.js(HELP)}"
    shown.write_job(job(DECK.replace("J9; ", "")))
    shown.view("parts")
    shown.run("run")
    names = shown.js(f"kdf9.ask(['asm', '0'], kdf9.job()).then(({{ text }}) => text.split('WORD').length - 1)")
    shown.page.press("F1", 112)
    for what, address in (("V0;", 1), ("=YA1M2", names - 2), ("V1; EXIT", names - 6)):
        caret_at(shown, what)
        shown.js(f"{TEXTAREA}.dispatchEvent(new Event('focus'))")
        said = shown.js("document.querySelector('.help p')?.textContent ?? ''")
        yield f"the address of {what}", None if said == f"In this deck it is the word at address {address}." else said
    shown.js("document.querySelector('.help').hidden || document.querySelector('.help button').click()")
    yield "F1 closes the help", None if shown.js("document.querySelector('.help').hidden") else "it is open"


def every_order_has_its_entry(shown):
    """Each example of docs/ORDERS.md finds the entry in which it stands."""
    names = re.split(r"^### `(\S+)`\n", document("ORDERS.md"), flags=re.MULTILINE)[1:]
    examples = [(name, order) for name, body in zip(names[::2], names[1::2]) for order in re.findall(r"^\| `(\S+)` \|", body, re.MULTILINE)]
    shown.js(f"{TEXTAREA}.focus()")
    shown.page.press("F1", 112)
    wrong = []
    for name, order in dict.fromkeys(examples):
        shown.js(f"(() => {{ const it = {TEXTAREA}; it.value = {json.dumps(f'PROGRAM; {order}; FINISH;')}; it.setSelectionRange(9, 9); it.dispatchEvent(new Event('input')); }})()")
        rows = shown.js("[...document.querySelectorAll('.help tbody th')].map((it) => it.textContent)")
        due = {each for other, each in examples if other == name}
        if set(rows) != due:
            wrong.append((name, order, rows[:2]))
    shown.page.press("F1", 112)
    yield f"the entries of {len(examples)} examples", None if len(examples) > 250 and not wrong else f"{wrong[:5]}"


def jumps_are_followed(shown):
    """F2 goes from a jump to its place, and from a place to the jumps to it one after another; what belongs together is marked."""
    shown.write_job(job(DECK))
    shown.view("parts")
    places = [("J1C2NZ", "1;"), ("JSP7", "P7V1"), ("1; V0", "J1C2NZ"), ("P7V1", "JSP7"), ("J9", "J9")]
    for what, due in places:
        caret_at(shown, what)
        shown.page.press("F2", 113)
        rest = shown.js(f"{TEXTAREA}.value.slice({TEXTAREA}.selectionStart)")
        yield f"from {what} to {due}", None if rest.startswith(due) else rest[:20]
    caret_at(shown, "1; V0")
    marked = shown.js("[...document.querySelectorAll('.painted .use')].map((it) => it.textContent)")
    yield "what belongs together", None if marked == ["1", "J1C2NZ", "J1P0"] else f"{marked}"


def statements_go_on(shown):
    """Ctrl and space offers how a statement may go on, the arrows choose, and what is written can be undone."""
    for typed, due in OFFERS:
        shown.write_job(job_of_deck(BEGUN + typed))
        shown.view("parts")
        shown.js(f"(() => {{ const it = {TEXTAREA}; it.focus(); it.setSelectionRange({len(BEGUN + typed)}, {len(BEGUN + typed)}); }})()")
        shown.page.press(" ", 32, CTRL)
        offered = shown.js("[...document.querySelectorAll('.offers li')].filter((it) => it.checkVisibility()).map((it) => it.textContent)")
        yield f"what goes on as {typed}", None if (offered[:1] == [due] if due else typed not in offered) else f"{offered}"
        if due is None:
            shown.page.press("Escape", 27)
            continue
        shown.page.press("Enter", 13)
        text = shown.js(f"{TEXTAREA}.value")
        yield f"{typed} becomes {due}", None if text == f"{BEGUN}{due}\n" and due in shown.js("kdf9.job()") else text
        shown.js("document.execCommand('undo')")
        yield f"and {typed} again by undo", None if shown.js(f"{TEXTAREA}.value") == f"{BEGUN}{typed}\n" else shown.js(f"{TEXTAREA}.value")
    shown.page.press(" ", 32, CTRL)
    shown.page.press("ArrowDown", 40)
    chosen = shown.js("[document.querySelector('.offers [aria-selected=true]').textContent, document.activeElement.getAttribute('aria-activedescendant')"
                      " === document.querySelector('.offers [aria-selected=true]').id]")
    shown.page.press("Escape", 27)
    is_open = shown.js("document.querySelector('.offers').checkVisibility()")
    shown.js("[...document.querySelectorAll('button')].find((it) => it.textContent === 'Offer names').click()")
    by_button = shown.js("document.querySelector('.offers').checkVisibility()")
    shown.page.press("Escape", 27)
    yield "names are offered by a button", None if by_button else "they aren't"
    yield "the arrows choose", None if chosen == ["DUP", True] and not is_open else f"{chosen} {is_open}"


def texts_are_found_and_replaced(shown):
    """Find goes from place to place, and Replace all changes all of them as one step that can be undone."""
    shown.write_job(job("PROGRAM; SET 1; SET 12; SET 1; FINISH;"))
    shown.view("parts")
    shown.js(f"(() => {{ const it = {TEXTAREA}; it.focus(); it.setSelectionRange(0, 0); }})()")
    shown.page.press("f", 70, ALT_CTRL)
    fields = "document.querySelectorAll('[aria-label=\"Find and replace\"] input')"
    shown.js(f"{fields}[0].value = 'SET 1'; {fields}[1].value = 'SET 77'; 0")
    starts = []
    for _ in range(4):
        shown.js("[...document.querySelectorAll('button')].find((it) => it.textContent === 'Next').click()")
        starts.append(shown.js(f"{TEXTAREA}.selectionStart"))
    yield "from place to place", None if starts == [9, 16, 24, 9] else f"{starts}"
    shown.js("[...document.querySelectorAll('button')].find((it) => it.textContent === 'Replace').click()")
    text = shown.js(f"{TEXTAREA}.value")
    yield "one is replaced", None if text == "PROGRAM; SET 77; SET 12; SET 1; FINISH;\n" else text
    shown.js("[...document.querySelectorAll('button')].find((it) => it.textContent === 'Replace all').click()")
    text = shown.js(f"{TEXTAREA}.value")
    yield "all are replaced", None if text == "PROGRAM; SET 77; SET 772; SET 77; FINISH;\n" and text in shown.js("kdf9.job()") else text
    shown.js(f"{TEXTAREA}.focus(); document.execCommand('undo')")
    yield "and undone", None if shown.js(f"{TEXTAREA}.value") == "PROGRAM; SET 77; SET 12; SET 1; FINISH;\n" else shown.js(f"{TEXTAREA}.value")


def pointers_are_told(shown):
    """The statement at the pointer is told in a few words."""
    shown.write_job(job(DECK))
    shown.view("parts")
    at = shown.js(f"""(() => {{ const it = {TEXTAREA}, box = it.getBoundingClientRect(), probe = document.querySelector('.slot .painted'), range = document.createRange();
        const node = [...probe.childNodes].find((each) => each.textContent.includes('LPQ1')), text = node.firstChild ?? node;
        range.setStart(text, text.data.indexOf('LPQ1') + 1); range.setEnd(text, text.data.indexOf('LPQ1') + 2);
        const {{ left, top, width, height }} = range.getBoundingClientRect(); return [left + width / 2, top + height / 2]; }})()""")
    shown.js(f"{TEXTAREA}.dispatchEvent(new PointerEvent('pointermove', {{ clientX: {at[0]}, clientY: {at[1]} }}))")
    title = shown.js(f"{TEXTAREA}.title")
    yield "the statement at the pointer", None if title.startswith("LPQ1: ") and len(title) > 20 else title


def long_decks_are_typed(shown):
    """In a deck of 250,000 bytes a key is answered at once."""
    deck = "PROGRAM;\n" + "DUMMY; DUMMY; DUMMY;\n" * 12000 + "FINISH;"
    shown.write_job(job(deck, store=8192))
    shown.view("parts")
    took = shown.js(f"""(async () => {{ const it = {TEXTAREA}; it.focus(); it.setSelectionRange(9, 9); const began = performance.now();
        for (let key = 0; key < 5; key += 1) document.execCommand('insertText', false, 'X');
        await new Promise((done) => requestAnimationFrame(() => setTimeout(done)));
        return (performance.now() - began) / 5; }})()""")
    size = shown.js("kdf9.job().length")
    yield "a key in a long deck", None if size > 250000 and took < 300 else f"{took} ms with {size} bytes"


SUITES = (
    statements_are_explained, every_order_has_its_entry, jumps_are_followed, statements_go_on, texts_are_found_and_replaced, pointers_are_told, long_decks_are_typed,
)
