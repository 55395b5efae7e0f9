"""Reads the page of the proofs in Chromium and in Firefox: from the theorem to its words and back, by keys, in both schemes, and on a telephone."""
import json
import pathlib
import time
from typing import Any, Iterator, List, Optional, Tuple

import firefox
from browser import Browser, Failed, Page as Opened
from page_looks import LEAST_CONTRAST, LOW, USED

Cases = Iterator[Tuple[str, Optional[str]]]

READY = "document.readyState === 'complete' && document.title.includes(': ')"
PARTS = ("theorem", "map", "believe", "calls", "rules", "help")
TAB, ENTER, ESCAPE, RIGHT, DOWN = ("Tab", 9), ("Enter", 13), ("Escape", 27), ("ArrowRight", 39), ("ArrowDown", 40)
MOST_TABS = 60

# The entries that the pictures of a reader go through: a definition with a trail, a crate, a module, a call, a law, a field and a word of the library.
SHOWN = ("kdf_lockout.Groups.is_out", "kdf_lockout", "kdf_theory.MachineView", "kdf_director.machine.Machine::order_with", "kdf_director.laws.served.one_journal", "kdf_processor.State.Stock.store", "std.Prelude.map")

# From a step of the theorem to what TOB does.
OF_TOB = "kdf_arith.obey.obey_arith", "kdf_arith.Digits.to_binary"

# What a reader may look for, and where the first of what is found leads.
SOUGHT = [
    ("lockout", "word-lockout-lease"), ("recorded answer", "word-recorded-answer"), ("headline", "said-the-headline"), ("axiom", "question-in-which-logic-is-it-proved-and-with-which-axioms"), ("trusted", "trusted"),
    ("two worlds", "kdf_report.laws.two_worlds"), ("hold-ups", "rule-"), ("seen", "kdf_theory.Seen.seen"), ("IsMachineOf", "kdf_top.Due.IsMachineOf"), ("TOB", "kdf_arith.Rows.arith_row"),
]

# From the theorem, the words that are chosen one after the other, and the definition to which they lead.
WALKS = [
    (["kdf_theory.Flights.touches"], "touches"),
    (["kdf_director.machine.Machine::store", "kdf_director.Lends.IsStored", "kdf_lockout.Groups.is_out"], "is_out"),
    (["kdf_processor.Lone.lone"], "lone"),
    (["kdf_theory.MachineView.ShowsSeen", "kdf_theory.MachineView.states_seen", "kdf_theory.ByJournal.seen_of", "kdf_theory.Seen.seen"], "seen"),
]


def opened(running: Any, file: pathlib.Path, key: str = "") -> Any:
    """The page as it opens, at this name if there is one."""
    page = running.open(f"file://{file}" + (f"#{key}" if key else ""))
    page.wait(READY)
    return page


def choose(page: Any, key: str) -> None:
    """Chooses the first word that can be seen and that leads to this name."""
    page.js(f"""[...document.querySelectorAll('main a')].filter((it) => decodeURIComponent(it.getAttribute('href').slice(1)) === {json.dumps(key)} && it.checkVisibility()
        && !(it instanceof SVGElement) && !it.classList.contains('alone')).at(-1).click()""")
    page.wait(f"decodeURIComponent(location.hash.slice(1)) === {json.dumps(key)}")


def heading(page: Any) -> str:
    """The heading on which the focus is."""
    return page.js("document.activeElement.textContent")


def walks_lead_there(running: Any, file: pathlib.Path, walks: List[Tuple[List[str], str]], where: str) -> Cases:
    """Words that are chosen one after the other lead from the theorem to a definition, and the button Back leads back."""
    for keys, name in walks:
        page = opened(running, file)
        for key in keys:
            choose(page, key)
        got = heading(page)
        yield f"{where}: from the theorem to {name} in {len(keys)} choices", None if got == name else f"is {got!r}"
        for left in range(len(keys) - 1, -1, -1):
            page.js("history.back()")
            due = keys[left - 1] if left else ""
            page.wait(f"decodeURIComponent(location.hash.slice(1)) === {json.dumps(due)}")
        page.wait("document.querySelectorAll('.card').length === 0 && !document.getElementById('part-theorem').hidden")
        yield f"{where}: back from {name} to the theorem", None


def short_walk(page: Any, most: int, first: str, key: str) -> List[str]:
    """The fewest choices that lead to a definition, of which the first is this one."""
    before = {number: [first] for number, entry in enumerate(page.entries) if entry["k"] == first}
    ahead = list(before)
    while ahead:
        number = ahead.pop(0)
        if page.entries[number]["k"] == key:
            return before[number]
        if len(before[number]) < most:
            for to in sorted(page.leads_to(number)):
                if to not in before:
                    before[to] = [*before[number], page.entries[to]["k"]]
                    ahead.append(to)
    return []


def definitions_open_in_place(running: Browser, file: pathlib.Path, data: Any) -> Cases:
    """A definition opens below its clause, with its trail; another word of the clause takes its place; and what was open is so again when the page is loaded anew."""
    walk = short_walk(data, 6, *OF_TOB)
    page = opened(running, file)
    for key in walk:
        choose(page, key)
    trail = page.js("[...document.querySelectorAll('#trail li')].map((it) => it.textContent)")
    names = [key.rpartition(".")[2] for key in walk]
    yield "from the theorem to what TOB does", None if 0 < len(walk) <= 6 and trail == names else f"{walk} {trail}"
    within = page.js("[...document.querySelectorAll('.card')].every((it, at, all) => at === 0 || all[at - 1].contains(it))")
    yield "each within the one before", None if within else "isn't so"
    page.reload()
    page.wait(READY)
    again = page.js("[...document.querySelectorAll('#trail li')].map((it) => it.textContent)")
    yield "the trail when the page is loaded again", None if again == trail else f"{again}"
    page.js("document.querySelector('#trail li:nth-child(2) a').click()")
    left = page.js("[document.querySelectorAll('.card').length, document.querySelectorAll('#trail li').length]")
    yield "back to a step of the trail", None if left == [1, 2] else f"{left}"
    choose(page, walk[2])
    page.js("history.back()")
    page.wait("document.querySelectorAll('.card').length === 1")
    page.js("document.querySelector('.card button').click()")
    left = page.js("[document.querySelectorAll('.card').length, document.getElementById('trail').hidden]")
    yield "a definition that is closed after Back", None if left == [0, True] else f"{left}"
    page.close()


def names_open_by_address(running: Browser, file: pathlib.Path) -> Cases:
    """An address with a name opens that by itself; one with no name of the page says so."""
    for key in SHOWN:
        page = opened(running, file, key)
        title, blocks = page.js("[document.getElementById('entry-title').textContent, document.querySelectorAll('#entry-card .block, #entry-card li').length]")
        yield f"the address of {key}", None if key.endswith(title) and blocks else f"{title} {blocks}"
        page.close()
    page = opened(running, file, "no.such.name<b>")
    said = page.js("document.getElementById('part-entry').innerText")
    yield "an address with no name", None if "no such name" in said and "no.such.name<b>" in said else said
    page.close()


def all_links_lead_somewhere(running: Browser, file: pathlib.Path) -> Cases:
    """Each address in the parts of the page, and in all that opens on them, is one of the page."""
    page = opened(running, file)
    for part in PARTS:
        page.js(f"location.hash = '#{part}'")
        page.wait(f"!document.getElementById('part-{part}').hidden")
        page.js("document.querySelectorAll('.view:not([hidden]) > details, .view:not([hidden]) > div > details').forEach((it) => { it.open = true; })")
        time.sleep(0.2)
        lost = page.js("""(() => { const data = JSON.parse(document.getElementById('data').textContent);
            const known = new Set([...data.entries.map((it) => it.k), ...Object.keys(data.modules), ...data.crates.map((it) => it.name), ...document.getElementById('parts').innerHTML.match(/#\\w+/g).map((it) => it.slice(1))]);
            return [...document.querySelectorAll('.view:not([hidden]) a')].map((it) => decodeURIComponent(it.getAttribute('href').slice(1))).filter((it) => !known.has(it) && !document.getElementById(it)); })()""")
        yield f"the links of {part}", None if lost == [] else f"{lost[:5]}"
    page.close()


def all_texts_are_drawn_as_they_are(running: Browser, file: pathlib.Path, data: Any) -> Cases:
    """The script draws a text letter by letter, whatever letters it has."""
    page = opened(running, file)
    for key in ("kdf_arith.Rows.arith_row", "kdf_top.Due.verdict_line", "kdf_io.Outside.Advances"):
        entry = next(each for each in data.entries if each["k"] == key)
        page.js(f"location.hash = '#{key}'")
        page.wait(f"document.getElementById('entry-title').textContent === {json.dumps(entry['n'])}")
        drawn = page.js("document.querySelector('#entry-card .block').textContent")
        due = "".join(text for text, _ in data.words(entry["x"])).replace("\ue000", "")
        yield f"the text of {key}", None if drawn == due else f"is {drawn[:80]!r}"
    page.close()


def press(page: Opened, key: Tuple[str, int], text: str = "") -> None:
    """Presses a key."""
    page.press(*key, text=text)


def keys_do_all(running: Browser, file: pathlib.Path) -> Cases:
    """By keys alone a reader opens a word of the theorem and one of its definition, closes them, and finds a name."""
    page = opened(running, file)
    first = "document.activeElement.closest('.headline') !== null"
    for _ in range(MOST_TABS):
        if page.js(first):
            break
        press(page, TAB)
    yield "the first word of the theorem by Tab", None if page.js(first) else page.js("document.activeElement.outerHTML")
    word = heading(page)
    press(page, ENTER, "\r")
    page.wait("document.querySelectorAll('.card').length === 1")
    for _ in range(MOST_TABS):
        press(page, TAB)
        if page.js("document.activeElement.closest('.card .block') !== null && !document.activeElement.classList.contains('self')"):
            break
    press(page, ENTER, "\r")
    page.wait("document.querySelectorAll('.card').length === 2")
    yield "a word of its definition by Enter", None
    for left in (1, 0):
        press(page, ESCAPE)
        page.wait(f"document.querySelectorAll('.card').length === {left}")
    yield "closed by Escape", None if heading(page) == word else f"the focus is on {heading(page)!r}"
    press(page, ("/", 191), "/")
    for letter in "is_out":
        press(page, (letter, ord(letter.upper())), letter)
    page.wait("document.querySelectorAll('#found a').length > 0")
    press(page, DOWN)
    press(page, ENTER, "\r")
    page.wait("location.hash.endsWith('.is_out')")
    page.wait("document.getElementById('found').hidden")
    yield "a name that is found", None if page.js("document.getElementById('entry-title').textContent") == "is_out" else "isn't shown"
    left = page.js("document.getElementById('sought').value + document.getElementById('found-said').textContent")
    yield "the search after a name is found", None if left == "" else f"still has {left!r}"
    page.close()


def seek(page: Any, text: str) -> None:
    """Types a text into the search."""
    page.js(f"(() => {{ const it = document.getElementById('sought'); it.focus(); it.value = {json.dumps(text)}; it.dispatchEvent(new Event('input')); }})()")


def words_are_found(running: Browser, file: pathlib.Path) -> Cases:
    """The search finds what the page says in words too, marks the row of an order, and is gone when the reader goes on."""
    page = opened(running, file)
    for text, first in SOUGHT:
        seek(page, text)
        got = page.js("decodeURIComponent(document.querySelector('#found a')?.hash.slice(1) ?? '')")
        yield f"what is found for {text}", None if got.startswith(first) else f"is {got!r}"
    for order in ("TOB", "DIVI", "=LINK"):
        seek(page, order)
        page.js("document.querySelector('#found a').click()")
        page.wait(f"[...document.querySelectorAll('#entry-card .remark.here')].map((it) => it.textContent).join() === {json.dumps(f'-- {order}')}")
        yield f"the row of {order}", None
    seek(page, "seen")
    page.js("document.getElementById('entry-title').click()")
    yield "the search when another place is clicked", None if page.js("document.getElementById('found').hidden") else "is still there"
    page.close()


def picture_goes_on(running: Browser, file: pathlib.Path) -> Cases:
    """On a telephone the picture of the map is scrolled by keys in a box of its own, with a shade at the edge where it goes on."""
    page = running.open(f"file://{file}#map", 390, 844)
    page.wait(READY)
    box = "document.querySelector('#part-map .drawing')"
    for _ in range(MOST_TABS):
        if page.js(f"document.activeElement === {box}"):
            break
        press(page, TAB)
    for _ in range(3):
        press(page, RIGHT)
    page.wait(f"{box}.scrollLeft > 0")
    shade, window = page.js(f"[getComputedStyle({box}).backgroundAttachment, scrollX]")
    yield "the map on a telephone by keys", None if shade == "local, local, scroll, scroll" and window == 0 else f"has the shade {shade}, and the window is scrolled by {window} px"
    page.close()


def places(page: Opened) -> Iterator[str]:
    """Shows the parts of the page one after the other, some with what opens in them."""
    for part in PARTS:
        page.js(f"location.hash = '#{part}'")
        page.wait(f"!document.getElementById('part-{part}').hidden")
        page.js("[...document.querySelectorAll('.view:not([hidden]) details')].slice(0, 12).forEach((it) => { it.open = true; })")
        time.sleep(0.1)
        yield part
    page.js("location.hash = '#theorem'")
    page.wait("!document.getElementById('part-theorem').hidden")
    for key in ("kdf_processor.Lone.lone", "kdf_processor.State.State", "kdf_processor.State.State.stock", "kdf_processor.State.Stock"):
        choose(page, key)
    yield "a trail"
    for key in SHOWN:
        page.js(f"location.hash = '#{key}'")
        page.wait(f"document.getElementById('part-entry').hidden === false && location.hash === '#{key}'")
        page.js("[...document.querySelectorAll('#entry-card details')].forEach((it) => { it.open = true; })")
        time.sleep(0.1)
        yield key


def all_can_be_read(running: Browser, file: pathlib.Path) -> Cases:
    """In both schemes each text has the contrast that is due, and on a telephone nothing is wider than the window."""
    for scheme in ("light", "dark"):
        page = running.open(f"file://{file}", 390, 844, scheme == "dark")
        page.wait(READY)
        for where in places(page):
            low = page.js(LOW.replace("LEAST", str(LEAST_CONTRAST)))
            yield f"the contrast of {where}, {scheme}", None if low == [] else f"{low[:4]}"
            if scheme == "light":
                wide = page.js("document.documentElement.scrollWidth")
                yield f"the width of {where} on a telephone", None if wide <= 390 else f"is {wide}"
        page.close()


def all_has_its_name(running: Browser, file: pathlib.Path) -> Cases:
    """In the tree that a screen reader reads, all that can be used has a role and a name, and the parts of the page are landmarks."""
    page = opened(running, file)
    page.send("Accessibility.enable")
    for where in places(page):
        nodes = [node for node in page.send("Accessibility.getFullAXTree")["nodes"] if not node.get("ignored")]
        roles = {node["role"]["value"] for node in nodes}
        nameless = [node["role"]["value"] for node in nodes if node["role"]["value"] in USED and not node.get("name", {}).get("value", "").strip()]
        lacking = {"main", "navigation", "search", "heading", "banner", "contentinfo"} - roles
        yield f"the names of {where}", None if not nameless and not lacking else f"{nameless[:4]} {lacking}"
        twice = page.js("(() => { const ids = [...document.querySelectorAll('[id]')].map((it) => it.id); return ids.filter((it, at) => ids.indexOf(it) !== at); })()")
        yield f"the ids of {where}", None if twice == [] else f"{twice[:4]}"
    page.close()


def nothing_was_asked_for(running: Browser, file: pathlib.Path) -> Cases:
    """In all that was done, the browser asked for nothing but the page, and no script failed."""
    asked = {event["params"]["request"]["url"].partition("#")[0] for event in running.events if event.get("method") == "Network.requestWillBeSent"}
    failed = [event["params"]["exceptionDetails"]["text"] for event in running.events if event.get("method") == "Runtime.exceptionThrown"]
    yield "what the browser asked for", None if asked == {f"file://{file}"} else f"{asked}"
    yield "scripts that failed", None if not failed else f"{failed[:3]}"


def in_chromium(file: pathlib.Path, data: Any) -> Cases:
    """What comes of reading the page in Chromium."""
    with Browser() as running:
        for suite in (
            walks_lead_there(running, file, WALKS, "Chromium"), definitions_open_in_place(running, file, data), names_open_by_address(running, file), all_links_lead_somewhere(running, file),
            all_texts_are_drawn_as_they_are(running, file, data), keys_do_all(running, file), words_are_found(running, file), picture_goes_on(running, file), all_can_be_read(running, file), all_has_its_name(running, file), nothing_was_asked_for(running, file),
        ):
            try:
                yield from suite
            except Failed as why:
                yield "Chromium", f"{why}"


def in_firefox(file: pathlib.Path) -> Cases:
    """What comes of reading the page in Firefox, if it is there."""
    if firefox.PROGRAM is None:
        print("proofs: not read in Firefox, since there is none")
        return
    with firefox.Firefox() as running:
        try:
            yield from walks_lead_there(running, file, WALKS, "Firefox")
            page = opened(running, file, SHOWN[0])
            title = page.js("document.getElementById('entry-title').textContent")
            yield "Firefox: an address with a name", None if title == "is_out" else title
            page.js("(() => { const it = document.getElementById('sought'); it.value = 'seen_of'; it.dispatchEvent(new Event('input')); document.querySelector('#found a').click(); })()")
            page.wait("location.hash.endsWith('.seen_of')")
            yield "Firefox: a name that is found", None
        except Failed as why:
            yield "Firefox", f"{why}"
