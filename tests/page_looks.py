"""Tries how the page looks and what a screen reader finds: contrast, names, a telephone, large letters, a lecture, and sheets of paper."""
import base64
import json
import re

from shown import id_of
from slips import RING, job
from toolkit import ROOT

LEAST_CONTRAST = 4.5
TELEPHONE = {"width": 390, "height": 844, "deviceScaleFactor": 1, "mobile": False}
WINDOW = {"width": 1280, "height": 900, "deviceScaleFactor": 1, "mobile": False}

# The texts that can be seen whose contrast with what is behind them is too low, each with its colours.
LOW = """(() => {
    const read = (colour) => { const [red, green, blue, alpha = 1] = colour.match(/[\\d.]+/g).map(Number); return { rgb: [red, green, blue], alpha }; };
    const light = (rgb) => rgb.map((part) => part / 255).map((part) => (part <= 0.04045 ? part / 12.92 : ((part + 0.055) / 1.055) ** 2.4))
        .reduce((sum, part, at) => sum + part * [0.2126, 0.7152, 0.0722][at], 0);
    const contrast = (one, other) => { const [low, high] = [light(one), light(other)].sort((a, b) => a - b); return (high + 0.05) / (low + 0.05); };
    const behind = (element) => {
        for (let it = element; it; it = it.parentElement) {
            const { rgb, alpha } = read(getComputedStyle(it).backgroundColor);
            if (alpha === 1) return rgb;
        }
        return [255, 255, 255];
    };
    const found = [], walker = document.createTreeWalker(document.body, NodeFilter.SHOW_TEXT);
    for (let node = walker.nextNode(); node; node = walker.nextNode()) {
        const element = node.parentElement;
        if (!node.data.trim() || !element.checkVisibility({ visibilityProperty: true }) || ['SCRIPT', 'TEXTAREA', 'OPTION'].includes(element.tagName)) continue;
        const style = getComputedStyle(element), isDrawn = element.closest('svg') !== null;
        const isDigit = isDrawn && element.classList.contains('digit') && !element.classList.contains('of-lent');
        const colour = read(isDrawn ? style.fill : style.color).rgb, ground = isDigit ? read(getComputedStyle(element.previousElementSibling).fill).rgb : behind(element);
        if (contrast(colour, ground) < LEAST) found.push([node.data.trim().slice(0, 30), element.className.baseVal ?? element.className, `${colour}`, `${ground}`]);
    }
    return found;
})()"""

# Whether an element can be seen whole in the window.
IN_SIGHT = "(() => { const { top, bottom, height } = document.getElementById(NAME).getBoundingClientRect(); return height > 0 && top >= 0 && bottom <= innerHeight; })()"

# The texts that can be seen and are smaller than so many pixels, as they are drawn.
SMALL = """(() => {
    const found = [], walker = document.createTreeWalker(document.body, NodeFilter.SHOW_TEXT);
    for (let node = walker.nextNode(); node; node = walker.nextNode()) {
        const element = node.parentElement, drawing = element.closest('svg');
        if (!node.data.trim() || !element.checkVisibility({ visibilityProperty: true }) || ['SCRIPT', 'OPTION'].includes(element.tagName)) continue;
        if (element.classList.contains('digit')) continue;
        const scale = drawing ? drawing.getBoundingClientRect().width / drawing.viewBox.baseVal.width : 1;
        const size = parseFloat(getComputedStyle(element).fontSize) * scale;
        if (size < LEAST) found.push([node.data.trim().slice(0, 30), size]);
    }
    return found;
})()"""

# The texts of the picture that run over its edge, or over the next text of their row.
LEGEND_OVER = """(() => {
    const svg = document.querySelector('#pictured svg'), edge = svg.getBoundingClientRect().right;
    const all = [...svg.querySelectorAll('text:not(.digit)')].map((it) => ({ said: it.textContent, box: it.getBoundingClientRect() }));
    const isOver = ({ box }) => box.right > edge || all.some((other) => Math.abs(other.box.top - box.top) < 2 && other.box.left > box.left && other.box.left < box.right);
    return all.filter(isOver).map(({ said }) => said);
})()"""

# All that a tab leads to, in this sequence. Of the radio buttons of a group it leads to one.
USABLE = """[...document.querySelectorAll('a[href], button, input, select, textarea, summary, [tabindex="0"]')].filter((it) => it.checkVisibility({ visibilityProperty: true })
    && !it.disabled && it.tabIndex >= 0 && (it.type !== 'radio' || it.checked))"""

# What has a role by which it is used.
USED = {"button", "textbox", "combobox", "checkbox", "radio", "slider", "link", "listbox", "DisclosureTriangle"}


def window(shown, size):
    shown.page.send("Emulation.setDeviceMetricsOverride", **size)


def scheme(shown, name):
    shown.page.send("Emulation.setEmulatedMedia", features=[{"name": "prefers-color-scheme", "value": name}])


def show_much(shown):
    """Shows as much as the page can have at once: programs that stopped, their run call by call, the theorem, the last jobs and the keys."""
    shown.write_job(job("PROGRAM;\n1; DUPP; J1; (A COMMENT)\nFINISH;"))
    shown.view("parts")
    shown.page.wait("document.querySelector('.fault') !== null")
    yield "a fault"
    shown.write_job(RING)
    shown.view("parts")
    shown.run("run")
    shown.click("compare-alone")
    shown.idle()
    shown.click("look")
    shown.page.wait("document.querySelector('#replay .programs') !== null")
    shown.js("document.querySelectorAll('details').forEach((it) => { it.open = true; })")
    yield "a run"
    shown.click("show-keys")
    yield "the keys"
    shown.js(f"{id_of('keys')}.close()")
    shown.click("lecture")
    yield "a lecture"
    shown.click("lecture")
    shown.js("document.querySelectorAll('details').forEach((it) => { it.open = false; })")


def texts_have_contrast(shown):
    """All text that can be seen has the contrast that is due, in both schemes and in a lecture."""
    for name in ("light", "dark"):
        scheme(shown, name)
        for what in show_much(shown):
            low = shown.js(LOW.replace("LEAST", str(LEAST_CONTRAST)))
            yield f"the contrast of {what}, {name}", None if low == [] else f"{low[:4]}"
    scheme(shown, "light")


def all_that_is_used_has_its_name(shown):
    """In the tree that a screen reader reads, all that can be used has a role and a name."""
    shown.page.send("Accessibility.enable")
    for what in show_much(shown):
        nodes = shown.page.send("Accessibility.getFullAXTree")["nodes"]
        used = [node for node in nodes if not node["ignored"] and node["role"]["value"] in USED]
        nameless = [node["role"]["value"] for node in used if not node.get("name", {}).get("value", "").strip()]
        yield f"names of {len(used)} controls, {what}", None if used and nameless == [] else f"are missing: {nameless}"
        focused = [node for node in nodes if not node["ignored"] and any(it["name"] == "focusable" and it["value"]["value"] for it in node.get("properties", []))]
        strange = [(node["role"]["value"], node.get("name", {}).get("value")) for node in focused if node["role"]["value"] in ("generic", "none")]
        yield f"roles, {what}", None if strange == [] else f"are missing: {strange[:5]}"
    shown.page.send("Accessibility.disable")


def telephones_show_what_came(shown):
    """On a telephone Run and what it came to stay in sight, wherever the page is; and letters of twice the size make nothing wider than the window."""
    shown.write_job(RING)
    shown.view("parts")
    window(shown, TELEPHONE)
    shown.run("run")
    for at in ("0", "document.documentElement.scrollHeight / 2", "document.documentElement.scrollHeight"):
        shown.js(f"scrollTo(0, {at})")
        seen = [shown.js(IN_SIGHT.replace("NAME", json.dumps(name))) for name in ("run", "state")]
        yield f"Run and the state, {at}", None if seen == [True, True] else f"{seen}"
    shown.js("scrollTo(0, 0)")
    shown.click("to-results")
    shown.page.wait(IN_SIGHT.replace("NAME", '"results-heading"'))
    yield "a button leads to the results", None if shown.js("document.activeElement.id") == "results" else shown.js("document.activeElement.id")
    for what, size in (("a telephone", TELEPHONE), ("a window", WINDOW)):
        window(shown, size)
        shown.js("document.documentElement.style.fontSize = '200%'; 0")
        wide = shown.js("document.documentElement.scrollWidth")
        yield f"letters of twice the size, {what}", None if wide <= size["width"] else f"{wide} wide"
        shown.js("document.documentElement.style.fontSize = ''; 0")


def lectures_are_read_from_afar(shown):
    """In a lecture all letters have 20 pixels or more, and there are the decks, the picture, what came of each program, and all that docs/TEACHING.md uses."""
    shown.example("adds-cards-while-a-tape-is-copied")
    shown.view("parts")
    shown.run("run")
    shown.click("lecture")
    small = [] if shown.js(f"{id_of('lecture')}.ariaPressed") != "true" else shown.js(SMALL.replace("LEAST", "18.5"))
    seen = shown.js("['.slot textarea', '#verdicts', '#pictured svg', '#run', '#example', '#look', '#scheduling', '#shuffle'].map((it) => document.querySelector(it).checkVisibility())")
    over = shown.js(LEGEND_OVER)
    gone = shown.js("['#sections', '#compare-alone', 'footer', '#save'].map((it) => document.querySelector(it).checkVisibility())")
    base = shown.js("parseFloat(getComputedStyle(document.querySelector('.slot textarea')).fontSize)")
    shown.click("lecture")
    yield "the letters of a lecture", None if small == [] and base >= 20 else f"{base} {small[:5]}"
    yield "what a lecture shows", None if all(seen) and not any(gone) else f"{seen} {gone}"
    back = shown.js("document.querySelector('#sections').checkVisibility()")
    yield "the legend in a lecture", None if over == [] else f"runs over: {over}"
    yield "after the lecture", None if back else "the words are gone"


def sheets_are_few(shown):
    """The decks, the picture and what came of them are printed on two sheets at most."""
    for name, due in (("adds-5-and-7", 1), ("adds-cards-while-a-tape-is-copied", 2)):
        shown.example(name)
        shown.view("parts")
        shown.run("run")
        sheets = base64.b64decode(shown.page.send("Page.printToPDF", printBackground=True)["data"]).count(b"/Type /Page\n")
        yield f"the sheets of {name}", None if 1 <= sheets <= due else f"{sheets} in place of {due}"
    shown.page.send("Emulation.setEmulatedMedia", media="print")
    seen = shown.js("['.slot .painted', '#verdicts', '#pictured svg', '#sections table'].map((it) => document.querySelector(it).checkVisibility())")
    gone = shown.js("[...document.querySelectorAll('button, textarea, select')].filter((it) => it.checkVisibility()).length")
    shown.page.send("Emulation.setEmulatedMedia", media="")
    yield "what is printed", None if all(seen) and gone == 0 else f"{seen} {gone}"


def all_is_near_by_keys(shown):
    """All that can be used is at most 12 tabs from the editor of a deck, or from a place to which F6 leads, which the list of keys has."""
    for name in ("adds-cards-while-a-tape-is-copied", "two-programs-share-a-punch"):
        shown.example(name)
        shown.view("parts")
        shown.run("run")
        shown.click("compare-alone")
        shown.idle()
        shown.click("look")
        shown.page.wait("document.querySelector('#replay .programs') !== null")
        shown.js("document.querySelectorAll('details').forEach((it) => { it.open = true; })")
        names = shown.js(f"(globalThis.all = {USABLE}).map((it) => it.id || it.textContent.trim().slice(0, 30) || it.tagName)")
        shown.js("document.querySelector('#editors textarea').focus()")
        stations, at = [], None
        while at not in stations:
            stations.append(at)
            shown.page.press("F6", 117)
            at = shown.js("all.indexOf(document.activeElement)")
        places = [*stations[1:], shown.js("all.indexOf(document.querySelector('#editors textarea'))")]
        far = [each for index, each in enumerate(names) if min(abs(index - place) for place in places) > 12]
        yield f"what is far away, {name}", None if len(names) > 60 and len(places) > 8 and -1 not in places and not far else f"{len(names)} {places} {far}"
    shown.js("document.querySelector('#editors textarea').focus()")
    first, walked = shown.js("all.indexOf(document.activeElement)"), []
    for _ in range(12):
        shown.page.press("Tab", 9)
        walked.append(shown.js("all.indexOf(document.activeElement)") - first)
    yield "the sequence of tabs", None if walked == list(range(1, 13)) else f"{walked}"
    shown.js("document.querySelectorAll('details').forEach((it) => { it.open = false; })")
    shown.run("run")


def keys_are_listed(shown):
    """The key ? lists each key that a script of the page asks for, and nothing opens while a text is written."""
    shown.view("parts")
    shown.js("document.activeElement.blur()")
    shown.page.press("?", 191, text="?")
    is_open, listed = shown.js(f"[{id_of('keys')}.open, [...document.querySelectorAll('#keys kbd')].map((it) => it.textContent)]")
    shown.page.press("Escape", 27)
    asked = {key for path in (ROOT / "web").glob("*.js") if path.name != "proofs.js" for key in re.findall(r'\bkey [!=]== "([^"]+)"', path.read_text(encoding="utf-8"))}
    letters = re.findall(r"^      ?([a-zA-Z]): \(\) =>|, ([a-zA-Z]): \(\) =>", (ROOT / "web/replay.js").read_text(encoding="utf-8"), re.MULTILINE)
    of_pictures = re.findall(r'(?:^  |, )(?:"(.)"|(\w+)): \(it\) =>', (ROOT / "web/pictured.js").read_text(encoding="utf-8"), re.MULTILINE)
    due = asked | {one or other for one, other in letters + of_pictures}
    words = {{"Space": " "}.get(word, word) for key in listed for word in key.split(" ")}
    missing = {key for key in due if key not in words and key != "Tab" and not key.startswith("Arrow")}
    yield "the list of keys", None if is_open and len(due) > 8 and not missing else f"{is_open} {missing} of {due}"
    yield "Escape closes it", None if not shown.js(f"{id_of('keys')}.open") else "it is open"
    shown.js("document.querySelector('.slot textarea').focus()")
    shown.page.press("?", 191, text="?")
    yield "? in a deck is a character", None if not shown.js(f"{id_of('keys')}.open") else "it opens the list"


SUITES = (
    texts_have_contrast, all_that_is_used_has_its_name, telephones_show_what_came, lectures_are_read_from_afar, sheets_are_few, all_is_near_by_keys, keys_are_listed,
)
