"""Tries that the page loses nothing: after another choice, a removal, a reload and a damaged link the job is there, or can be brought back."""
import json

from shown import Shown, id_of
from toolkit import ROOT, job_of_deck

OFFER = f"({id_of('offer')}.hidden ? null : {id_of('offer')}.textContent)"
PRESS = f"{id_of('offer')}.querySelector('button').click()"
KEPT = "[...document.querySelectorAll('#last-jobs-list li')].map((it) => it.textContent)"

# Whether the browser would ask before the tab is closed.
ASKS = "!dispatchEvent(new Event('beforeunload', { cancelable: true }))"

# A browser that lets the page keep nothing.
WITHOUT_STORAGE = "Object.defineProperty(globalThis, 'localStorage', { get() { throw new DOMException('no storage'); } });"

# A page that isn't asked about when it is loaded again, since nobody is there to answer. Nobody has touched it, so the browser wouldn't ask anyway, but complain.
WITHOUT_QUESTION = "addEventListener('beforeunload', (event) => event.stopImmediatePropagation());"

# Drops a file on the page, and pastes so many characters into a deck: what the page takes, and what it refuses, the browser leaves alone.
DROP = """(() => { const dataTransfer = new DataTransfer(), main = document.querySelector('main');
    dataTransfer.items.add(new File([TEXT], 'dropped.job'));
    return ['dragover', 'drop'].map((name) => !main.dispatchEvent(new DragEvent(name, { dataTransfer, bubbles: true, cancelable: true }))); })()"""
PASTE = """(() => { const clipboardData = new DataTransfer();
    clipboardData.setData('text/plain', ' '.repeat(COUNT));
    return !document.querySelector('.slot textarea').dispatchEvent(new ClipboardEvent('paste', { clipboardData, bubbles: true, cancelable: true })); })()"""

TAPE = "reads-tape"


def own_job(number):
    """A job that no example is, and that differs from those of other numbers."""
    return job_of_deck(f"PROGRAM; SET {number}; ZERO; OUT; FINISH;")


def replaced_jobs_come_back(shown):
    """A job that was written is offered after an example was chosen or a file was opened, and so is that which it replaces then."""
    shown.example(TAPE)
    shown.example("two-parts")
    shown.example(TAPE)
    yield "an example that nobody changed isn't put away", None if shown.js(OFFER) is None and not shown.js(ASKS) else shown.js(OFFER)
    shown.write_job(own_job(1))
    yield "the browser asks before unsaved work is closed", None if shown.js(ASKS) else "it doesn't"
    shown.example(TAPE)
    job, offer = shown.js("kdf9.job()"), shown.js(OFFER)
    due = (ROOT / f"examples/{TAPE}.job").read_text(encoding="ascii")
    yield "an example replaces a job", None if job == due and offer == "Your job was put away. Back to my job" else f"{offer} {job}"
    shown.js(PRESS)
    yield "back to my job", None if shown.js("kdf9.job()") == own_job(1) else shown.js("kdf9.job()")
    shown.open_file("other", own_job(2).encode("ascii"))
    shown.js(PRESS)
    yield "back to my job after a file", None if shown.js("kdf9.job()") == own_job(1) else shown.js("kdf9.job()")
    shown.click("save")
    yield "a saved job isn't asked for", None if not shown.js(ASKS) else "it is"


def removals_are_undone(shown):
    """Undo brings back a program, a device, what was on a device, the pool, and the schedule that was there."""
    shown.example("two-programs-share-a-punch")
    shown.view("parts")
    for name in ("Remove the program in slot 1", "Remove device 9", "Remove the pool"):
        before = shown.js("kdf9.job()")
        shown.js(f"document.querySelector('[aria-label={json.dumps(name)}]').click()")
        after = shown.js("kdf9.job()")
        shown.js(PRESS)
        good = after != before and shown.js("kdf9.job()") == before
        yield f"undo: {name}", None if good else f"{after} {shown.js('kdf9.job()')}"
    shown.example(TAPE)
    before = shown.js("kdf9.job()")
    shown.js("(() => { const it = document.querySelector('.devices select'); it.value = 'TP'; it.onchange(); })()")
    after = shown.js("kdf9.job()")
    shown.js(PRESS)
    good = "\nDEVICE 3 TP\nS" in after and shown.js("kdf9.job()") == before
    yield "undo: another kind of device", None if good else f"{after} {shown.js('kdf9.job()')}"
    for name, value in (("after", "20"), ("every", "")):
        shown.js(f"{id_of(name)}.value = {json.dumps(value)}")
    shown.click("schedule")
    shown.idle()
    after = shown.js("kdf9.job()")
    shown.js(PRESS)
    yield "undo: a schedule that was written", None if shown.js("kdf9.job()") == before != after else f"{after} {shown.js('kdf9.job()')}"


def last_jobs_are_listed(shown):
    """The last ten jobs are in a list, the newest first, and each can be brought back."""
    for number in range(20, 33):
        shown.write_job(own_job(number))
        shown.example(TAPE)
    shown.js(f"{id_of('last-jobs')}.open = true; {id_of('last-jobs')}.ontoggle()")
    names = shown.js(KEPT)
    due = [f"1 program, 9 lines: PROGRAM; SET {number}; ZERO; OUT; FINISH;" for number in range(32, 22, -1)]
    good = len(names) == len(due) and all(name.endswith(end) for name, end in zip(names, due))
    yield "the last ten jobs", None if good else f"{names}"
    shown.js("document.querySelectorAll('#last-jobs-list button')[4].click()")
    yield "the fifth of them", None if shown.js("kdf9.job()") == own_job(28) else shown.js("kdf9.job()")
    shown.js(f"{id_of('last-jobs')}.open = false")


def reloads_lose_nothing(opened, address):
    """After a reload, the job that was written is there, also if the page was opened by a link; a second tab begins anew."""
    shown = Shown(opened(address, before=WITHOUT_QUESTION))
    shown.write_job(own_job(41))
    shown.page.reload()
    shown = Shown(shown.page)
    shown.page.wait("kdf9.job().includes('SET 41;')")
    said = shown.state()
    yield "a job after a reload", None if "Here is your job as it was on" in said else said
    shown.click("link")
    shown.page.wait(f"!{id_of('link-said')}.hidden")
    link = shown.js(f"{id_of('address')}.value")
    shown.write_job(own_job(42))
    shown.page.reload()
    shown.page.wait("globalThis.kdf9?.job().includes('SET 42;')")
    shown.page.wait(f"!{id_of('offer')}.hidden")
    offer = shown.js(OFFER)
    shown.js(PRESS)
    good = offer == "This page was opened with another job. Show that job" and shown.js("kdf9.job()") == own_job(41)
    yield "a job and a link after a reload", None if good and link.endswith(shown.js("location.hash")) else f"{offer} {shown.js('kdf9.job()')}"
    shown.write_job(own_job(43))
    shown.js(f"location.hash = {json.dumps(link[link.index('#'):-9])}")
    shown.page.wait(f"{id_of('state')}.textContent.includes('The link is damaged')")
    yield "a damaged link leaves the job", None if shown.js("kdf9.job()") == own_job(43) else shown.js("kdf9.job()")
    shown.js(f"location.hash = {json.dumps(link[link.index('#'):])}")
    shown.page.wait(f"{id_of('state')}.textContent.includes('This is the job of the link')")
    shown.js(PRESS)
    yield "a link puts the job away", None if shown.js("kdf9.job()") == own_job(43) else shown.js("kdf9.job()")
    second = Shown(opened(address))
    yield "a second tab", None if "Done" in second.state() and second.js("kdf9.job()") != own_job(43) else second.state()
    second.page.close()
    shown.page.close()
    shown = Shown(opened(address, before=WITHOUT_STORAGE))
    shown.write_job(own_job(44))
    shown.page.wait(f"!{id_of('not-kept')}.hidden")
    said = shown.js(f"{id_of('not-kept')}.textContent")
    yield "a browser that keeps nothing", None if "Save it as a file" in said and shown.js(ASKS) else said
    shown.page.close()


def files_are_opened(shown):
    """A file that isn't a text leaves the job as it is. One that is dropped on the page is opened, and its fault is shown at once. A paste that is too long is refused."""
    shown.write_job(own_job(51))
    shown.open_file("photo", b"\x89PNG\r\n" + bytes(range(256)))
    yield "a file that isn't a text", None if "isn't a text" in shown.state() and shown.js("kdf9.job()") == own_job(51) else f"{shown.state()} {shown.js('kdf9.job()')}"
    text = own_job(52).replace("SET 52;", "SAT 52;")
    shown.view("parts")
    is_taken = shown.js(DROP.replace("TEXT", json.dumps(text)))
    shown.page.wait(f"{id_of('state')}.textContent.includes('dropped.job')")
    shown.page.wait("document.querySelector('.fault') !== null")
    seen = shown.js("[kdf9.job(), document.querySelector('.fault').textContent.includes('SAT 52')]")
    yield "a file that is dropped", None if is_taken == [True, True] and seen == [text, True] else f"{is_taken} {seen}"
    pasted = [shown.js(PASTE.replace("COUNT", f"{count}")) for count in (1000, 300000)]
    yield "a paste that is too long", None if pasted == [False, True] and "nothing was pasted" in shown.state() else f"{pasted} {shown.state()}"
    shown.js(PRESS)


SUITES = replaced_jobs_come_back, removals_are_undone, last_jobs_are_listed, files_are_opened
