"""Tries the page in Firefox: it opens, runs jobs, shows a run call by call, makes and follows a link, and keeps a job."""

import firefox
from shown import Shown, id_of
from toolkit import ROOT

RUNS = "adds-5-and-7", "reads-tape", "two-programs-share-a-punch", "adds-to-nothing"
LOOKED_AT, CALL = "adds-cards-while-a-tape-is-copied", 37


def stored(name, kind):
    return (ROOT / f"examples/{name}.{kind}").read_text(encoding="ascii")


def page_is_used(running, address):
    shown = Shown(running.open(address))
    shown.idle()
    seen = shown.js("document.querySelectorAll('#verdicts .ended').length")
    yield "Firefox: the page when it is opened", None if seen == 1 and shown.state().startswith("Done, in") else shown.state()
    for name in RUNS:
        shown.example(name)
        got = shown.run("run")
        yield f"Firefox: run of {name}", None if got == (stored(name, "report"), 0) else f"{got}"
    shown.example(LOOKED_AT)
    shown.run("run")
    shown.click("look")
    shown.js(f"(() => {{ const it = document.querySelector('#replay input'); it.value = {CALL}; it.dispatchEvent(new Event('input')); }})()")
    shown.page.wait(f"{id_of('state')}.textContent.startsWith('After call {CALL}:')")
    yield "Firefox: a run call by call", None if "program 1 has been held up since call 30 by device 6" in shown.state() else shown.state()
    shown.click("link")
    shown.page.wait(f"!{id_of('link-said')}.hidden")
    link = shown.js(f"{id_of('address')}.value")
    other = Shown(running.open(link))
    other.page.wait(f"{id_of('state')}.textContent.includes('link')")
    yield "Firefox: a link", None if other.js("kdf9.job()") == stored(LOOKED_AT, "job") else other.state()
    other.write_job(stored("reads-tape", "job"))
    other.example("two-parts")
    other.js(f"{id_of('offer')}.querySelector('button').click()")
    yield "Firefox: back to my job", None if other.js("kdf9.job()") == stored("reads-tape", "job") else other.js("kdf9.job()")


def page_in_firefox(address):
    """The page in Firefox, if it is there."""
    if firefox.PROGRAM is None:
        print("page: not tried in Firefox, since there is none")
        return
    with firefox.Firefox() as running:
        yield from page_is_used(running, address)
