"""Tries the courses in the page: an exercise by keys alone, hints, what is kept, the link that is handed in, the teacher's word, questions, and that the page says of each
solution what `./kdf9 mark` says.
"""
import json
import os
import pathlib
import re
import subprocess
import sys
import tempfile

import firefox
from browser import Browser
from page_looks import LEAST_CONTRAST, LOW, TELEPHONE, USABLE, USED, WINDOW, scheme, window
from page_shipped import shipped_page_is_current
from shown import CTRL, Shown, id_of
from toolkit import ROOT, kdf9

sys.path.insert(0, str(ROOT / "tools"))
from courses import machine, marking, paged, reading  # noqa: E402

# The largest page with a course, and the teacher's word of the courses.
MOST_BYTES, WORD = 1_200_000, "director"
COURSES = "machine", "time-sharing"
SHIFT = 8

KEYS = {"Enter": 13, "F6": 117, "Home": 36, "End": 35, "ArrowDown": 40, "ArrowUp": 38, "Delete": 46, "Tab": 9}

# What is typed into the deck of the first exercise of each course, to solve it: keys, and texts. Before it the caret is at the beginning of the deck.
SOLVING = {
    "machine": ["ArrowDown", "End", ("V0; V1; +; =V2;",)],
    "time-sharing": ["ArrowDown", "ArrowDown", "ArrowDown", "Home", "Shift End", "Delete", "ArrowDown", "ArrowDown", "ArrowDown", "Home", ("E32; =Y0;",)],
}

# The places of a course to which F6 leads.
STATIONS = ["#exercise", "#check", "#questions > summary", "#hand-in > summary", "#teacher > summary"]

RESULT = f"{id_of('judged')}.textContent"


def press(shown, keys):
    """Presses a key, perhaps with Shift or Ctrl, or types a text."""
    if isinstance(keys, tuple):
        for letter in keys[0]:
            shown.page.press(letter, ord(letter.upper()), text=letter)
        return
    *held, name = keys.split(" ")
    shown.page.press(name, KEYS[name], sum({"Shift": SHIFT, "Ctrl": CTRL}[each] for each in held), text="\r" if name == "Enter" else "")


def go_to(shown, selector):
    """Goes by F6 to the station of this selector. Returns whether it is one."""
    for _ in range(40):
        if shown.js(f"document.activeElement.matches({json.dumps(selector)})"):
            return True
        press(shown, "F6")
    return False


def checked_by_keys(shown):
    """What is said after Check is pressed by its key."""
    if not go_to(shown, "#check"):
        return "F6 doesn't lead to Check"
    press(shown, "Enter")
    shown.page.wait(f"/^▸? ?[✓✗]/.test({id_of('state')}.textContent)")
    shown.idle()
    return shown.state()


def exercises_are_done_by_keys(shown, course):
    """The first exercise is done by keys alone, from its starting job to all right; a hint is opened on the way."""
    first = reading.course(course)[0]
    runs = f"{sum(1 for _ in paged.planned(first))} runs"
    said = shown.state()
    told = shown.js("[...document.querySelectorAll('#schedules-told li')].map((it) => it.textContent)")
    known = {"at once": "at once: each transfer ends as soon as it has begun.", "after 20": "after 20: each transfer ends 20 calls after it began."}
    plans = dict.fromkeys(plan.text for case in first.cases for plan in case.plans)
    good = len(told) == len(plans) and all(said.startswith(f"{plan}: ") and said == known.get(plan, said) for plan, said in zip(plans, told))
    yield f"{course}: the schedules are told", None if good else f"{told}"
    yield f"{course}: the first exercise", None if said.startswith(f"Exercise {first.number}: {first.title}.") else said
    at_first = checked_by_keys(shown)
    yield f"{course}: the starting job is checked", None if re.match(rf"▸ ✗ \d of {runs} right\. On ", at_first) else at_first
    press(shown, "Tab")
    press(shown, "Tab")
    press(shown, "Enter")
    hint = shown.state()
    yield f"{course}: a hint", None if hint.startswith(f"Hint 1 of {len(first.hints)}: ") and shown.js("document.querySelectorAll('.hints li').length") == 1 else hint
    is_there = go_to(shown, "#editors textarea")
    for keys in ["Ctrl Home", *SOLVING[course]]:
        if keys == "Ctrl Home":
            shown.js("document.activeElement.setSelectionRange(0, 0)")
        else:
            press(shown, keys)
    done = checked_by_keys(shown)
    yield f"{course}: the exercise is done", None if is_there and done == f"✓ {runs[:-5]} of {runs} right." else f"{done} {shown.js('kdf9.job()')}"
    place = shown.js(f"[document.activeElement.id, {id_of('progress')}.textContent, {id_of('exercise')}.selectedOptions[0].text]")
    due = ["check", f"1 of {len(reading.course(course))} exercises right", f"{first.number} {first.title} ✓"]
    yield f"{course}: its progress", None if place == due else f"{place}"
    press(shown, "Tab")
    seen = [shown.js("document.activeElement.textContent")]
    for _ in range(3):
        press(shown, "Tab")
        seen.append(shown.js("document.activeElement.textContent"))
    yield f"{course}: the next exercise by keys", None if "Next exercise" in seen else f"{seen}"


def work_is_kept(shown, course):
    """After a reload the work and the hints are there; another job in the editor isn't taken for it."""
    job = shown.js("kdf9.job()")
    shown.js("onbeforeunload = null; addEventListener('beforeunload', (event) => event.stopImmediatePropagation(), true)")
    shown.click("save")
    shown.page.reload()
    shown = Shown(shown.page)
    shown.page.wait(f"{id_of('progress')} !== null && !{id_of('check')}.disabled")
    seen = shown.js(f"[kdf9.job(), {id_of('progress')}.textContent.slice(0, 5), document.querySelectorAll('.hints li').length, document.querySelector('#course .notice').hidden]")
    yield f"{course}: work after a reload", None if seen == [job, "1 of ", 1, True] else f"{seen}"
    shown.example("reads-tape")
    shown.view("parts")
    shown.type_into(".slot textarea", "PROGRAM; ZERO; OUT; FINISH;\n")
    away = shown.js("!document.querySelector('#course .notice').hidden")
    shown.js("document.querySelector('#course .notice button').click()")
    yield f"{course}: another job is in the editor", None if away and shown.js("kdf9.job()") == job else f"{away} {shown.js('kdf9.job()')}"
    yield f"{course}: and it was put away", None if "Your job was put away" in shown.js(f"{id_of('offer')}.textContent") else "it wasn't"


def links_are_handed_in(shown, opened, course):
    """The link has all work: it opens elsewhere, and mark takes it."""
    shown.js(f"{id_of('hand-in')}.open = true")
    shown.click("work-link")
    shown.page.wait("document.querySelector('#hand-in input').value !== ''")
    link, job = shown.js("document.querySelector('#hand-in input').value"), shown.js("kdf9.job()")
    with tempfile.TemporaryDirectory() as name:
        pathlib.Path(name, "me.txt").write_text(link + "\n", encoding="ascii")
        run = kdf9(["mark", course, name, "--json"], "")
    got = [each["marks"] for each in json.loads(run.out)["students"][0]["exercises"]] if run.status == 0 else []
    yield f"{course}: the link is marked", None if got[:1] == [10] and not any(got[1:]) else f"{run}"
    other = Shown(opened(link, before="if (location.hash) localStorage.clear();"))
    other.page.wait(f"{id_of('state')}.textContent.includes('link')")
    seen = other.js(f"[kdf9.job(), {id_of('progress')}.textContent.slice(0, 5), location.hash]")
    yield f"{course}: the link elsewhere", None if seen == [job, "1 of ", ""] else f"{seen}"
    other.js(f"location.hash = {json.dumps(link[link.index('#'):-9])}")
    other.page.wait(f"{id_of('state')}.textContent.includes('damaged')")
    yield f"{course}: a damaged link", None if other.js("kdf9.job()") == job else other.js("kdf9.job()")
    other.page.close()


def words_open_solutions(shown, course):
    """The teacher's word opens the solution, and another one doesn't; the solution is all right."""
    exercises, shows = reading.course(course), []
    for word in ("password", WORD):
        shown.js(f"{id_of('teacher')}.open = true; document.querySelector('#teacher input').value = {json.dumps(word)}")
        shown.click("open-solutions")
        shows.append(shown.js("document.querySelectorAll('#teacher h4').length"))
    yield f"{course}: the teacher's word", None if shows == [0, 1 + len(exercises[0].wrong)] else f"{shows}"
    file = pathlib.Path(shown.js("decodeURIComponent(location.pathname)")).read_text(encoding="utf-8")
    yield f"{course}: no hash of the word is in the page", None if exercises[0].opens not in file else "it is"
    shown.js("[...document.querySelectorAll('#teacher button')].find((it) => it.textContent === 'Put the solution into the editor').click()")
    shown.click("check")
    shown.idle()
    yield f"{course}: the teacher's solution", None if shown.state().startswith("✓") else shown.state()


def verdicts_are_those_of_mark(shown, course):
    """Of each solution and each wrong one the page says what mark says: the runs, the remark, and what came first that isn't right."""
    for exercise in reading.course(course):
        prints, hidden = marking.prints_of(exercise), [case.name for case in exercise.cases if not case.is_shown]
        alone = exercise.runs - sum(1 for _ in paged.planned(exercise))
        for name, text in [("the solution", exercise.solution), *((wrong.name, wrong.text) for wrong in exercise.wrong)]:
            due = marking.verdict(exercise, text, prints)
            got = shown.js(f"kdf9.check({exercise.number}, {json.dumps(paged.as_job(exercise, text))})")
            what = f"{course} {exercise.number}, {name}"
            if not alone:
                yield f"the runs of {what}", None if (got["right"], got["of"]) == (due.right, due.of) else f"{got} {due}"
            else:
                yield f"the runs of {what}", None if got["of"] == due.of - alone else f"{got} {due}"
            yield f"the remark of {what}", None if got["remark"] == (due.remark or None) or alone and due.is_right else f"{got} {due}"
            missed = got["missed"]
            if missed and missed["case"] and not alone:
                said = f"on {missed['case']}, {missed['plan']}: {missed['came']}; due: {missed['due']}"
                yield f"what came first of {what}", None if due.first.startswith(said) and missed["isShown"] == (missed["case"] not in hidden) else f"{got} {due}"


def failed_runs_are_shown(shown, course):
    """The run that wasn't right is a click away, and shows the call with which the word got its value, or the end."""
    shown.js(f"{id_of('exercise')}.selectedIndex = 0; {id_of('exercise')}.onchange()")
    wrong = reading.course(course)[0].wrong[0]
    shown.write_job(paged.as_job(reading.course(course)[0], wrong.text))
    job = shown.js("kdf9.job()")
    shown.click("check")
    shown.idle()
    seen = shown.js(f"[document.querySelector('#judged .remark')?.textContent, {RESULT}.includes(' runs right. On ')]")
    yield f"{course}: the remark in the page", None if seen == [wrong.remark, True] else f"{seen}"
    shown.click("show-run")
    shown.page.wait("document.querySelector('#replay .programs') !== null")
    shown.idle()
    yield f"{course}: the run is shown", None if shown.state().startswith("After call ") and shown.js("kdf9.job()") == job else shown.state()
    shown.view("parts")


def questions_are_tried(shown, course):
    """A question is tried before its answer is shown."""
    shown.js(f"{id_of('questions')}.open = true")
    at = "document.querySelector('#questions section')"
    before = shown.js(f"[{at}.querySelectorAll('button')[2].disabled, {at}.querySelector('.said').hidden]")
    shown.js(f"{at}.querySelector('input').value = 'nothing'; {at}.querySelectorAll('button')[1].click()")
    wrong = shown.js(f"{at}.querySelector('.said').textContent")
    shown.js(f"{at}.querySelectorAll('button')[2].click()")
    answer = re.search(r"Answer: (.*?)\. ", shown.js(f"{at}.querySelector('.said').textContent"))
    yield f"{course}: a question", None if before == [True, True] and wrong.startswith("✗ nothing") and answer else f"{before} {wrong} {answer}"
    shown.js(f"{at}.querySelector('input').value = {json.dumps(answer[1] if answer else '')}; {at}.querySelectorAll('button')[1].click()")
    right = shown.js(f"{at}.querySelector('.said').textContent")
    yield f"{course}: its answer", None if right.startswith("✓") else right


def courses_look_well(shown, course):
    """All text of the course has contrast in both schemes, all that is used has a name and is near a station, and nothing is wider than a telephone."""
    shown.js("document.querySelectorAll('details').forEach((it) => { it.open = true; })")
    for name in ("dark", "light"):
        scheme(shown, name)
        low = shown.js(LOW.replace("LEAST", str(LEAST_CONTRAST)))
        yield f"{course}: the contrast, {name}", None if low == [] else f"{low[:4]}"
    shown.page.send("Accessibility.enable")
    nodes = shown.page.send("Accessibility.getFullAXTree")["nodes"]
    nameless = [node["role"]["value"] for node in nodes if not node["ignored"] and node["role"]["value"] in USED and not node.get("name", {}).get("value", "").strip()]
    shown.page.send("Accessibility.disable")
    yield f"{course}: names", None if nameless == [] else f"are missing: {nameless}"
    twice = shown.js("[...document.querySelectorAll('[id]')].map((it) => it.id).filter((it, at, all) => all.indexOf(it) !== at)")
    yield f"{course}: ids", None if twice == [] else f"stand twice: {twice}"
    far = shown.js(f"""(() => {{ const all = {USABLE}.filter((it) => it.closest('#course'));
        const places = {json.dumps(STATIONS)}.map((it) => all.indexOf(document.querySelector(it)));
        return all.filter((it, at) => Math.min(...places.map((place) => Math.abs(place - at))) > 12).map((it) => it.textContent); }})()""")
    yield f"{course}: what is far away", None if far == [] else f"{far}"
    window(shown, TELEPHONE)
    width = shown.js("document.documentElement.scrollWidth")
    yield f"{course}: a telephone", None if width <= TELEPHONE["width"] else f"is {width} wide"
    window(shown, WINDOW)
    shown.js("document.querySelectorAll('details').forEach((it) => { it.open = false; })")


def faults_are_marked(shown, course):
    """Check marks the fault of a deck in its editor, also if it comes at once after the change."""
    shown.js(f"{id_of('exercise')}.selectedIndex = 0; {id_of('exercise')}.onchange()")
    shown.view("parts")
    before = shown.js("document.querySelector('.slot textarea').value")
    shown.type_into(".slot textarea", before.replace("ZERO;", "ZERU;"))
    shown.click("check")
    shown.page.wait(f"{RESULT}.includes('has a fault')")
    shown.page.wait("document.querySelector('.gutter .wrong') !== null")
    yield f"{course}: a fault is marked after Check", None if shown.js(f"!{id_of('to-fault')}.hidden") else "there is no button to it"
    shown.type_into(".slot textarea", before)


def tabs_keep_all_work(opened, address, course):
    """Two tabs at different exercises lose nothing of each other's work, and a file of links waits for some."""
    clear = "if (!sessionStorage.begun) { localStorage.clear(); sessionStorage.begun = 'yes'; }"
    tabs = [Shown(opened(address, before=clear)), Shown(opened(address))]
    tabs[0].click("save-links")
    yield f"{course}: a file of links without work", None if "There is no work to hand in yet" in tabs[0].state() else tabs[0].state()
    for at, tab in enumerate(tabs):
        tab.page.wait(f"!{id_of('check')}.disabled")
        tab.js(f"{id_of('exercise')}.selectedIndex = {at}; {id_of('exercise')}.onchange()")
    for at, tab in enumerate(tabs):
        tab.view("parts")
        tab.type_into(".slot textarea", f"(tab {at}) " + tab.js("document.querySelector('.slot textarea').value"))
        for other in tabs:
            other.page.wait(f"localStorage['kdf9.course.{course}'].includes('(tab {at}) ')")
    kept = tabs[0].js(f"Object.values(JSON.parse(localStorage['kdf9.course.{course}']).work).map((it) => /tab \\d/.exec(it.job)?.[0])")
    yield f"{course}: two tabs", None if kept == ["tab 0", "tab 1"] else f"{kept}"
    tabs[1].click("save-links")
    tabs[1].page.wait(f"{id_of('state')}.textContent.includes('has the links')")
    yield f"{course}: a file of links", None if "the links of 2 exercises. Give the file your own name" in tabs[1].state() else tabs[1].state()
    for tab in tabs:
        tab.page.close()


SUITES = faults_are_marked, failed_runs_are_shown, words_open_solutions, questions_are_tried, courses_look_well, verdicts_are_those_of_mark


def course_in_page(opened, file, course):
    """All cases of a course in the page of a file."""
    size = file.stat().st_size
    yield f"{course}: the size of the page", None if size <= MOST_BYTES else f"is {size}"
    yield from shipped_page_is_current(file, f"course-{course}.html")
    shown = Shown(opened(f"file://{file}"))
    yield from exercises_are_done_by_keys(shown, course)
    yield from work_is_kept(shown, course)
    yield from links_are_handed_in(shown, opened, course)
    for suite in SUITES:
        yield from suite(shown, course)
    shown.page.close()
    yield from tabs_keep_all_work(opened, f"file://{file}", course)


def scripts_are_well(running, files):
    """No script failed, and nothing was fetched but the pages."""
    told = [event["params"] for event in running.events if event["method"] in ("Runtime.exceptionThrown", "Log.entryAdded")]
    yield "the scripts of the courses", None if not told else f"{told[:2]}"
    asked = {event["params"]["request"]["url"].split("#")[0][:100] for event in running.events if event["method"] == "Network.requestWillBeSent"}
    foreign = [url for url in asked if url not in {f"file://{file}"[:100] for file in files} and not url.startswith(("data:", "blob:"))]
    yield "what the courses fetch", None if not foreign else f"{foreign}"


def course_in_firefox(file):
    """The first exercise in Firefox, if it is there."""
    if firefox.PROGRAM is None:
        return
    with firefox.Firefox() as running:
        shown = Shown(running.open(f"file://{file}"))
        first = reading.course("machine")[0]
        shown.page.wait(f"!{id_of('check')}.disabled")
        for text, sign in ((first.wrong[0].text, "▸ ✗"), (first.solution, "✓")):
            shown.write_job(paged.as_job(first, text))
            shown.click("check")
            shown.page.wait(f"/^▸? ?[✓✗]/.test({id_of('state')}.textContent) && !{id_of('check')}.disabled")
            yield f"Firefox: Check says {sign}", None if shown.state().startswith(sign) else shown.state()
        shown.js(f"document.querySelector('#teacher input').value = {json.dumps(WORD)}")
        shown.click("open-solutions")
        yield "Firefox: the teacher's word", None if shown.js("document.querySelectorAll('#teacher h4').length") > 1 else shown.state()


def take_picture(opened, file, picture):
    """Takes the picture of docs/PAGE.md: the first exercise after Check."""
    first = reading.course("machine")[0]
    with open(file, "wb") as written:
        subprocess.run([ROOT / "kdf9", "page", "--course", "machine"], stdout=written, check=True)
    shown = Shown(opened(f"file://{file}", width=1200, height=1000))
    shown.page.wait(f"!{id_of('check')}.disabled")
    shown.type_into(".slot textarea", paged.as_job(first, first.wrong[0].text).partition("DECK\n")[2].partition("ENDDECK\n")[0])
    shown.click("check")
    shown.idle()
    shown.click("hint")
    shown.page.picture(picture)
    shown.page.close()


def courses_in_pages(folder):
    """All cases of the courses, whose pages are made in this folder."""
    os.environ.setdefault("KDF9", str(ROOT / "kdf9"))
    machine.answer_here()
    files = []
    for course in COURSES:
        file = folder / f"course-{course}.html"
        with open(file, "wb") as written:
            is_made = subprocess.run([ROOT / "kdf9", "page", "--course", course], stdout=written, check=False).returncode == 0
        yield f"the page of {course}", None if is_made else "isn't made"
        files.append(file)
    refused = kdf9(["page", "--course", "nowhere"], "")
    yield "a page with no course", None if refused.status == 1 and refused.err.count("\n") == 1 and not refused.out else f"{refused}"
    with Browser() as running:
        for course, file in zip(COURSES, files):
            yield from course_in_page(running.open, file, course)
        yield from scripts_are_well(running, files)
    yield from course_in_firefox(files[0])
